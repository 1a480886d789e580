#include "rules.h"

enum { SPOOK = 5 };

/* The table 'The four instances'. */
static const struct {
    uint32_t block, sH, sB, sE, sK;
} instances[5] = {
    [1] = {8, 12, 1, 6, 12},
    [2] = {8, 12, 12, 12, 12},
    [3] = {18, 16, 1, 8, 8},
    [4] = {18, 20, 12, 12, 12},
};

uint32_t rules_refusal(uint32_t instance, const struct lengths *lengths)
{
    if (instance < 1 || instance > SPOOK)
        return 1;
    if (lengths->key != 16)
        return 2;
    if (lengths->nonce != 16)
        return 3;
    if (lengths->assoc > 256)
        return 4;
    if (lengths->text > 1048576)
        return 5;
    if (lengths->out != lengths->text)
        return 6;
    return lengths->tag != 16 ? 7 : 0;
}

/* R */
static uint32_t rekeying(uint32_t instance)
{
    return 2 * instances[instance].sK + 127 * instances[instance].sB;
}

/* A last short one counted. */
static uint32_t blocks(size_t len, uint32_t block)
{
    return ((uint32_t)len + block - 1) / block;
}

/* u + v */
static uint32_t spook_blocks(size_t assoc, size_t text)
{
    return blocks(assoc, 32) + blocks(text, 32);
}

uint32_t rules_verify(uint32_t instance, size_t assoc, size_t text)
{
    if (instance == SPOOK)
        return 24 + 12 * (1 + spook_blocks(assoc, text));
    uint32_t block = instances[instance].block;
    return instances[instance].sH * ((uint32_t)assoc / block + (uint32_t)text / block + 4) + rekeying(instance);
}

uint32_t rules_sealing(uint32_t instance, size_t assoc, size_t text)
{
    uint32_t verify = rules_verify(instance, assoc, text);
    if (instance == SPOOK)
        return verify;
    return verify + rekeying(instance) + instances[instance].sE * blocks(text, instances[instance].block);
}

/* Spook walks a second time for a text that is not empty. */
uint32_t rules_opening(uint32_t instance, size_t assoc, size_t text)
{
    uint32_t second_walk = instance == SPOOK && text > 0 ? 12 + 12 * spook_blocks(assoc, text) : 0;
    return rules_sealing(instance, assoc, text) + second_walk;
}
