#include "draws.h"

#include "isap.h"
#include "random.h"

/* The longest text that is drawn for a call that is to end well. Images, which take longer, are no matter of draws. */
enum { DRAWN_TEXT_MAX = 4160 };

/* Now and then any length up to the largest, the lengths at the edges of blocks, and none. */
size_t draw_length(uint32_t largest)
{
    static const uint32_t edges[] = {
        0, 7, 8, 9, 16, 17, 18, 19, 31, 32, 33, 36, 63, 64, 65, 252, 255, 256, 4064, 4065, 4086, 4095, 4096, 4097, DRAWN_TEXT_MAX,
    };
    uint32_t edge = edges[random_below(sizeof edges / sizeof edges[0])];
    switch (random_below(16)) {
    case 0:
        return random_below(largest + 1);
    case 1:
        return edge < largest ? edge : largest;
    case 2:
        return 0;
    default:
        return random_below(40);
    }
}

uint32_t draw_instance(void)
{
    static const uint32_t instances[] = {1, 1, 1, 3, 3, 3, 5, 5, 5, 2, 4};
    return instances[random_below(sizeof instances / sizeof instances[0])];
}

struct lengths draw_lengths(void)
{
    struct lengths lengths = {16, 16, draw_length(ISAP_ASSOC_MAX), draw_length(DRAWN_TEXT_MAX), 0, 16};
    lengths.out = lengths.text;
    return lengths;
}

size_t draw_other_than(size_t right, uint32_t below)
{
    size_t drawn = random_below(below);
    return drawn == right ? below : drawn;
}

uint32_t draw_unknown_instance(void)
{
    static const uint32_t unknown[] = {0, 6, 7, 8, 255, 256, 257, 261, 65537, 65541, 0x80000001, UINT32_MAX};
    return unknown[random_below(sizeof unknown / sizeof unknown[0])];
}

void spoil(uint32_t *instance, struct lengths *lengths)
{
    uint32_t sure = random_below(7);
    if (sure == 0 || one_in(12))
        *instance = draw_unknown_instance();
    if (sure == 1 || one_in(12))
        lengths->key = draw_other_than(16, 64);
    if (sure == 2 || one_in(12))
        lengths->nonce = draw_other_than(16, 64);
    if (sure == 3 || one_in(12))
        lengths->assoc = ISAP_ASSOC_MAX + 1 + random_below(one_in(8) ? 3000 : 8);
    if (sure == 4 || one_in(12)) {
        lengths->text = ISAP_TEXT_MAX + 1 + random_below(one_in(2) ? 1 : 120);
        lengths->out = lengths->text;
    }
    if (sure == 5 || one_in(12))
        lengths->out = one_in(2) ? lengths->text + 1 + random_below(4) : draw_other_than(lengths->text, 60);
    if (sure == 6 || one_in(12))
        lengths->tag = draw_other_than(16, 64);
}
