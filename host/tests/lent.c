#include "lent.h"

#include <string.h>
#include <sys/mman.h>

#include "random.h"

static const size_t MUCH = ((size_t)1 << 32) + LENT_GUARD;

/* Where the gap begins and ends that is neither drawn nor kept. It is empty, and stands at the end, unless the length is above the limit. */
static size_t gap_begin(const struct lent *lent)
{
    return lent->len > ISAP_TEXT_MAX ? LENT_END : lent->len;
}

static size_t gap_end(const struct lent *lent)
{
    return lent->len > ISAP_TEXT_MAX ? lent->len - LENT_END : lent->len;
}

void remember(struct lent *lent)
{
    size_t begin = gap_begin(lent), end = gap_end(lent);
    memcpy(lent->before, lent->at - LENT_GUARD, LENT_GUARD + begin);
    memcpy(lent->before + LENT_GUARD + end, lent->at + end, lent->len - end + LENT_GUARD);
}

void lend(struct lent *lent, size_t len)
{
    lent->at = lent->room + LENT_GUARD + random_below(LENT_SHIFTS);
    lent->len = len;
    random_fill(lent->at - LENT_GUARD, LENT_GUARD + gap_begin(lent));
    random_fill(lent->at + gap_end(lent), len - gap_end(lent) + LENT_GUARD);
    remember(lent);
}

void lend_bytes(struct lent *lent, const uint8_t *bytes, size_t len)
{
    lend(lent, len);
    memmove(lent->at, bytes, len);
    remember(lent);
}

uint8_t *lend_much(void)
{
    uint8_t *much = mmap(NULL, MUCH, PROT_READ | PROT_WRITE, MAP_PRIVATE | MAP_ANONYMOUS | MAP_NORESERVE, -1, 0);
    return much == MAP_FAILED ? NULL : much;
}

void give_back_much(uint8_t *much)
{
    munmap(much, MUCH);
}

void damage(struct lent *lent)
{
    lent->at[random_below((uint32_t)lent->len)] ^= (uint8_t)(1u << random_below(8));
    remember(lent);
}

void lend_all(struct call *call, uint32_t instance, const struct lengths *lengths)
{
    call->instance = instance;
    lend(&call->key, lengths->key);
    lend(&call->nonce, lengths->nonce);
    lend(&call->assoc, lengths->assoc);
    lend(&call->text, lengths->text);
    lend(&call->out, lengths->out);
    lend(&call->tag, lengths->tag);
}

bool unchanged(const struct lent *lent)
{
    size_t begin = gap_begin(lent), end = gap_end(lent);
    return memcmp(lent->before, lent->at - LENT_GUARD, LENT_GUARD + begin) == 0 &&
           memcmp(lent->before + LENT_GUARD + end, lent->at + end, lent->len - end + LENT_GUARD) == 0;
}

bool guards_unchanged(const struct lent *lent)
{
    return memcmp(lent->before, lent->at - LENT_GUARD, LENT_GUARD) == 0 &&
           memcmp(lent->before + LENT_GUARD + lent->len, lent->at + lent->len, LENT_GUARD) == 0;
}

bool inputs_unchanged(const struct call *call)
{
    return unchanged(&call->key) && unchanged(&call->nonce) && unchanged(&call->assoc) && unchanged(&call->text);
}

uint64_t seal(struct call *call)
{
    return isap_seal(call->instance, call->key.at, call->key.len, call->nonce.at, call->nonce.len, call->assoc.at, call->assoc.len,
                     call->text.at, call->text.len, call->out.at, call->out.len, call->tag.at, call->tag.len);
}

uint64_t open_sealed(struct call *call)
{
    return isap_open(call->instance, call->key.at, call->key.len, call->nonce.at, call->nonce.len, call->assoc.at, call->assoc.len,
                     call->text.at, call->text.len, call->tag.at, call->tag.len, call->out.at, call->out.len);
}
