/*
 * Buffers that a test lends to a call. Each stands at an odd place between guard bytes, and what it held before is kept. Of one that is too
 * long for any call, LENT_END bytes at each end are drawn and kept, the rest is left as it was: a megabyte drawn for every refusal would
 * take too long. A lent buffer has two megabytes of room, so it is static.
 */
#ifndef LENT_H
#define LENT_H

#include <stdbool.h>
#include <stddef.h>
#include <stdint.h>

#include "isap.h"
#include "rules.h"

enum { LENT_GUARD = 64, LENT_SHIFTS = 16, LENT_END = 512, LENT_MAX = ISAP_TEXT_MAX + 128 };

struct lent {
    uint8_t room[LENT_GUARD + LENT_SHIFTS + LENT_MAX + LENT_GUARD];
    uint8_t before[LENT_GUARD + LENT_MAX + LENT_GUARD];
    uint8_t *at;
    size_t len;
};

/* All that a whole call is lent. */
struct call {
    uint32_t instance;
    struct lent key, nonce, assoc, text, out, tag;
};

/* Lends random bytes, guards and place drawn anew. */
void lend(struct lent *lent, size_t len);

/* Lends these bytes. */
void lend_bytes(struct lent *lent, const uint8_t *bytes, size_t len);

/* 2^32 zero bytes and some more, for lengths of more than 32 bits; null where there is no room. */
uint8_t *lend_much(void);
void give_back_much(uint8_t *much);

/* Takes the bytes as they are now for those before the call. */
void remember(struct lent *lent);

/* Flips one bit, and remembers it so. */
void damage(struct lent *lent);

/* Lends random bytes of these lengths to a call. */
void lend_all(struct call *call, uint32_t instance, const struct lengths *lengths);

/* Whether nothing changed, guards included; whether nothing changed outside. */
bool unchanged(const struct lent *lent);
bool guards_unchanged(const struct lent *lent);

/* Whether nothing changed of what both calls lend as const: key, nonce, associated data, text. */
bool inputs_unchanged(const struct call *call);

/* The call of the library. */
uint64_t seal(struct call *call);
uint64_t open_sealed(struct call *call);

#endif
