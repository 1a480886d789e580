/*
 * The rules of document 01, and of document 02's request (iv) for instance 5, as a host would write them down, apart from the library: the
 * order of refusals and the counting of rounds.
 */
#ifndef RULES_H
#define RULES_H

#include <stddef.h>
#include <stdint.h>

struct lengths {
    size_t key, nonce, assoc, text, out, tag;
};

/* 1 to 7, or 0. */
uint32_t rules_refusal(uint32_t instance, const struct lengths *lengths);

/* Rounds of an instance from 1 to 5: V, a sealing's, and those of an opening with a right tag. */
uint32_t rules_verify(uint32_t instance, size_t assoc, size_t text);
uint32_t rules_sealing(uint32_t instance, size_t assoc, size_t text);
uint32_t rules_opening(uint32_t instance, size_t assoc, size_t text);

#endif
