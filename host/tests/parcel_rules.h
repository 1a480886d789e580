/* The rules of parcels as a host would write them down, apart from the library: layout, order of refusals, what a reading gives. */
#ifndef PARCEL_RULES_H
#define PARCEL_RULES_H

#include <stddef.h>
#include <stdint.h>

struct fields {
    uint32_t instance;
    uint16_t station;
    uint64_t counter;
    uint32_t text;
};

/* 1, 2, 5, 6, 13 in this order, or 0. */
uint32_t rules_build_refusal(uint32_t instance, size_t key, size_t text, size_t out, uint64_t last);

/* The number of a reading, 14, 12, 14, 1, 5, 14 in this order, or 0; and the fields, all zero on a refusal. */
uint32_t rules_read(struct fields *fields, const uint8_t *bytes, size_t len);

/* A parcel's first 15 bytes, and its nonce. */
void rules_header(uint8_t header[15], const struct fields *fields);
void rules_nonce(uint8_t nonce[16], const struct fields *fields);

#endif
