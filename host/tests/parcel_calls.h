/* Calls of the parcel library on lent buffers, held to the rules and to what isap's own calls make of a parcel's parts. */
#ifndef PARCEL_CALLS_H
#define PARCEL_CALLS_H

#include "lent.h"

/* What a building or an opening is lent, and what it answered. The input is the text, or bytes that may begin with a parcel. */
struct parcel_call {
    uint32_t instance;
    uint16_t station;
    uint64_t last, answer;
    struct lent key, input, out;
};

/* Lends random bytes of these lengths. */
void lend_parcel_call(struct parcel_call *call, size_t key, size_t input, size_t out);

/* Lends what was built, with so many bytes behind it, as the input, and an output for its text. */
void hand_over(struct parcel_call *call, size_t behind);

/* The call of the library. */
void build(struct parcel_call *call);
void open_parcel(struct parcel_call *call);

/* Make the call and give what is not as it must be, or null. With an opening the same input is read field by field. */
const char *building_differs(struct parcel_call *call);
const char *opening_differs(struct parcel_call *call);

#endif
