/* Instances and lengths drawn for random calls. */
#ifndef DRAWS_H
#define DRAWS_H

#include "rules.h"

/* 1 to 5; instances 2 and 4 take many rounds and come less often. */
uint32_t draw_instance(void);
uint32_t draw_unknown_instance(void);

/* A length up to the largest, mostly short, and one that is not the right one. */
size_t draw_length(uint32_t largest);
size_t draw_other_than(size_t right, uint32_t below);

/* Lengths that the library takes. */
struct lengths draw_lengths(void);

/* Makes one or several things wrong. */
void spoil(uint32_t *instance, struct lengths *lengths);

#endif
