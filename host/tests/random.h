/* Numbers that look random and are the same in every run with the same seed. */
#ifndef RANDOM_H
#define RANDOM_H

#include <stddef.h>
#include <stdint.h>

void random_begin(uint64_t seed);
uint64_t random_word(void);

/* 0 to below - 1. */
uint32_t random_below(uint32_t below);

/* True in one of so many draws. */
static inline int one_in(uint32_t draws)
{
    return random_below(draws) == 0;
}

void random_fill(uint8_t *at, size_t len);

#endif
