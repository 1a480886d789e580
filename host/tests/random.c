#include "random.h"

#include <string.h>

static uint64_t state = 1;

void random_begin(uint64_t seed)
{
    state = seed;
}

/* A counter with an odd step, its bits mixed by shifts and odd factors. */
uint64_t random_word(void)
{
    state += 0x9E3779B97F4A7C15u;
    uint64_t word = state;
    word = (word ^ (word >> 32)) * 0xD6E8FEB86659FD93u;
    word = (word ^ (word >> 29)) * 0xA0761D6478BD642Fu;
    return word ^ (word >> 32);
}

uint32_t random_below(uint32_t below)
{
    return (uint32_t)(((random_word() >> 32) * below) >> 32);
}

void random_fill(uint8_t *at, size_t len)
{
    while (len > 0) {
        uint64_t word = random_word();
        size_t part = len < sizeof word ? len : sizeof word;
        memcpy(at, &word, part);
        at += part;
        len -= part;
    }
}
