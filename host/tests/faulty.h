/* For a library with a fault that stands between a test and the library (linked with --wrap). */
#ifndef FAULTY_H
#define FAULTY_H

#include <stdbool.h>
#include <stdint.h>

/* Whether the environment's FAULT says so. */
bool fault(const char *name);

/* Spoils a byte, even one that was lent to be read only. */
void flip(const uint8_t *at);

#endif
