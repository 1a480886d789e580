/* The calls as a library that stands between a program and isap has them (linked with --wrap). */
#ifndef WRAPPED_H
#define WRAPPED_H

#include "isap.h"

uint64_t __real_isap_seal(uint32_t, const uint8_t *, size_t, const uint8_t *, size_t, const uint8_t *, size_t, const uint8_t *, size_t,
                          uint8_t *, size_t, uint8_t *, size_t);
uint64_t __real_isap_open(uint32_t, const uint8_t *, size_t, const uint8_t *, size_t, const uint8_t *, size_t, const uint8_t *, size_t,
                          const uint8_t *, size_t, uint8_t *, size_t);
uint64_t __real_isap_plan_seal(uint32_t, uint32_t, uint32_t);
uint64_t __wrap_isap_seal(uint32_t, const uint8_t *, size_t, const uint8_t *, size_t, const uint8_t *, size_t, const uint8_t *, size_t,
                          uint8_t *, size_t, uint8_t *, size_t);
uint64_t __wrap_isap_open(uint32_t, const uint8_t *, size_t, const uint8_t *, size_t, const uint8_t *, size_t, const uint8_t *, size_t,
                          const uint8_t *, size_t, uint8_t *, size_t);
uint64_t __wrap_isap_plan_seal(uint32_t, uint32_t, uint32_t);

#endif
