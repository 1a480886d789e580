/* Bytes read from a file or from hex digits, and their wiping. */
#ifndef OCTETS_H
#define OCTETS_H

#include <stdbool.h>
#include <stddef.h>
#include <stdint.h>

/* Bytes, and the room that there is for them: of a fixed length, or on the heap and widened as they come. */
struct octets {
    uint8_t *at;
    size_t len, room;
};

/* Moves the bytes to a room of this length on the heap, and wipes and frees the old one; false where there is no memory. */
bool octets_widen(struct octets *octets, size_t room);

/* Wipes and frees a room on the heap, or none. */
void octets_drop(struct octets *octets);

/* The bytes of a string of hex digit pairs, of which those beyond the room are left out; false where it is no such string. */
bool octets_from_hex(struct octets *into, const char *digits);

/* Overwrites memory in a way that the compiler keeps. */
void wipe(void *from, size_t len);

/* Wipes a string that may be null. */
void forget(char *string);

/* Overwrites the stack that a call of the library has used. */
void wipe_used_stack(void);

#endif
