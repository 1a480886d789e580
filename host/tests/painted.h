/* How deep a piece of work goes: it runs on a stack of its own that was painted before, and the paint that is left tells. */
#ifndef PAINTED_H
#define PAINTED_H

#include <stddef.h>
#include <stdint.h>

enum { PAINTED_BYTES = 1 << 18 };

/* That stack, as the last work left it. */
extern uint8_t painted[PAINTED_BYTES];

/*
 * The bytes from the stack's top down to the lowest one that was written, what surrounds the work included. The work runs twice, on
 * different paints, since a written byte may look like one.
 */
size_t painted_depth(void (*work)(void));

#endif
