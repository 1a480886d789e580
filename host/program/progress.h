/* A line on standard error, where that is a terminal, while the library works on a long text. A run of the program has one at most. */
#ifndef PROGRESS_H
#define PROGRESS_H

#include <stddef.h>
#include <stdint.h>

/*
 * Shows the line for what is done to a text of so many bytes, if it is long and the plan not refused; how long it will take goes by the
 * plan's rounds. It is there at once, and is written anew in its place as time goes by.
 */
void begin_progress(const char *doing, uint32_t instance, size_t text_len, uint64_t plan);

/* Clears the line, if there is one. */
void end_progress(void);

#endif
