/* Whole files and standard streams, without buffers of the C library in which key bytes would stay. */
#ifndef FILES_H
#define FILES_H

#include "octets.h"

/* Says what could not be done with what, and why; gives the exit status. */
int failed(const char *to, const char *what, int cause);

/*
 * Reads the file, or standard input where the path is null, and of it no more than so many bytes. A room on the heap that has less is
 * widened; one of a fixed length must have as many. Gives an exit status, its message printed.
 */
int read_octets(struct octets *into, size_t most, const char *path);

/* Writes the file, or standard output where the path is null. A file comes into being whole or not at all. Gives an exit status. */
int write_octets(const char *path, const uint8_t *from, size_t len);

#endif
