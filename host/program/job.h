/* A job of the program, from the words of the command line to the written output. */
#ifndef JOB_H
#define JOB_H

#include "octets.h"
#include "options.h"
#include "parcel.h"

/*
 * What the library is lent. Key, nonce and associated data have room for one byte more than the longest that is right: what is too long
 * stays too long, and the library refuses it. Input and output, which may be long, are on the heap.
 */
struct job {
    uint32_t instance;
    uint16_t station;
    uint64_t last;
    struct octets key, nonce, assoc, input, out;
    uint8_t key_room[ISAP_KEY_BYTES + 1], nonce_room[ISAP_NONCE_BYTES + 1], assoc_room[ISAP_ASSOC_MAX + 1];
};

/* Bytes from hex digits on the command line, which are wiped there, or from a file. Gives an exit status, its message printed. */
int read_bytes(struct octets *into, char *digits, const char *path, const char *missing);

/* Read the key, which may not be left out, and the input, of which no more than so many bytes are read. */
int read_key(struct job *job, const struct options *options);
int read_input(struct job *job, size_t most, const struct options *options);

/* Tells a refusal and its cause, and gives the exit status. */
int refused(uint32_t number, const char *cause);

/* The exit status of an answer; a refusal is told. */
int status_of(uint64_t answer);

/*
 * Prepares a job by the options, does the work, writes the output and wipes the job. The output has room for what the work adds to the
 * input; the work sets its length, and gives an exit status, its message printed.
 */
int run_job(int (*prepare)(struct job *, const struct options *), int (*work)(struct job *), const struct options *options);

#endif
