/*
 * The program with its surroundings in a test's hands (linked with --wrap), as the environment says:
 *
 *   MEMORY=N    no block of more than N bytes is to be had
 *   THREADS=no  no thread is to be had
 *   SLOW=N      the sealing of a text takes N milliseconds more, if it is long enough for a line that tells the time
 *
 * Ends the program with status 99 where it gives memory back that still holds text (the test's are of the letter x), and where it ends with
 * memory that it has not given back.
 */
#define _GNU_SOURCE /* memmem */
#include <errno.h>
#include <malloc.h>
#include <pthread.h>
#include <stdbool.h>
#include <stdio.h>
#include <stdlib.h>
#include <string.h>
#include <time.h>
#include <unistd.h>

#include "wrapped.h"

enum { FAILED = 99, BLOCKS = 16 };

void *__real_malloc(size_t len);
void __real_free(void *block);
int __real_pthread_create(pthread_t *thread, const pthread_attr_t *attributes, void *(*start)(void *), void *given);
void *__wrap_malloc(size_t len);
void __wrap_free(void *block);
int __wrap_pthread_create(pthread_t *thread, const pthread_attr_t *attributes, void *(*start)(void *), void *given);

static unsigned long number_in(const char *name, unsigned long otherwise)
{
    const char *word = getenv(name);
    return word == NULL ? otherwise : strtoul(word, NULL, 10);
}

/* The blocks that the program holds. What the C library allocates for it is not among them. */
static void *held[BLOCKS];

/* Puts one in the place of the other, if that is there. */
static bool exchanged(const void *other, void *one)
{
    for (size_t i = 0; i < BLOCKS; i++) {
        if (held[i] == other) {
            held[i] = one;
            return true;
        }
    }
    return false;
}

static void look_at_the_end(void)
{
    for (size_t i = 0; i < BLOCKS; i++) {
        if (held[i] != NULL) {
            fprintf(stderr, "watched: memory that is not given back\n");
            _exit(FAILED);
        }
    }
}

__attribute__((constructor)) static void watch(void)
{
    atexit(look_at_the_end);
}

void *__wrap_malloc(size_t len)
{
    void *block = len <= number_in("MEMORY", ~0ul) ? __real_malloc(len) : NULL;
    if (block == NULL)
        errno = ENOMEM;
    else if (!exchanged(NULL, block))
        abort();
    return block;
}

void __wrap_free(void *block)
{
    static const char text[] = "xxxxxxxxxxxxxxxx";
    if (block != NULL && memmem(block, malloc_usable_size(block), text, sizeof text - 1) != NULL) {
        fprintf(stderr, "watched: text in memory that is given back\n");
        _exit(FAILED);
    }
    if (block != NULL)
        exchanged(block, NULL);
    __real_free(block);
}

int __wrap_pthread_create(pthread_t *thread, const pthread_attr_t *attributes, void *(*start)(void *), void *given)
{
    return getenv("THREADS") == NULL ? __real_pthread_create(thread, attributes, start, given) : EAGAIN;
}

uint64_t __wrap_isap_seal(uint32_t instance, const uint8_t *key, size_t key_len, const uint8_t *nonce, size_t nonce_len,
                          const uint8_t *assoc, size_t assoc_len, const uint8_t *text, size_t text_len, uint8_t *out, size_t out_len,
                          uint8_t *tag, size_t tag_len)
{
    unsigned long more = text_len > 65536 ? number_in("SLOW", 0) : 0;
    const struct timespec time = {(time_t)(more / 1000), (long)(more % 1000) * 1000000};
    nanosleep(&time, NULL);
    return __real_isap_seal(instance, key, key_len, nonce, nonce_len, assoc, assoc_len, text, text_len, out, out_len, tag, tag_len);
}
