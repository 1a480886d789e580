/* Whole calls on bytes that valgrind's memcheck is told to hold for undefined, for the script `undefined`. What a call gives is marked as
   defined again before the program looks at it; instance, lengths and answer are no secrets.

   Reads lines 'OPERATION INSTANCE ASSOC_LEN TEXT_LEN MARKED LEAK' and prints each with three numbers more: the answer's, how many bytes of
   the output (of a sealing, text and tag) depend on marked ones in every bit, and how many reports memcheck had for the call.
   OPERATION is seal, open, or refused, which opens with a bit of the tag wrong. MARKED is all (key, nonce, associated data, text and
   received tag), tag (that one alone) or none. LEAK is for leaky.c. */
#include "isap.h"
#include <stdio.h>
#include <stdlib.h>
#include <string.h>
#include <valgrind/memcheck.h>

static uint8_t key[ISAP_KEY_BYTES], nonce[ISAP_NONCE_BYTES], tag[ISAP_TAG_BYTES], assoc[ISAP_ASSOC_MAX], text[ISAP_TEXT_MAX];
static uint8_t out[ISAP_TEXT_MAX];
static unsigned instance;
static size_t a, m;

static void fill(uint8_t *bytes, size_t len, unsigned seed)
{
    for (size_t i = 0; i < len; i++)
        bytes[i] = (uint8_t)(seed + 37 * i);
}

static uint64_t sealed(void)
{
    return isap_seal(instance, key, sizeof key, nonce, sizeof nonce, assoc, a, text, m, out, m, tag, sizeof tag);
}

static uint64_t opened(void)
{
    return isap_open(instance, key, sizeof key, nonce, sizeof nonce, assoc, a, text, m, tag, sizeof tag, out, m);
}

/* Bytes to seal or, sealed unmarked, to open. */
static void prepare(int seals)
{
    fill(key, sizeof key, 1);
    fill(nonce, sizeof nonce, 2);
    fill(assoc, a, 3);
    fill(text, m, 4);
    if (!seals) {
        (void)sealed();
        memcpy(text, out, m);
    }
    memset(out, 0, sizeof out);
}

static void mark(const uint8_t *bytes, size_t len)
{
    (void)VALGRIND_MAKE_MEM_UNDEFINED(bytes, len);
}

static void mark_all(void)
{
    mark(key, sizeof key);
    mark(nonce, sizeof nonce);
    mark(assoc, a);
    mark(text, m);
}

/* How many of these bytes depend on marked ones in every bit. */
static size_t reached(const uint8_t *bytes, size_t len)
{
    static uint8_t undefined[ISAP_TEXT_MAX];
    size_t count = 0;
    memset(undefined, 0, sizeof undefined);
    (void)VALGRIND_GET_VBITS(bytes, undefined, len);
    for (size_t i = 0; i < len; i++)
        count += undefined[i] == 0xFF;
    return count;
}

static void call(const char *operation, const char *marked)
{
    int seals = strcmp(operation, "seal") == 0;
    prepare(seals);
    tag[15] ^= strcmp(operation, "refused") == 0;
    if (strcmp(marked, "all") == 0)
        mark_all();
    if (!seals && strcmp(marked, "none") != 0)
        mark(tag, sizeof tag);
    unsigned before = VALGRIND_COUNT_ERRORS;
    uint64_t answer = seals ? sealed() : opened();
    unsigned reports = VALGRIND_COUNT_ERRORS - before;
    (void)VALGRIND_MAKE_MEM_DEFINED(&answer, sizeof answer);
    size_t depend = reached(out, m) + (seals ? reached(tag, sizeof tag) : 0);
    printf(" %u %zu %u\n", (unsigned)isap_number(answer), depend, reports);
}

int main(void)
{
    char operation[8], marked[8], leak[16];
    while (scanf("%7s %u %zu %zu %7s %15s", operation, &instance, &a, &m, marked, leak) == 6) {
        if (a > sizeof assoc || m > sizeof text || setenv("LEAK", leak, 1) != 0)
            return 2;
        printf("%s %u %zu %zu %s %s", operation, instance, a, m, marked, leak);
        call(operation, marked);
    }
    return 0;
}
