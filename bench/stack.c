/* The stack that a whole call takes, with the painted stack of host/tests. Prints a line for each instance: instance, then for a short and
   for a long text the bytes of a sealing and of an opening. An empty call's bytes are taken off. */
#include <stdio.h>

#include "isap.h"
#include "painted.h"

enum { ASSOC = ISAP_ASSOC_MAX, SHORT = 4096, LONG = ISAP_TEXT_MAX };

static uint8_t key[16], nonce[16], tag[16], assoc[ASSOC], text[LONG], cipher[LONG], opened[LONG];
static uint32_t instance;
static size_t length, empty;
static uint64_t answer;

static void nothing(void)
{
}

static void seal(void)
{
    answer = isap_seal(instance, key, 16, nonce, 16, assoc, ASSOC, text, length, cipher, length, tag, 16);
}

static void open(void)
{
    answer = isap_open(instance, key, 16, nonce, 16, assoc, ASSOC, cipher, length, tag, 16, opened, length);
}

/* Prints what a text of that many bytes takes. Whether it could be opened. */
static int printed(size_t bytes)
{
    length = bytes;
    size_t sealing = painted_depth(seal), opening = painted_depth(open);
    printf(" %zu %zu", sealing - empty, opening - empty);
    return isap_number(answer) == ISAP_ENDED_WELL;
}

int main(void)
{
    empty = painted_depth(nothing);
    for (instance = 1; instance <= 5; instance++) {
        printf("%u", (unsigned)instance);
        if (!printed(SHORT) || !printed(LONG))
            return 1;
        printf("\n");
    }
    return 0;
}
