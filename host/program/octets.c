#include "octets.h"

#include <stdlib.h>
#include <string.h>

#include "parcel.h"

/* 0 to 15, or -1. */
static int digit_value(char digit)
{
    static const char digits[] = "0123456789abcdef0123456789ABCDEF";
    const char *found = digit == '\0' ? NULL : strchr(digits, digit);
    return found == NULL ? -1 : (int)((found - digits) % 16);
}

bool octets_from_hex(struct octets *into, const char *digits)
{
    into->len = 0;
    for (; *digits != '\0'; digits += 2) {
        int high = digit_value(digits[0]);
        int low = high < 0 ? -1 : digit_value(digits[1]);
        if (low < 0)
            return false;
        if (into->len < into->room)
            into->at[into->len++] = (uint8_t)(16 * high + low);
    }
    return true;
}

bool octets_widen(struct octets *octets, size_t room)
{
    struct octets wider = {malloc(room), octets->len, room};
    if (wider.at == NULL)
        return false;
    if (octets->len > 0)
        memcpy(wider.at, octets->at, octets->len);
    octets_drop(octets);
    *octets = wider;
    return true;
}

void octets_drop(struct octets *octets)
{
    wipe(octets->at, octets->room);
    free(octets->at);
}

void wipe(void *from, size_t len)
{
    volatile uint8_t *at = from;
    while (len > 0)
        at[--len] = 0;
}

void forget(char *string)
{
    if (string != NULL)
        wipe(string, strlen(string));
}

__attribute__((noinline)) void wipe_used_stack(void)
{
    uint8_t used[ISAP_STACK_BYTES > PARCEL_STACK_BYTES ? ISAP_STACK_BYTES : PARCEL_STACK_BYTES];
    wipe(used, sizeof used);
}
