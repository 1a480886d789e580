#include "parcel_rules.h"

#include <string.h>

static uint64_t number_at(const uint8_t *at, size_t count)
{
    return count == 0 ? 0 : number_at(at, count - 1) << 8 | at[count - 1];
}

static void put_number(uint8_t *at, size_t count, uint64_t number)
{
    for (size_t i = 0; i < count; i++)
        at[i] = (uint8_t)(number >> 8 * (count - 1 - i));
}

uint32_t rules_build_refusal(uint32_t instance, size_t key, size_t text, size_t out, uint64_t last)
{
    if (instance < 1 || instance > 5)
        return 1;
    if (key != 16)
        return 2;
    if (text > 4096)
        return 5;
    if (out != text + 31)
        return 6;
    return last == UINT64_MAX ? 13 : 0;
}

static uint32_t refusal_of(const uint8_t *bytes, size_t len)
{
    if (len < 2)
        return 14;
    if (bytes[0] != 0xA7 || bytes[1] != 0x5C)
        return 12;
    if (len < 15)
        return 14;
    if (bytes[2] < 1 || bytes[2] > 5)
        return 1;
    if (number_at(bytes + 13, 2) > 4096)
        return 5;
    return len < 31 + number_at(bytes + 13, 2) ? 14 : 0;
}

uint32_t rules_read(struct fields *fields, const uint8_t *bytes, size_t len)
{
    uint32_t refusal = refusal_of(bytes, len);
    memset(fields, 0, sizeof *fields);
    if (refusal != 0)
        return refusal;
    fields->instance = bytes[2];
    fields->station = (uint16_t)number_at(bytes + 3, 2);
    fields->counter = number_at(bytes + 5, 8);
    fields->text = (uint32_t)number_at(bytes + 13, 2);
    return 0;
}

void rules_header(uint8_t header[15], const struct fields *fields)
{
    put_number(header, 2, 0xA75C);
    put_number(header + 2, 1, fields->instance);
    put_number(header + 3, 2, fields->station);
    put_number(header + 5, 8, fields->counter);
    put_number(header + 13, 2, fields->text);
}

void rules_nonce(uint8_t nonce[16], const struct fields *fields)
{
    put_number(nonce, 2, fields->station);
    put_number(nonce + 2, 8, fields->counter);
    put_number(nonce + 10, 6, 0);
}
