/* The parcel library with a fault, as faulty.c has it of isap. */
#include "faulty.h"
#include "parcel.h"

uint64_t __real_parcel_build(uint32_t, const uint8_t *, size_t, uint16_t, uint64_t, const uint8_t *, size_t, uint8_t *, size_t);
uint64_t __real_parcel_open(const uint8_t *, size_t, const uint8_t *, size_t, uint8_t *, size_t);
uint32_t __real_parcel_number(const uint8_t *, size_t);
uint32_t __real_parcel_instance(const uint8_t *, size_t);
uint16_t __real_parcel_station(const uint8_t *, size_t);
uint64_t __real_parcel_counter(const uint8_t *, size_t);
uint32_t __real_parcel_text(const uint8_t *, size_t);

static uint16_t turned(uint16_t station)
{
    return (uint16_t)(station << 8 | station >> 8);
}

/* The faults of what a building that ended well leaves. */
static void spoil_parcel(const uint8_t *key, size_t text_len, uint8_t *out, size_t out_len)
{
    if (fault("mark_bit"))
        flip(out);
    if (fault("ciphertext_of_a_parcel_bit") && text_len > 0)
        flip(out + PARCEL_HEADER_BYTES);
    if (fault("tag_of_a_parcel_bit"))
        flip(out + out_len - 1);
    if (fault("byte_before_parcel"))
        flip(out - 1);
    if (fault("byte_behind_parcel"))
        flip(out + out_len);
    if (fault("key_of_a_parcel_written"))
        flip(key);
}

/* The faults of a building's answer. */
static uint64_t spoiled_building(uint64_t answer, size_t key_len, uint64_t last)
{
    uint32_t number = isap_number(answer);
    if (fault("one_round_more_for_a_parcel") && number == ISAP_ENDED_WELL)
        return answer + ((uint64_t)1 << 32);
    if (fault("rounds_of_a_refused_parcel") && number == PARCEL_COUNTER_SPENT)
        return answer + ((uint64_t)1 << 32);
    if (fault("isaps_limit_for_a_parcel") && number == ISAP_LONG_TEXT)
        return ISAP_ENDED_WELL;
    if (fault("key_before_instance") && number == ISAP_BAD_INSTANCE && key_len != ISAP_KEY_BYTES)
        return ISAP_BAD_KEY;
    if (fault("counter_before_output") && number == ISAP_BAD_OUT && last == UINT64_MAX)
        return PARCEL_COUNTER_SPENT;
    return answer;
}

uint64_t __wrap_parcel_build(uint32_t instance, const uint8_t *key, size_t key_len, uint16_t station, uint64_t last, const uint8_t *text,
                             size_t text_len, uint8_t *out, size_t out_len)
{
    if (fault("counter_used_again") && last > 0 && last < UINT64_MAX)
        last--;
    if (fault("counter_begins_anew") && last == UINT64_MAX)
        last = 0;
    if (fault("instance_5_not_built") && instance == ISAP_SPOOK_128_512_SU)
        return ISAP_BAD_INSTANCE;
    if (fault("longer_output_taken") && out_len == text_len + PARCEL_ADDED_BYTES + 1)
        out_len--;
    if (fault("station_turned"))
        station = turned(station);
    uint64_t answer = __real_parcel_build(instance, key, key_len, station, last, text, text_len, out, out_len);
    if (isap_number(answer) == ISAP_ENDED_WELL)
        spoil_parcel(key, text_len, out, out_len);
    else if (fault("parcel_written_with_a_refusal") && out_len > 0)
        flip(out);
    return spoiled_building(answer, key_len, last);
}

uint64_t __wrap_parcel_open(const uint8_t *key, size_t key_len, const uint8_t *parcel, size_t parcel_len, uint8_t *out, size_t out_len)
{
    size_t text_len = __real_parcel_text(parcel, parcel_len);
    uint64_t answer = __real_parcel_open(key, key_len, parcel, parcel_len, out, out_len);
    uint32_t number = isap_number(answer);
    if (fault("opening_counted_as_a_building") && number == ISAP_ENDED_WELL)
        return isap_plan_seal(parcel[2], PARCEL_HEADER_BYTES, (uint32_t)text_len);
    if (fault("bytes_behind_refused") && number == ISAP_ENDED_WELL && parcel_len > text_len + PARCEL_ADDED_BYTES)
        return PARCEL_CUT_SHORT;
    if (fault("key_before_mark") && number == PARCEL_WRONG_MARK && key_len != ISAP_KEY_BYTES)
        return ISAP_BAD_KEY;
    if (fault("wrong_tag_of_a_parcel_ends_well") && number == ISAP_WRONG_TAG)
        return answer - ISAP_WRONG_TAG;
    if (fault("text_written_with_a_refusal") && number != ISAP_ENDED_WELL && out_len > 0)
        flip(out);
    if (fault("text_of_a_parcel_bit") && number == ISAP_ENDED_WELL && out_len > 0)
        flip(out + out_len - 1);
    if (fault("parcel_written") && number == ISAP_ENDED_WELL)
        flip(parcel + 3);
    return answer;
}

uint32_t __wrap_parcel_number(const uint8_t *parcel, size_t parcel_len)
{
    uint32_t number = __real_parcel_number(parcel, parcel_len);
    if (fault("fifteen_bytes_before_mark") && number == PARCEL_WRONG_MARK && parcel_len < PARCEL_HEADER_BYTES)
        return PARCEL_CUT_SHORT;
    if (fault("instance_before_fifteen_bytes") && number == PARCEL_CUT_SHORT && parcel_len == PARCEL_HEADER_BYTES - 1 && parcel[2] == 0)
        return ISAP_BAD_INSTANCE;
    if (fault("instance_6_read") && number == ISAP_BAD_INSTANCE && parcel[2] == ISAP_SPOOK_128_512_SU + 1)
        return ISAP_ENDED_WELL;
    if (fault("length_before_instance") && number == ISAP_BAD_INSTANCE && parcel[13] >= PARCEL_TEXT_MAX >> 8)
        return ISAP_LONG_TEXT;
    if (fault("tag_not_counted") && number == PARCEL_CUT_SHORT && parcel_len >= PARCEL_ADDED_BYTES - 1)
        return ISAP_ENDED_WELL;
    return number;
}

uint32_t __wrap_parcel_instance(const uint8_t *parcel, size_t parcel_len)
{
    return fault("instance_of_a_refusal") && parcel_len > 2 ? parcel[2] : __real_parcel_instance(parcel, parcel_len);
}

uint16_t __wrap_parcel_station(const uint8_t *parcel, size_t parcel_len)
{
    uint16_t station = __real_parcel_station(parcel, parcel_len);
    return fault("read_station_turned") ? turned(station) : station;
}

uint64_t __wrap_parcel_counter(const uint8_t *parcel, size_t parcel_len)
{
    uint64_t counter = __real_parcel_counter(parcel, parcel_len);
    return fault("read_counter_cut") ? (uint32_t)counter : counter;
}

uint32_t __wrap_parcel_text(const uint8_t *parcel, size_t parcel_len)
{
    uint32_t text = __real_parcel_text(parcel, parcel_len);
    return fault("read_length_cut") ? (uint8_t)text : text;
}
