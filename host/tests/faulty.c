/*
 * A library with a fault: stands between a test and the library (linked with --wrap) and spoils what a call gives, as the environment's
 * FAULT says. The script `faults` sees to it that a test fails with each, and passes with none.
 */
#include <stdlib.h>
#include <string.h>

#include "faulty.h"
#include "wrapped.h"

bool fault(const char *name)
{
    const char *wanted = getenv("FAULT");
    return wanted != NULL && strcmp(wanted, name) == 0;
}

void flip(const uint8_t *at)
{
    *(uint8_t *)(uintptr_t)at ^= 0x20;
}

/* The faults of an instance at the end of the row. */
static uint32_t other_instance(uint32_t instance)
{
    if (fault("instance_5_unknown") && instance == ISAP_SPOOK_128_512_SU)
        return 0;
    return fault("instance_6_known") && instance == ISAP_SPOOK_128_512_SU + 1 ? ISAP_SPOOK_128_512_SU : instance;
}

/* The faults of an answer in either direction, to a call with these lengths. */
static uint64_t spoiled(uint64_t answer, uint32_t instance, size_t assoc_len, size_t text_len)
{
    uint32_t number = isap_number(answer);
    if (fault("empty_text_counted_short") && number == ISAP_ENDED_WELL && text_len == 0)
        return isap_plan_verify(instance, (uint32_t)assoc_len, 0);
    if (fault("one_round_more") && isap_rounds(answer) > 0)
        return answer + ((uint64_t)1 << 32);
    if (fault("rounds_of_a_refusal") && number == ISAP_LONG_TEXT)
        return answer + ((uint64_t)1 << 32);
    if (fault("limit_of_4096") && number == ISAP_ENDED_WELL && text_len > 4096)
        return ISAP_LONG_TEXT;
    if (fault("largest_text_refused") && number == ISAP_ENDED_WELL && text_len == ISAP_TEXT_MAX)
        return ISAP_LONG_TEXT;
    if (fault("one_byte_more_taken") && number == ISAP_LONG_TEXT && text_len == ISAP_TEXT_MAX + 1)
        return ISAP_ENDED_WELL;
    if (fault("key_and_nonce_exchanged") && (number == ISAP_BAD_KEY || number == ISAP_BAD_NONCE))
        return ISAP_BAD_KEY + ISAP_BAD_NONCE - number;
    return answer;
}

/* The faults of an opening's rounds where they are not the sealing's. */
static uint64_t spoiled_opening(uint64_t answer, uint32_t instance, size_t assoc_len, size_t text_len)
{
    if (isap_number(answer) != ISAP_ENDED_WELL || instance != ISAP_SPOOK_128_512_SU)
        return answer;
    if (fault("opening_counted_as_a_sealing"))
        return isap_plan_seal(instance, (uint32_t)assoc_len, (uint32_t)text_len);
    if (fault("empty_text_walked_for") && text_len == 0)
        return answer + ((uint64_t)12 << 32);
    return answer;
}

uint64_t __wrap_isap_seal(uint32_t instance, const uint8_t *key, size_t key_len, const uint8_t *nonce, size_t nonce_len,
                          const uint8_t *assoc, size_t assoc_len, const uint8_t *text, size_t text_len, uint8_t *out, size_t out_len,
                          uint8_t *tag, size_t tag_len)
{
    instance = other_instance(instance);
    uint64_t answer = __real_isap_seal(instance, key, key_len, nonce, nonce_len, assoc, assoc_len, text, text_len, out, out_len, tag,
                                       tag_len);
    int well = isap_number(answer) == ISAP_ENDED_WELL;
    if (fault("byte_behind_out") && well)
        flip(out + out_len);
    if (fault("byte_before_tag") && well)
        flip(tag - 1);
    if (fault("key_written") && well)
        flip(key);
    if (fault("tag_written_with_a_refusal") && isap_number(answer) == ISAP_LONG_ASSOC && tag_len > 0)
        flip(tag);
    if (fault("output_written_with_a_long_text") && isap_number(answer) == ISAP_LONG_TEXT && out_len > 0)
        flip(out + out_len - 1);
    if (fault("ciphertext_bit") && well && out_len > 0)
        flip(out);
    if (fault("another_tag") && well)
        flip(tag);
    return spoiled(answer, instance, assoc_len, text_len);
}

uint64_t __wrap_isap_open(uint32_t instance, const uint8_t *key, size_t key_len, const uint8_t *nonce, size_t nonce_len,
                          const uint8_t *assoc, size_t assoc_len, const uint8_t *text, size_t text_len, const uint8_t *tag,
                          size_t tag_len, uint8_t *out, size_t out_len)
{
    uint8_t received[ISAP_TAG_BYTES];
    instance = other_instance(instance);
    if (fault("another_tag") && tag_len == sizeof received) {
        memcpy(received, tag, sizeof received);
        flip(received);
        tag = received;
    }
    uint64_t answer = __real_isap_open(instance, key, key_len, nonce, nonce_len, assoc, assoc_len, text, text_len, tag, tag_len, out,
                                       out_len);
    int wrong = isap_number(answer) == ISAP_WRONG_TAG;
    if (fault("wrong_tag_ends_well") && wrong)
        return answer - ISAP_WRONG_TAG;
    if (fault("text_written_with_a_wrong_tag") && wrong && out_len > 0)
        flip(out);
    if (fault("plaintext_bit") && isap_number(answer) == ISAP_ENDED_WELL && out_len > 0)
        flip(out + out_len - 1);
    return spoiled(spoiled_opening(answer, instance, assoc_len, text_len), instance, assoc_len, text_len);
}

uint64_t __wrap_isap_plan_seal(uint32_t instance, uint32_t assoc_len, uint32_t text_len)
{
    if (fault("sealing_planned_as_an_opening"))
        return isap_plan_total(instance, assoc_len, text_len);
    return __real_isap_plan_seal(instance, assoc_len, text_len);
}
