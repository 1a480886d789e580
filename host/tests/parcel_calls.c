#include "parcel_calls.h"

#include <string.h>

#include "parcel.h"
#include "parcel_rules.h"

void lend_parcel_call(struct parcel_call *call, size_t key, size_t input, size_t out)
{
    lend(&call->key, key);
    lend(&call->input, input);
    lend(&call->out, out);
}

void hand_over(struct parcel_call *call, size_t behind)
{
    lend(&call->input, call->out.len + behind);
    memcpy(call->input.at, call->out.at, call->out.len);
    remember(&call->input);
    lend(&call->out, call->out.len - PARCEL_ADDED_BYTES);
}

void build(struct parcel_call *call)
{
    call->answer = parcel_build(call->instance, call->key.at, call->key.len, call->station, call->last, call->input.at, call->input.len,
                                call->out.at, call->out.len);
}

void open_parcel(struct parcel_call *call)
{
    call->answer = parcel_open(call->key.at, call->key.len, call->input.at, call->input.len, call->out.at, call->out.len);
}

/* The parcel by isap's sealing of its parts. */
static uint64_t sealed_by_parts(const struct parcel_call *call, uint8_t *parcel)
{
    uint8_t nonce[16];
    const size_t text_len = call->input.len;
    const struct fields fields = {call->instance, call->station, call->last + 1, (uint32_t)text_len};
    rules_header(parcel, &fields);
    rules_nonce(nonce, &fields);
    return isap_seal(call->instance, call->key.at, call->key.len, nonce, 16, parcel, 15, call->input.at, text_len, parcel + 15, text_len,
                     parcel + 15 + text_len, 16);
}

/* The text by isap's opening of the parcel's parts. */
static uint64_t opened_by_parts(const struct parcel_call *call, const struct fields *fields, uint8_t *text)
{
    uint8_t nonce[16];
    const uint8_t *parcel = call->input.at;
    rules_nonce(nonce, fields);
    return isap_open(fields->instance, call->key.at, call->key.len, nonce, 16, parcel, 15, parcel + 15, fields->text,
                     parcel + 15 + fields->text, 16, text, call->out.len);
}

const char *building_differs(struct parcel_call *call)
{
    static uint8_t wanted[PARCEL_TEXT_MAX + PARCEL_ADDED_BYTES];
    uint32_t refusal = rules_build_refusal(call->instance, call->key.len, call->input.len, call->out.len, call->last);
    uint64_t answer = refusal == 0 ? sealed_by_parts(call, wanted) : refusal;
    build(call);
    if (call->answer != answer)
        return "the answer of a building";
    if (!unchanged(&call->key) || !unchanged(&call->input))
        return "a building changed its input";
    if (refusal != 0)
        return unchanged(&call->out) ? NULL : "a refused building changed its output";
    if (!guards_unchanged(&call->out))
        return "a building wrote outside";
    return memcmp(call->out.at, wanted, call->out.len) == 0 ? NULL : "a parcel is not what its parts are";
}

static const char *reading_differs(const struct lent *parcel, uint32_t number, const struct fields *fields)
{
    if (parcel_number(parcel->at, parcel->len) != number)
        return "the number of a reading";
    if (parcel_instance(parcel->at, parcel->len) != fields->instance)
        return "the instance of a reading";
    if (parcel_station(parcel->at, parcel->len) != fields->station)
        return "the station of a reading";
    if (parcel_counter(parcel->at, parcel->len) != fields->counter)
        return "the counter of a reading";
    return parcel_text(parcel->at, parcel->len) == fields->text ? NULL : "the text's length of a reading";
}

const char *opening_differs(struct parcel_call *call)
{
    static uint8_t wanted[LENT_MAX];
    struct fields fields;
    uint32_t refusal = rules_read(&fields, call->input.at, call->input.len);
    memcpy(wanted, call->out.at, call->out.len);
    uint64_t answer = refusal == 0 ? opened_by_parts(call, &fields, wanted) : refusal;
    const char *misread = reading_differs(&call->input, refusal, &fields);
    if (misread != NULL)
        return misread;
    open_parcel(call);
    if (call->answer != answer)
        return "the answer of an opening";
    if (!unchanged(&call->key) || !unchanged(&call->input))
        return "a reading or an opening changed its input";
    if (!guards_unchanged(&call->out))
        return "an opening wrote outside";
    return memcmp(call->out.at, wanted, call->out.len) == 0 ? NULL : "the output of an opening";
}
