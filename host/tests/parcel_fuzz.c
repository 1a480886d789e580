/*
 * Random calls of the parcel library: usage `parcel_fuzz CALLS SEED FILE`. Each is held to the rules that parcel_rules.c has by itself and
 * to isap's calls on the parcel's parts (parcel_calls.c). What was built is read, opened and built again from that, then spoiled. Parcels
 * are written to FILE for the second program, a line each: instance, key, station, last counter, text, parcel.
 */
#include <inttypes.h>
#include <stdlib.h>
#include <string.h>

#include "draws.h"
#include "parcel.h"
#include "parcel_calls.h"
#include "parcel_rules.h"
#include "random.h"
#include "run.h"

enum { PARCELS_FOR_EACH_LINE = 8 };

static struct parcel_call call;
static unsigned long parcels, buildings[RUN_NUMBERS], openings[RUN_NUMBERS];

/* Ends the run at the first thing that is wrong. */
static void hold(bool holds, const char *what)
{
    if (holds)
        return;
    printf("parcel_fuzz: call %lu (instance %" PRIu32 ", station %" PRIu16 ", last %" PRIu64 ", key %zu, input %zu, out %zu): %s\n", calls,
           call.instance, call.station, call.last, call.key.len, call.input.len, call.out.len, what);
    exit(1);
}

/* Makes a call, holds it to the rules and counts it; gives its number. */
static uint32_t made(const char *(*differs)(struct parcel_call *), unsigned long numbers[RUN_NUMBERS])
{
    const char *what = differs(&call);
    hold(what == NULL, what);
    calls++;
    numbers[isap_number(call.answer)]++;
    return isap_number(call.answer);
}

static void draw_sender(void)
{
    static const uint16_t stations[] = {0, 1, 255, 256, UINT16_MAX};
    static const uint64_t counters[] = {0, 1, 255, UINT32_MAX - 1, UINT32_MAX, INT64_MAX, (uint64_t)1 << 63, UINT64_MAX - 1};
    call.instance = draw_instance();
    call.station = one_in(4) ? stations[random_below(5)] : (uint16_t)random_word();
    call.last = one_in(4) ? counters[random_below(8)] : random_word() >> random_below(64);
}

/* One or several things are wrong. */
static void refused_building(void)
{
    size_t key = 16, text = draw_length(PARCEL_TEXT_MAX);
    uint32_t sure = random_below(5);
    draw_sender();
    if (sure == 0 || one_in(12))
        call.instance = draw_unknown_instance();
    if (sure == 1 || one_in(12))
        key = draw_other_than(16, 64);
    if (sure == 2 || one_in(12))
        text = PARCEL_TEXT_MAX + 1 + random_below(60);
    size_t out = text + PARCEL_ADDED_BYTES;
    if (sure == 3 || one_in(12))
        out = one_in(2) ? out - 1 + 2 * random_below(2) : draw_other_than(out, 60);
    if (sure == 4 || one_in(12))
        call.last = UINT64_MAX;
    lend_parcel_call(&call, key, text, out);
    hold(made(building_differs, buildings) != 0, "a building that must be refused");
}

static void write_parcel(void)
{
    write_number(call.instance);
    write_field(&call.key);
    write_number(call.station);
    write_number(call.last);
    write_field(&call.input);
    write_digits(&call.out);
    end_line();
}

/* What was read and opened, with the counter before, builds the same bytes. */
static void build_again(void)
{
    static struct parcel_call again;
    const struct lent *parcel = &call.input;
    again.instance = parcel_instance(parcel->at, parcel->len);
    again.station = parcel_station(parcel->at, parcel->len);
    again.last = parcel_counter(parcel->at, parcel->len) - 1;
    lend_bytes(&again.key, call.key.at, call.key.len);
    lend_bytes(&again.input, call.out.at, call.out.len);
    lend(&again.out, call.out.len + PARCEL_ADDED_BYTES);
    build(&again);
    hold(memcmp(again.out.at, parcel->at, again.out.len) == 0, "built again it is not the same parcel");
}

/* One thing is wrong: a bit of key, header or any part, the end, or a length. */
static void spoil_opening(size_t parcel_len)
{
    const size_t text_len = parcel_len - PARCEL_ADDED_BYTES;
    uint32_t sure = random_below(6);
    lend(&call.out, sure == 0 ? draw_other_than(text_len, 60) : text_len);
    if (sure == 1)
        lend(&call.key, draw_other_than(16, 64));
    if (sure == 2)
        damage(&call.key);
    if (sure == 3)
        call.input.at[random_below(PARCEL_HEADER_BYTES)] ^= (uint8_t)(1u << random_below(8));
    if (sure == 4)
        call.input.at[random_below((uint32_t)parcel_len)] ^= (uint8_t)(1u << random_below(8));
    if (sure == 5)
        call.input.len = random_below((uint32_t)parcel_len);
    remember(&call.input);
}

static void sent_parcel(void)
{
    static uint8_t text[PARCEL_TEXT_MAX];
    size_t text_len = draw_length(PARCEL_TEXT_MAX);
    draw_sender();
    lend_parcel_call(&call, 16, text_len, text_len + PARCEL_ADDED_BYTES);
    memcpy(text, call.input.at, text_len);
    hold(made(building_differs, buildings) == 0, "a building that must end well");
    if (parcels++ % PARCELS_FOR_EACH_LINE == 0)
        write_parcel();
    hand_over(&call, one_in(2) ? 0 : random_below(60));
    hold(made(opening_differs, openings) == 0, "an opening that must end well");
    hold(memcmp(call.out.at, text, text_len) == 0, "the text did not come back");
    build_again();
    spoil_opening(text_len + PARCEL_ADDED_BYTES);
    hold(made(opening_differs, openings) != 0, "an opening that must be refused");
}

/* Bytes that begin as a parcel might, of any length, often with the header just there or not. */
static void read_noise(void)
{
    uint8_t header[PARCEL_HEADER_BYTES];
    size_t len = one_in(2) ? PARCEL_HEADER_BYTES - random_below(2) : draw_length(120);
    const struct fields fields = {
        random_below(7), (uint16_t)random_word(), random_word(), one_in(4) ? random_below(UINT16_MAX) : random_below(40),
    };
    rules_header(header, &fields);
    if (one_in(4))
        header[random_below(2)] = (uint8_t)random_word();
    lend_parcel_call(&call, one_in(4) ? draw_other_than(16, 64) : 16, len, one_in(2) ? fields.text % 40 : random_below(40));
    memcpy(call.input.at, header, len < sizeof header ? len : sizeof header);
    remember(&call.input);
    hold(made(opening_differs, openings) != 0, "noise that opens");
}

static void make_calls(void)
{
    switch (random_below(4)) {
    case 0:
        refused_building();
        break;
    case 1:
        read_noise();
        break;
    default:
        sent_parcel();
    }
}

static void print_summary(void)
{
    printf("parcel_fuzz: %lu calls as the rules have them\n", calls);
    print_answers("parcel_build", buildings);
    print_answers("parcel_open", openings);
}

int main(int count, char **words)
{
    return random_run(count, words, make_calls, print_summary);
}
