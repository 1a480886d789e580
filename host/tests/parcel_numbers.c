/* The parcel library through C: every number at its boundaries with what it leaves, the order of refusals, and the layout. */
#include <errno.h>
#include <string.h>

#include "checks.h"
#include "parcel.h"
#include "parcel_calls.h"

static struct parcel_call call;

/* A building as call says, with these lengths, gives this number. */
static void builds(size_t key, size_t text, size_t out, uint32_t number)
{
    lend_parcel_call(&call, key, text, out);
    check(building_differs(&call) == NULL);
    check(isap_number(call.answer) == number);
    check(parcel_counter_to_keep(call.answer, call.last) == call.last + (number == 0 ? 1 : 0));
}

/* An opening of what is lent gives this number. */
static void opens(uint32_t number)
{
    check(opening_differs(&call) == NULL);
    check(isap_number(call.answer) == number);
}

/* A parcel is built and, from a buffer with bytes behind it, read and opened. */
static void sends(uint32_t instance, uint16_t station, uint64_t last, size_t text, size_t behind)
{
    static uint8_t plain[PARCEL_TEXT_MAX];
    call.instance = instance;
    call.station = station;
    call.last = last;
    builds(16, text, text + PARCEL_ADDED_BYTES, 0);
    memcpy(plain, call.input.at, text);
    hand_over(&call, behind);
    opens(0);
    check(memcmp(call.out.at, plain, text) == 0);
    check(parcel_station(call.input.at, call.input.len) == station && parcel_counter(call.input.at, call.input.len) == last + 1);
}

/* Everything is wrong; mending one thing after the other gives the next number. */
static void building_in_order(void)
{
    call.instance = 0;
    call.station = 7;
    call.last = UINT64_MAX;
    builds(15, 4097, 4127, 1);
    call.instance = 1;
    builds(15, 4097, 4127, 2);
    builds(16, 4097, 4127, 5);
    builds(16, 4096, 4128, 6);
    builds(16, 4096, 4127, 13);
    call.last--;
    builds(16, 4096, 4127, 0);
}

static void building_alone(void)
{
    static const struct {
        uint32_t instance;
        size_t key, text, out;
        uint32_t number;
    } cases[] = {
        {0, 16, 8, 39, 1},     {6, 16, 8, 39, 1},      {257, 16, 8, 39, 1},    {UINT32_MAX, 16, 8, 39, 1}, {1, 0, 8, 39, 2},
        {2, 15, 8, 39, 2},     {3, 17, 8, 39, 2},      {4, 32, 8, 39, 2},      {1, 16, 4097, 4128, 5},     {1, 16, 4097, 4127, 5},
        {1, 16, 0, 30, 6},     {1, 16, 0, 32, 6},      {1, 16, 0, 0, 6},       {2, 16, 1, 31, 6},          {2, 16, 1, 33, 6},
        {2, 16, 1, 1, 6},      {3, 16, 4096, 4126, 6}, {3, 16, 4096, 4128, 6}, {3, 16, 4096, 4096, 6},     {4, 16, 8, 24, 6},
        {1, 16, 0, 31, 0},     {1, 16, 1, 32, 0},      {1, 16, 4096, 4127, 0}, {2, 16, 0, 31, 0},          {2, 16, 1, 32, 0},
        {2, 16, 4096, 4127, 0}, {3, 16, 0, 31, 0},     {3, 16, 4095, 4126, 0}, {4, 16, 1, 32, 0},          {4, 16, 4096, 4127, 0},
        {5, 17, 8, 39, 2},     {5, 16, 4097, 4128, 5}, {5, 16, 32, 62, 6},     {5, 16, 0, 31, 0},          {5, 16, 4096, 4127, 0},
        /* Lengths that isap takes: one that two bytes would hold, one that they would cut to 0, the longest. */
        {1, 16, 8192, 8223, 5}, {3, 16, 65536, 65567, 5}, {5, 16, 1048576, 1048607, 5},
    };
    for (size_t i = 0; i < sizeof cases / sizeof cases[0]; i++) {
        call.instance = cases[i].instance;
        builds(cases[i].key, cases[i].text, cases[i].out, cases[i].number);
    }
}

static void counters(void)
{
    static const uint64_t lasts[] = {0, 1, 254, 255, UINT32_MAX - 1, UINT32_MAX, INT64_MAX, (uint64_t)1 << 63, UINT64_MAX - 1};
    static const uint16_t stations[] = {0, 1, 255, 256, 0x7FFF, 0x8000, UINT16_MAX};
    for (size_t i = 0; i < sizeof lasts / sizeof lasts[0]; i++)
        sends(1, stations[i % 7], lasts[i], i, i);
    call.last = UINT64_MAX;
    builds(16, 8, 39, 13);
}

/* The header byte by byte. */
static void layout(void)
{
    static const uint8_t header[] = {0xA7, 0x5C, 2, 0x12, 0x34, 1, 2, 3, 4, 5, 6, 7, 8, 0x0F, 0xFE};
    errno = ERANGE;
    sends(2, 0x1234, 0x0102030405060707, 0x0FFE, 0);
    check(sizeof header == PARCEL_HEADER_BYTES && memcmp(call.input.at, header, sizeof header) == 0);
    check(errno == ERANGE);
}

/* Rounds as planned: a building's are the sealing's, an opening's its own. */
static void planned(uint32_t instance, uint32_t text)
{
    errno = ERANGE;
    call.instance = instance;
    builds(16, text, text + PARCEL_ADDED_BYTES, 0);
    check(call.answer == isap_plan_seal(instance, PARCEL_HEADER_BYTES, text));
    hand_over(&call, 0);
    opens(0);
    check(call.answer == isap_plan_total(instance, PARCEL_HEADER_BYTES, text));
    damage(&call.key);
    lend(&call.out, text);
    opens(8);
    check(call.answer - ISAP_WRONG_TAG == isap_plan_verify(instance, PARCEL_HEADER_BYTES, text));
    check(errno == ERANGE);
}

static void rounds(void)
{
    call.station = 7;
    call.last = 41;
    for (uint32_t instance = 1; instance <= 5; instance++) {
        planned(instance, 0);
        planned(instance, 40);
        planned(instance, PARCEL_TEXT_MAX);
    }
}

/* The parcel's first len bytes are lent. */
static void cut(size_t len, uint32_t number)
{
    call.input.len = len;
    remember(&call.input);
    opens(number);
}

/* A parcel cut at every length from a shortest one to its own. */
static void cut_from(size_t shortest, size_t text)
{
    sends(3, 12, 41, text, 0);
    for (size_t len = shortest; len < text + PARCEL_ADDED_BYTES; len++)
        cut(len, 14);
    cut(text + PARCEL_ADDED_BYTES, 0);
}

/* With one bit flipped reading gives this number, and so does opening; where that is 0, opening finds the wrong tag. */
static void damaged_at(size_t byte, size_t bit, uint32_t number)
{
    call.input.at[byte] ^= (uint8_t)(1u << bit);
    remember(&call.input);
    check(parcel_number(call.input.at, call.input.len) == number);
    lend(&call.out, parcel_text(call.input.at, call.input.len));
    opens(number == 0 ? 8 : number);
    call.input.at[byte] ^= (uint8_t)(1u << bit);
}

/* Every bit of the header of a parcel of instance 1 with 40 bytes of text. A length that is too long takes in the 9 bytes behind it. */
static void damaged_header(void)
{
    static const uint8_t numbers[PARCEL_HEADER_BYTES][8] = {
        {12, 12, 12, 12, 12, 12, 12, 12},
        {12, 12, 12, 12, 12, 12, 12, 12},
        {1, 0, 0, 1, 1, 1, 1, 1},
        [13] = {14, 14, 14, 14, 5, 5, 5, 5},
        [14] = {0, 0, 0, 0, 14, 0, 14, 14},
    };
    sends(1, 12, 41, 40, 9);
    for (size_t bit = 0; bit < 8 * PARCEL_HEADER_BYTES; bit++)
        damaged_at(bit / 8, bit % 8, numbers[bit / 8][bit % 8]);
}

static void damaged_body(uint32_t instance)
{
    sends(instance, 12, 41, 40, 9);
    for (size_t byte = PARCEL_HEADER_BYTES; byte < 40 + PARCEL_ADDED_BYTES; byte += 5)
        damaged_at(byte, byte % 8, 0);
}

/* Lends a header of these fields, cut or with bytes behind it so that there are len. */
static void lend_header(uint8_t mark, uint8_t instance, uint16_t text, size_t len)
{
    const uint8_t header[PARCEL_HEADER_BYTES] = {mark, 0x5C, instance, [13] = (uint8_t)(text >> 8), (uint8_t)text};
    lend_parcel_call(&call, 16, len, text < 50 ? text : 50);
    memcpy(call.input.at, header, len < sizeof header ? len : sizeof header);
    remember(&call.input);
}

/* Everything is wrong; mending one thing after the other gives the next number. */
static void reading_in_order(void)
{
    static const struct {
        uint8_t mark, instance;
        uint16_t text;
        size_t len;
        uint32_t number;
    } cases[] = {
        {0xA6, 0, 4097, 0, 14},    {0xA6, 0, 4097, 1, 14},       {0xA6, 0, 4097, 2, 12},    {0xA6, 0, 4097, 14, 12},
        {0xA6, 0, 4097, 4200, 12}, {0xA7, 0, 4097, 14, 14},      {0xA7, 0, 4097, 15, 1},    {0xA7, 6, 4097, 15, 1},
        {0xA7, 255, 0, 31, 1},     {0xA7, 1, 4097, 15, 5},       {0xA7, 4, 4097, 4128, 5},  {0xA7, 1, UINT16_MAX, 4200, 5},
        {0xA7, 1, 4096, 15, 14},   {0xA7, 1, 4096, 4126, 14},    {0xA7, 4, 4096, 4127, 6},  {0xA7, 4, 0, 30, 14},
        {0xA7, 4, 0, 31, 8},       {0xA7, 2, 41, 40 + 31, 14},   {0xA7, 2, 41, 41 + 31, 8}, {0xA7, 3, 41, 4200, 8},
        {0xA7, 5, 4097, 15, 5},    {0xA7, 5, 0, 30, 14},         {0xA7, 5, 0, 31, 8},       {0xA7, 5, 41, 4200, 8},
    };
    for (size_t i = 0; i < sizeof cases / sizeof cases[0]; i++) {
        lend_header(cases[i].mark, cases[i].instance, cases[i].text, cases[i].len);
        opens(cases[i].number);
    }
}

/* Key and output of other lengths, and which of them is told first. */
static void opening_in_order(void)
{
    sends(4, 12, 41, 40, 3);
    call.input.at[70] ^= 1;
    remember(&call.input);
    lend(&call.out, 40);
    opens(8);
    lend(&call.out, 39);
    opens(6);
    lend(&call.out, 41);
    opens(6);
    lend(&call.key, 15);
    opens(2);
    lend(&call.key, 17);
    opens(2);
    cut(70, 14);
    call.input.at[0] ^= 1;
    cut(71, 12);
}

/* Bytes behind a parcel, even another parcel, change nothing. */
static void bytes_behind(void)
{
    for (size_t behind = 0; behind < 20; behind++)
        sends(1, 12, behind, behind, 3 * behind);
    sends(3, 12, 41, PARCEL_TEXT_MAX, ISAP_TEXT_MAX - PARCEL_TEXT_MAX - PARCEL_ADDED_BYTES);
    sends(3, 12, 41, 40, 40 + PARCEL_ADDED_BYTES);
    memcpy(call.input.at + 40 + PARCEL_ADDED_BYTES, call.input.at, 40 + PARCEL_ADDED_BYTES);
    remember(&call.input);
    opens(0);
}

/* Lengths whose low 32 bits would do: they are refused as what they are, but for bytes behind a parcel. */
static void lengths_above_32_bits(void)
{
    const size_t over = (size_t)1 << 32;
    uint8_t out[39] = {0}, *much = lend_much();
    check(much != NULL);
    if (much == NULL)
        return;
    check(parcel_build(1, much, over + 16, 1, 1, much, 8, out, 39) == ISAP_BAD_KEY);
    check(parcel_build(1, much, 16, 1, 1, much, over + 8, out, 39) == ISAP_LONG_TEXT);
    check(parcel_build(1, out, 16, 1, 1, out, 8, much, over + 39) == ISAP_BAD_OUT);
    check(parcel_number(much, over) == PARCEL_WRONG_MARK);
    sends(1, 1, 1, 8, 0);
    check(parcel_open(much, over + 16, call.input.at, 39, out, 8) == ISAP_BAD_KEY);
    check(parcel_open(call.key.at, 16, call.input.at, 39, much, over + 8) == ISAP_BAD_OUT);
    memcpy(much, call.input.at, 39);
    check(parcel_number(much, over) == 0 && parcel_text(much, over + 1) == 8);
    check(isap_number(parcel_open(call.key.at, 16, much, over, out, 8)) == 0 && memcmp(out, call.out.at, 8) == 0);
    give_back_much(much);
}

/* A text built with the counter that call has: the ciphertext. */
static const uint8_t *sealed(const uint8_t *text, size_t len)
{
    lend_bytes(&call.input, text, len);
    lend(&call.out, len + PARCEL_ADDED_BYTES);
    check(building_differs(&call) == NULL);
    return call.out.at + PARCEL_HEADER_BYTES;
}

/* What is said of a counter that is used twice, in an instance of ISAP: the ciphertexts have the xor of the texts, as far as the shorter
 * goes; */
static void counter_used_twice(uint32_t instance)
{
    static uint8_t text[40], cipher[40];
    sends(instance, 12, 41, 40, 0);
    memcpy(text, call.out.at, 40);
    memcpy(cipher, call.input.at + PARCEL_HEADER_BYTES, 40);
    lend(&call.input, 24);
    lend(&call.out, 24 + PARCEL_ADDED_BYTES);
    check(building_differs(&call) == NULL);
    for (size_t i = 0; i < 24; i++)
        check((cipher[i] ^ call.out.at[PARCEL_HEADER_BYTES + i]) == (text[i] ^ call.input.at[i]));
}

/* a text's first part, of any length, has the first part of its ciphertext; and the ciphertext, taken for a text, gives the text. */
static void counter_used_again(uint32_t instance)
{
    static uint8_t text[40], cipher[40];
    sends(instance, 12, 41, 40, 0);
    memcpy(text, call.out.at, 40);
    memcpy(cipher, call.input.at + PARCEL_HEADER_BYTES, 40);
    for (size_t len = 0; len <= 40; len++)
        check(memcmp(sealed(text, len), cipher, len) == 0);
    check(memcmp(sealed(cipher, 40), text, 40) == 0);
}

/* The same in instance 5, where texts of equal length differ first in their second block. */
static void counter_used_twice_by_spook(void)
{
    static uint8_t text[100], cipher[100];
    sends(5, 12, 41, 100, 0);
    memcpy(text, call.out.at, 100);
    memcpy(cipher, call.input.at + PARCEL_HEADER_BYTES, 100);
    text[40] ^= 1;
    const uint8_t *other = sealed(text, 100);
    cipher[40] ^= 1;
    check(memcmp(cipher, other, 64) == 0);
    check(memcmp(cipher + 64, other + 64, 36) != 0);
}

int main(void)
{
    building_in_order();
    building_alone();
    counters();
    layout();
    rounds();
    cut_from(0, 0);
    cut_from(0, 1);
    cut_from(0, 300);
    cut_from(PARCEL_TEXT_MAX, PARCEL_TEXT_MAX);
    damaged_header();
    damaged_body(1);
    damaged_body(5);
    reading_in_order();
    opening_in_order();
    bytes_behind();
    lengths_above_32_bits();
    for (uint32_t instance = 1; instance <= 4; instance++) {
        counter_used_twice(instance);
        counter_used_again(instance);
    }
    counter_used_twice_by_spook();
    return checks_ended("parcel_numbers");
}
