/*
 * The library through C: every number from 0 to 8 with what it leaves, the order of refusals, and rounds by the documents' tables. Usage
 * `numbers`, or `numbers images` for whole calls on images, which take longer.
 */
#include <errno.h>
#include <string.h>

#include "checks.h"
#include "isap.h"
#include "lent.h"

static struct call call;

/* A call with these lengths is refused by this number in both directions, and changes nothing. */
static void refused(uint32_t instance, const struct lengths *lengths, uint32_t number)
{
    uint64_t (*const calls[])(struct call *) = {seal, open_sealed};
    for (int i = 0; i < 2; i++) {
        lend_all(&call, instance, lengths);
        check(calls[i](&call) == number);
        check(inputs_unchanged(&call) && unchanged(&call.out) && unchanged(&call.tag));
    }
}

/* Everything is wrong; mending one thing after the other gives the next number. */
static void refusals_in_order(uint32_t instance)
{
    struct lengths lengths = {15, 17, 257, 1048577, 4096, 15};
    refused(0, &lengths, 1);
    refused(instance, &lengths, 2);
    lengths.key = 16;
    refused(instance, &lengths, 3);
    lengths.nonce = 16;
    refused(instance, &lengths, 4);
    lengths.assoc = 256;
    refused(instance, &lengths, 5);
    lengths.text = 4095;
    refused(instance, &lengths, 6);
    lengths.out = 4095;
    refused(instance, &lengths, 7);
}

static void refusals_alone(void)
{
    const struct lengths right = {16, 16, 8, 8, 8, 16};
    static const struct {
        uint32_t instance;
        struct lengths lengths;
        uint32_t number;
    } cases[] = {
        {6, {16, 16, 8, 8, 8, 16}, 1},    {UINT32_MAX, {16, 16, 8, 8, 8, 16}, 1},
        {261, {16, 16, 8, 8, 8, 16}, 1},  {5, {16, 16, 8, 1048577, 1048577, 16}, 5},
        {5, {0, 16, 8, 8, 8, 16}, 2},     {5, {16, 17, 8, 8, 8, 16}, 3},
        {5, {16, 16, 257, 8, 8, 16}, 4},  {5, {16, 16, 8, 8, 32, 16}, 6},
        {5, {16, 16, 8, 8, 8, 0}, 7},     {5, {16, 16, 8, 8, 8, 32}, 7},
        {1, {0, 16, 8, 8, 8, 16}, 2},     {1, {17, 16, 8, 8, 8, 16}, 2},
        {2, {16, 0, 8, 8, 8, 16}, 3},     {2, {16, 32, 8, 8, 8, 16}, 3},
        {3, {16, 16, 257, 8, 8, 16}, 4},  {4, {16, 16, 8, 1048577, 1048577, 16}, 5},
        {1, {16, 16, 8, 8, 9, 16}, 6},    {1, {16, 16, 8, 0, 1, 16}, 6},
        {1, {16, 16, 8, 8, 8, 0}, 7},     {1, {16, 16, 8, 8, 8, 17}, 7},
        {1, {16, 16, 8, 1048577, 1, 16}, 5},
        {1, {16, 16, 8, 1048576, 1048575, 16}, 6},
        {2, {16, 16, 256, 1048576, 1048576, 15}, 7},
        {2, {16, 16, 0, 1048577, 1048577, 16}, 5},
        {3, {16, 16, 257, 1048577, 1048577, 16}, 4},
    };
    refused(0, &right, 1);
    for (size_t i = 0; i < sizeof cases / sizeof cases[0]; i++)
        refused(cases[i].instance, &cases[i].lengths, cases[i].number);
}

/* Lengths whose low 32 bits would do: they are refused as what they are. */
static void lengths_above_32_bits(void)
{
    const size_t over = (size_t)1 << 32;
    uint8_t out[16] = {0}, tag[16] = {0};
    uint8_t *much = lend_much();
    check(much != NULL);
    if (much == NULL)
        return;
    check(isap_seal(1, much, over + 16, much, 16, much, 0, much, 8, out, 8, tag, 16) == ISAP_BAD_KEY);
    check(isap_seal(1, much, 16, much, over + 16, much, 0, much, 8, out, 8, tag, 16) == ISAP_BAD_NONCE);
    check(isap_seal(1, much, 16, much, 16, much, over, much, 8, out, 8, tag, 16) == ISAP_LONG_ASSOC);
    check(isap_seal(1, much, 16, much, 16, much, 0, much, over + 8, out, 8, tag, 16) == ISAP_LONG_TEXT);
    check(isap_open(1, much, 16, much, 16, much, 0, much, 8, much, over + 16, out, 8) == ISAP_BAD_TAG);
    check(isap_open(1, much, 16, much, 16, much, over + 1, much, over, much, 16, out, 8) == ISAP_LONG_ASSOC);
    give_back_much(much);
}

static void answers(uint64_t answer, uint32_t number, uint32_t rounds)
{
    check(isap_number(answer) == number && isap_rounds(answer) == rounds);
}

static void planned(uint32_t instance, uint32_t assoc, uint32_t text, uint32_t verify, uint32_t sealing, uint32_t opening)
{
    answers(isap_plan_verify(instance, assoc, text), ISAP_ENDED_WELL, verify);
    answers(isap_plan_seal(instance, assoc, text), ISAP_ENDED_WELL, sealing);
    answers(isap_plan_total(instance, assoc, text), ISAP_ENDED_WELL, opening);
}

/* Planned, sealed, opened, and opened with a wrong tag: numbers, rounds, bytes. */
static void rounds_of(uint32_t instance, uint32_t assoc, uint32_t text, uint32_t verify, uint32_t sealing, uint32_t opening)
{
    static uint8_t plain[ISAP_TEXT_MAX];
    const struct lengths lengths = {16, 16, assoc, text, text, 16};
    planned(instance, assoc, text, verify, sealing, opening);
    errno = ERANGE;
    lend_all(&call, instance, &lengths);
    memcpy(plain, call.text.at, text);
    answers(seal(&call), ISAP_ENDED_WELL, sealing);
    check(inputs_unchanged(&call) && guards_unchanged(&call.out) && guards_unchanged(&call.tag));
    check(!unchanged(&call.tag) && (text == 0 || !unchanged(&call.out)));
    lend_bytes(&call.text, call.out.at, text);
    remember(&call.tag);
    lend(&call.out, text);
    answers(open_sealed(&call), ISAP_ENDED_WELL, opening);
    check(memcmp(call.out.at, plain, text) == 0);
    check(inputs_unchanged(&call) && guards_unchanged(&call.out) && unchanged(&call.tag));
    damage(&call.tag);
    lend(&call.out, text);
    answers(open_sealed(&call), ISAP_WRONG_TAG, verify);
    check(inputs_unchanged(&call) && unchanged(&call.out) && unchanged(&call.tag));
    check(errno == ERANGE);
}

/* 'Round counts to check'. */
static void document_01_table(void)
{
    static const uint32_t table[][5] = {
        {1, 0, 0, 199, 350},         {1, 0, 7, 199, 356},  {1, 1, 8, 211, 368},   {1, 0, 9, 211, 374},     {2, 0, 0, 1596, 3144},
        {2, 256, 4096, 8124, 15816}, {3, 17, 17, 207, 358}, {3, 18, 18, 239, 390}, {4, 0, 0, 1628, 3176}, {4, 256, 4096, 6448, 10732},
    };
    for (size_t i = 0; i < sizeof table / sizeof table[0]; i++)
        rounds_of(table[i][0], table[i][1], table[i][2], table[i][3], table[i][4], table[i][4]);
}

/* An empty text is re-keyed for; instances 1, 2 and 4 stand in the table. */
static void empty_heartbeat(void)
{
    rounds_of(3, 0, 0, 207, 350, 350);
}

/* Request (iv), at the edges of blocks: a sealing takes as many rounds as a verification, an opening more if there is a text. */
static void spook_rounds(void)
{
    static const uint32_t table[][4] = {
        {0, 0, 36, 36},    {0, 7, 48, 72},    {0, 16, 48, 72},    {0, 32, 48, 72},    {0, 33, 60, 96},   {0, 64, 60, 96},
        {1, 0, 48, 48},    {16, 0, 48, 48},   {32, 0, 48, 48},    {33, 0, 60, 60},    {64, 0, 60, 60},   {256, 0, 132, 132},
        {31, 31, 60, 96},  {32, 32, 60, 96},  {33, 32, 72, 120},  {32, 33, 72, 120},  {33, 33, 84, 144}, {256, 4096, 1668, 3312},
    };
    for (size_t i = 0; i < sizeof table / sizeof table[0]; i++)
        rounds_of(5, table[i][0], table[i][1], table[i][2], table[i][2], table[i][3]);
}

typedef void has_rounds(uint32_t instance, uint32_t assoc, uint32_t text, uint32_t verify, uint32_t sealing, uint32_t opening);

static void each_row(has_rounds *has, const uint32_t table[][6], size_t rows)
{
    for (size_t i = 0; i < rows; i++)
        has(table[i][0], table[i][1], table[i][2], table[i][3], table[i][4], table[i][5]);
}

/* Longer texts than the documents' tables have, by their formulas: instance, lengths, verification, sealing, opening. */
static void long_texts(void)
{
    static const uint32_t table[][6] = {
        {1, 0, 4097, 6343, 9572, 9572},
        {1, 0, 65535, 98491, 147794, 147794},
        {1, 0, 65536, 98503, 147806, 147806},
        {1, 0, 65537, 98503, 147812, 147812},
        {3, 0, 4097, 3839, 5806, 5806},
        {5, 0, 4097, 1584, 1584, 3144},
        {5, 0, 65537, 24624, 24624, 49224},
    };
    each_row(rounds_of, table, sizeof table / sizeof table[0]);
}

/* The same at the limit, or as near below it as makes another number of blocks. */
static void images(has_rounds *has)
{
    static const uint32_t table[][6] = {
        {1, 0, 1048575, 1573051, 2359634, 2359634},
        {1, 256, 1048576, 1573447, 2360030, 2360030},
        {2, 256, 1048576, 1574844, 3149256, 3149256},
        {3, 0, 1048572, 932271, 1398446, 1398446},
        {3, 256, 1048576, 932495, 1398678, 1398678},
        {4, 256, 1048576, 1166988, 1867596, 1867596},
        {5, 0, 1048544, 393240, 393240, 786456},
        {5, 256, 1048576, 393348, 393348, 786672},
    };
    each_row(has, table, sizeof table / sizeof table[0]);
}

static void plans_refused(void)
{
    static const uint32_t cases[][4] = {
        {0, 0, 0, 1},
        {6, 257, 1048577, 1},
        {UINT32_MAX, 0, 0, 1},
        {1, 257, 0, 4},
        {2, 257, 1048576, 4},
        {3, 257, 1048577, 4},
        {4, UINT32_MAX, 0, 4},
        {5, 257, 1048577, 4},
        {5, UINT32_MAX, 0, 4},
        {1, 0, 1048577, 5},
        {2, 0, 1048577, 5},
        {3, 256, 1048577, 5},
        {4, 0, UINT32_MAX, 5},
        {5, 256, 1048577, 5},
        {5, 0, UINT32_MAX, 5},
    };
    for (size_t i = 0; i < sizeof cases / sizeof cases[0]; i++) {
        check(isap_plan_verify(cases[i][0], cases[i][1], cases[i][2]) == cases[i][3]);
        check(isap_plan_seal(cases[i][0], cases[i][1], cases[i][2]) == cases[i][3]);
        check(isap_plan_total(cases[i][0], cases[i][1], cases[i][2]) == cases[i][3]);
    }
}

static void numbers(void)
{
    for (uint32_t instance = 1; instance <= 5; instance++)
        refusals_in_order(instance);
    refusals_alone();
    lengths_above_32_bits();
    document_01_table();
    empty_heartbeat();
    spook_rounds();
    long_texts();
    images(planned);
    plans_refused();
}

int main(int count, char **words)
{
    if (count > 1 && strcmp(words[1], "images") == 0)
        images(rounds_of);
    else
        numbers();
    return checks_ended("numbers");
}
