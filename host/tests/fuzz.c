/*
 * Random calls of the library: usage `fuzz CALLS SEED FILE`. Lengths and instances are right or wrong in every combination, buffers stand
 * at odd places between guard bytes, and each answer is held to the rules that rules.c has by itself: number, rounds, and which bytes may
 * change. What was sealed is opened again, then damaged and refused. For the bytes, sealings are written to FILE for the second program,
 * a line each: instance, key, nonce, associated data, text, ciphertext with tag, in hex, '-' where there is none.
 */
#include <inttypes.h>
#include <stdio.h>
#include <stdlib.h>
#include <string.h>

#include "draws.h"
#include "isap.h"
#include "lent.h"
#include "random.h"
#include "run.h"

enum { SEALINGS_FOR_EACH_LINE = 16 };

static struct call call;
static unsigned long sealings, answers[2][RUN_NUMBERS];

/* Ends the run at the first thing that is wrong. */
static void hold(bool holds, const char *what)
{
    if (holds)
        return;
    printf("fuzz: call %lu (instance %" PRIu32 ", key %zu, nonce %zu, assoc %zu, text %zu, out %zu, tag %zu): %s\n", calls, call.instance,
           call.key.len, call.nonce.len, call.assoc.len, call.text.len, call.out.len, call.tag.len, what);
    exit(1);
}

/* Counts a call and holds its answer to the one expected. */
static void expect(int opening, uint64_t answer, uint32_t number, uint32_t rounds)
{
    calls++;
    hold(isap_number(answer) == number, "number");
    hold(isap_rounds(answer) == rounds, "rounds");
    answers[opening][number]++;
}

/* A refusal in both directions: no byte changes. */
static void refused_calls(void)
{
    uint32_t instance = draw_instance();
    struct lengths lengths = draw_lengths();
    spoil(&instance, &lengths);
    uint32_t number = rules_refusal(instance, &lengths);
    lend_all(&call, instance, &lengths);
    expect(0, seal(&call), number, 0);
    expect(1, open_sealed(&call), number, 0);
    hold(inputs_unchanged(&call) && unchanged(&call.out) && unchanged(&call.tag), "a refusal changed a byte");
}

static void write_sealing(void)
{
    write_number(call.instance);
    write_field(&call.key);
    write_field(&call.nonce);
    write_field(&call.assoc);
    write_field(&call.text);
    write_digits(&call.out);
    write_digits(&call.tag);
    end_line();
}

static void sealed_call(const struct lengths *lengths)
{
    expect(0, seal(&call), 0, rules_sealing(call.instance, lengths->assoc, lengths->text));
    hold(inputs_unchanged(&call), "a sealing changed its input");
    hold(guards_unchanged(&call.out) && guards_unchanged(&call.tag), "a sealing wrote outside");
    if (sealings++ % SEALINGS_FOR_EACH_LINE == 0)
        write_sealing();
}

static void opened_call(const struct lengths *lengths, const uint8_t *plain)
{
    lend(&call.out, lengths->out);
    expect(1, open_sealed(&call), 0, rules_opening(call.instance, lengths->assoc, lengths->text));
    hold(inputs_unchanged(&call) && unchanged(&call.tag), "an opening changed its input");
    hold(guards_unchanged(&call.out), "an opening wrote outside");
    hold(memcmp(call.out.at, plain, lengths->text) == 0, "the text did not come back");
}

/* One bit flipped in the tag, or in anything else that the tag vouches for. */
static void damaged_call(const struct lengths *lengths)
{
    struct lent *targets[] = {&call.tag, &call.text, &call.assoc, &call.nonce, &call.key};
    struct lent *target = targets[one_in(2) ? 0 : random_below(5)];
    damage(target->len == 0 ? &call.tag : target);
    lend(&call.out, lengths->out);
    expect(1, open_sealed(&call), 8, rules_verify(call.instance, lengths->assoc, lengths->text));
    hold(inputs_unchanged(&call) && unchanged(&call.tag) && unchanged(&call.out), "a wrong tag changed a byte");
}

static void accepted_calls(void)
{
    static uint8_t plain[ISAP_TEXT_MAX];
    struct lengths lengths = draw_lengths();
    lend_all(&call, draw_instance(), &lengths);
    memcpy(plain, call.text.at, lengths.text);
    sealed_call(&lengths);
    lend_bytes(&call.text, call.out.at, lengths.text);
    remember(&call.tag);
    opened_call(&lengths, plain);
    damaged_call(&lengths);
}

/* A plan with this number, if it is not refused, has the rounds of the rules. */
static void expect_plan(uint64_t plan, uint32_t number, uint32_t (*rules)(uint32_t, size_t, size_t), uint32_t instance,
                        const struct lengths *lengths)
{
    hold(isap_number(plan) == number, "number of a plan");
    hold(isap_rounds(plan) == (number == 0 ? rules(instance, lengths->assoc, lengths->text) : 0), "rounds of a plan");
}

/* Any length, often one at the limit or a short one. */
static uint32_t draw_planned_text(void)
{
    switch (random_below(4)) {
    case 0:
        return (uint32_t)random_word();
    case 1:
        return ISAP_TEXT_MAX - 4 + random_below(8);
    case 2:
        return random_below(2 * ISAP_TEXT_MAX);
    default:
        return random_below(8192);
    }
}

/* Plans of any two lengths. */
static void planned_calls(void)
{
    uint32_t instance = one_in(4) ? draw_unknown_instance() : draw_instance();
    uint32_t assoc = one_in(4) ? (uint32_t)random_word() : random_below(2 * ISAP_ASSOC_MAX);
    uint32_t text = draw_planned_text();
    struct lengths lengths = {16, 16, assoc, text, text, 16};
    uint32_t number = rules_refusal(instance, &lengths);
    expect_plan(isap_plan_verify(instance, assoc, text), number, rules_verify, instance, &lengths);
    expect_plan(isap_plan_seal(instance, assoc, text), number, rules_sealing, instance, &lengths);
    expect_plan(isap_plan_total(instance, assoc, text), number, rules_opening, instance, &lengths);
}

static void make_calls(void)
{
    if (random_below(8) < 5)
        refused_calls();
    else
        accepted_calls();
    planned_calls();
}

static void print_summary(void)
{
    printf("fuzz: %lu calls as the rules have them\n", calls);
    print_answers("isap_seal", answers[0]);
    print_answers("isap_open", answers[1]);
}

int main(int count, char **words)
{
    return random_run(count, words, make_calls, print_summary);
}
