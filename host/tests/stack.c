/*
 * The stack that a call needs. Fails if a call needs more than three quarters of what its header says, if an image needs more than a short
 * text, and if the program's wiping of the stack leaves key bytes.
 */
#include <stdio.h>
#include <string.h>

#include "checks.h"
#include "lent.h"
#include "octets.h"
#include "painted.h"
#include "parcel.h"
#include "parcel_calls.h"

static struct call call;
static struct parcel_call parcel;
static uint64_t (*work)(void);
static uint32_t wanted;
static bool answers_right;
static bool wiping;

static uint64_t no_call(void)
{
    return ISAP_ENDED_WELL;
}

static uint64_t sealing(void)
{
    return seal(&call);
}

static uint64_t opening(void)
{
    return open_sealed(&call);
}

static uint64_t building(void)
{
    build(&parcel);
    return parcel.answer;
}

static uint64_t opening_of_a_parcel(void)
{
    open_parcel(&parcel);
    return parcel.answer;
}

static void on_painted_stack(void)
{
    answers_right &= isap_number(work()) == wanted;
    if (wiping)
        wipe_used_stack();
}

/* How deep this goes that must give the number wanted, each time that it runs. */
static size_t depth_of(uint64_t (*of)(void), uint32_t number)
{
    work = of;
    wanted = number;
    answers_right = true;
    size_t depth = painted_depth(on_painted_stack);
    check(answers_right);
    return depth;
}

static size_t larger(size_t one, size_t other)
{
    return one > other ? one : other;
}

/* The deepest of a call's sealing, its opening, and its opening with a wrong tag. */
static size_t deepest(uint32_t instance, size_t assoc, size_t text)
{
    const struct lengths lengths = {16, 16, assoc, text, text, 16};
    lend_all(&call, instance, &lengths);
    size_t most = depth_of(sealing, ISAP_ENDED_WELL);
    lend_bytes(&call.text, call.out.at, text);
    most = larger(most, depth_of(opening, ISAP_ENDED_WELL));
    damage(&call.tag);
    return larger(most, depth_of(opening, ISAP_WRONG_TAG));
}

/* The same of a parcel. */
static size_t deepest_of_a_parcel(uint32_t instance, size_t text)
{
    parcel.instance = instance;
    lend_parcel_call(&parcel, 16, text, text + PARCEL_ADDED_BYTES);
    size_t most = depth_of(building, ISAP_ENDED_WELL);
    hand_over(&parcel, 0);
    most = larger(most, depth_of(opening_of_a_parcel, ISAP_ENDED_WELL));
    damage(&parcel.key);
    return larger(most, depth_of(opening_of_a_parcel, ISAP_WRONG_TAG));
}

/* Depths include what surrounds a call. */
static void within(const char *header, size_t depth, size_t said)
{
    size_t surroundings = depth_of(no_call, ISAP_ENDED_WELL);
    printf("stack: %zu bytes in the deepest call of %s, which says %zu\n", depth - surroundings, header, said);
    check(depth > surroundings && depth <= said / 4 * 3 + surroundings);
}

/* The stack does not depend on the text's length. */
static void image_as_deep(uint32_t instance)
{
    size_t image = deepest(instance, 256, ISAP_TEXT_MAX), text = deepest(instance, 256, 4096);
    size_t surroundings = depth_of(no_call, ISAP_ENDED_WELL);
    printf("stack: instance %u, %zu bytes with a text of %d and %zu with one of 4096\n", (unsigned)instance, image - surroundings,
           ISAP_TEXT_MAX, text - surroundings);
    check(image == text);
}

static bool on_stack(const struct lent *key)
{
    for (size_t i = 0; i + key->len <= sizeof painted; i++) {
        if (memcmp(painted + i, key->at, key->len) == 0)
            return true;
    }
    return false;
}

/* A call leaves its key on the stack, and with the wiping does not. */
static void wiped_after(uint64_t (*of)(void), const struct lent *key)
{
    wiping = false;
    depth_of(of, ISAP_ENDED_WELL);
    check(on_stack(key));
    wiping = true;
    depth_of(of, ISAP_ENDED_WELL);
    check(!on_stack(key));
}

int main(void)
{
    const struct lengths lengths = {16, 16, 18, 40, 40, 16};
    size_t most = 0, most_of_a_parcel = 0;
    for (uint32_t instance = 1; instance <= 5; instance++) {
        most = larger(most, deepest(instance, 0, 0));
        most = larger(most, deepest(instance, 19, 37));
        most = larger(most, deepest(instance, 256, 4096));
        most_of_a_parcel = larger(most_of_a_parcel, deepest_of_a_parcel(instance, 0));
        most_of_a_parcel = larger(most_of_a_parcel, deepest_of_a_parcel(instance, 37));
        most_of_a_parcel = larger(most_of_a_parcel, deepest_of_a_parcel(instance, 4096));
    }
    within("isap.h", most, ISAP_STACK_BYTES);
    within("parcel.h", most_of_a_parcel, PARCEL_STACK_BYTES);
    image_as_deep(ISAP_A_128A);
    image_as_deep(ISAP_SPOOK_128_512_SU);
    for (uint32_t instance = 1; instance <= 5; instance++) {
        lend_all(&call, instance, &lengths);
        wiped_after(sealing, &call.key);
        parcel.instance = instance;
        lend_parcel_call(&parcel, 16, 40, 40 + PARCEL_ADDED_BYTES);
        wiped_after(building, &parcel.key);
    }
    return checks_ended("stack");
}
