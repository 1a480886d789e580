/* Whole calls on long texts, for counting what they execute. linear OPERATION INSTANCE TEXT REPETITIONS: seals (1) or opens (2) TEXT bytes
   without associated data, so many times; before openings it seals once. Its status is 0 if every call ends well in the rounds that are
   planned for it, and what was opened is the text. */
#include <stdlib.h>
#include <string.h>

#include "isap.h"

static uint8_t key[16], nonce[16], tag[16], text[ISAP_TEXT_MAX], cipher[ISAP_TEXT_MAX], opened[ISAP_TEXT_MAX];
static uint32_t instance, length;

static uint64_t seal(void)
{
    return isap_seal(instance, key, 16, nonce, 16, key, 0, text, length, cipher, length, tag, 16);
}

static uint64_t open(void)
{
    return isap_open(instance, key, 16, nonce, 16, key, 0, cipher, length, tag, 16, opened, length);
}

/* Whether that many calls all end well as planned. */
static int repeated(uint64_t (*call)(void), uint64_t planned, uint32_t repetitions)
{
    int well = isap_number(planned) == ISAP_ENDED_WELL;
    for (; repetitions > 0; repetitions--)
        well = call() == planned && well;
    return well;
}

static int seals(uint32_t repetitions)
{
    return repeated(seal, isap_plan_seal(instance, 0, length), repetitions);
}

static int opens(uint32_t repetitions)
{
    return repeated(open, isap_plan_total(instance, 0, length), repetitions) && memcmp(opened, text, length) == 0;
}

static uint32_t number(const char *digits)
{
    return (uint32_t)strtoul(digits, NULL, 10);
}

int main(int argc, char **argv)
{
    if (argc != 5 || number(argv[3]) > ISAP_TEXT_MAX)
        return 2;
    instance = number(argv[2]);
    length = number(argv[3]);
    for (size_t i = 0; i < ISAP_TEXT_MAX; i++)
        text[i] = (uint8_t)i;
    if (number(argv[1]) == 1)
        return !seals(number(argv[4]));
    return !(seals(1) && opens(number(argv[4])));
}
