#include "options.h"

#include <stdbool.h>
#include <stdio.h>
#include <string.h>
#include <strings.h>

#include "status.h"

static const char *const names[OPTION_COUNT] = {
    [OPTION_INSTANCE] = "--instance",
    [OPTION_KEY] = "--key",
    [OPTION_KEY_FILE] = "--key-file",
    [OPTION_NONCE] = "--nonce",
    [OPTION_NONCE_FILE] = "--nonce-file",
    [OPTION_ASSOC] = "--assoc",
    [OPTION_ASSOC_FILE] = "--assoc-file",
    [OPTION_TEXT] = "--text",
    [OPTION_STATION] = "--station",
    [OPTION_LAST] = "--last",
    [OPTION_IN] = "--in",
    [OPTION_OUT] = "--out",
};

int misused(const char *why, const char *word)
{
    fprintf(stderr, "isap: %s%s%s (see isap --help)\n", why, word[0] == '\0' ? "" : ": ", word);
    return STATUS_USAGE;
}

/* The option's place in the table, or OPTION_COUNT. */
static unsigned option_named(const char *word, unsigned allowed)
{
    unsigned option = 0;
    while (option < OPTION_COUNT && ((allowed & OPTION_BIT(option)) == 0 || strcmp(names[option], word) != 0))
        option++;
    return option;
}

int read_options(struct options *into, unsigned allowed, char **words)
{
    memset(into, 0, sizeof *into);
    for (; words[0] != NULL; words += 2) {
        unsigned option = option_named(words[0], allowed);
        if (option == OPTION_COUNT)
            return misused("unknown option", words[0]);
        if (into->word[option] != NULL)
            return misused("given twice", words[0]);
        if (words[1] == NULL)
            return misused("a word is missing after", words[0]);
        into->word[option] = words[1];
    }
    return STATUS_WELL;
}

/* Reads decimal digits; false where the number is above the largest, which is 9 or more and is taken in its place. */
static bool fits(uint64_t *into, uint64_t largest, const char *digits)
{
    for (*into = 0; *digits != '\0'; digits++) {
        uint64_t digit = (uint64_t)(*digits - '0');
        if (*into > (largest - digit) / 10) {
            *into = largest;
            return false;
        }
        *into = 10 * *into + digit;
    }
    return true;
}

/* Whether a word is there and a number: an exit status, its message printed. */
static int checked_number(const char *name, const char *word)
{
    if (word == NULL)
        return misused("missing", name);
    bool number = word[0] != '\0' && strspn(word, "0123456789") == strlen(word);
    return number ? STATUS_WELL : misused("not a number", word);
}

int read_number(uint32_t *into, const char *name, const char *word)
{
    uint64_t value = 0;
    int status = checked_number(name, word);
    if (status == STATUS_WELL)
        fits(&value, UINT32_MAX, word);
    *into = (uint32_t)value;
    return status;
}

int read_number_up_to(uint64_t *into, uint64_t largest, const char *name, const char *word)
{
    int status = checked_number(name, word);
    if (status == STATUS_WELL && !fits(into, largest, word))
        status = misused("too large", word);
    return status;
}

int read_instance(uint32_t *into, const struct options *options)
{
    static const char *const instances[] = {"ISAP-A-128a", "ISAP-A-128", "ISAP-K-128a", "ISAP-K-128", "Spook-128-512-su"};
    const char *word = options->word[OPTION_INSTANCE];
    for (uint32_t i = 0; word != NULL && i < sizeof instances / sizeof instances[0]; i++) {
        if (strcasecmp(word, instances[i]) == 0) {
            *into = i + 1;
            return STATUS_WELL;
        }
    }
    return read_number(into, names[OPTION_INSTANCE], word);
}
