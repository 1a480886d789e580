/* What the words of the command line ask for. */
#ifndef OPTIONS_H
#define OPTIONS_H

#include <stdint.h>

enum option {
    OPTION_INSTANCE,
    OPTION_KEY,
    OPTION_KEY_FILE,
    OPTION_NONCE,
    OPTION_NONCE_FILE,
    OPTION_ASSOC,
    OPTION_ASSOC_FILE,
    OPTION_TEXT,
    OPTION_STATION,
    OPTION_LAST,
    OPTION_IN,
    OPTION_OUT,
    OPTION_COUNT
};

/* The word after each option; null where it was not given. */
struct options {
    char *word[OPTION_COUNT];
};

/* A set of options, a bit each. */
#define OPTION_BIT(option) (1u << (option))
#define OPTIONS_OF_A_KEY (OPTION_BIT(OPTION_KEY) | OPTION_BIT(OPTION_KEY_FILE))
#define OPTIONS_OF_A_NONCE (OPTION_BIT(OPTION_NONCE) | OPTION_BIT(OPTION_NONCE_FILE))
#define OPTIONS_OF_ASSOC (OPTION_BIT(OPTION_ASSOC) | OPTION_BIT(OPTION_ASSOC_FILE))
#define OPTIONS_OF_STREAMS (OPTION_BIT(OPTION_IN) | OPTION_BIT(OPTION_OUT))
#define OPTIONS_OF_A_SEALING (OPTION_BIT(OPTION_INSTANCE) | OPTIONS_OF_A_KEY | OPTIONS_OF_A_NONCE | OPTIONS_OF_ASSOC | OPTIONS_OF_STREAMS)
#define OPTIONS_OF_A_PLAN (OPTION_BIT(OPTION_INSTANCE) | OPTION_BIT(OPTION_ASSOC) | OPTION_BIT(OPTION_TEXT))
#define OPTIONS_OF_OPENING_A_PARCEL (OPTIONS_OF_A_KEY | OPTIONS_OF_STREAMS)
#define OPTIONS_OF_BUILDING_A_PARCEL \
    (OPTIONS_OF_OPENING_A_PARCEL | OPTION_BIT(OPTION_INSTANCE) | OPTION_BIT(OPTION_STATION) | OPTION_BIT(OPTION_LAST))
#define OPTIONS_OF_SHOWING_A_PARCEL OPTION_BIT(OPTION_IN)

/* Reads the words up to the null one. Gives an exit status, its message printed. */
int read_options(struct options *into, unsigned allowed, char **words);

/* Says that the command line will not do, and gives the exit status. */
int misused(const char *why, const char *word);

/* A decimal number; one too large for 32 bits is as good as the largest, which the library refuses as well. */
int read_number(uint32_t *into, const char *name, const char *word);

/* A decimal number up to the largest; the command line will not do with a larger one. */
int read_number_up_to(uint64_t *into, uint64_t largest, const char *name, const char *word);

/* An instance by number or by name. */
int read_instance(uint32_t *into, const struct options *options);

#endif
