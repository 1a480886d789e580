#include "run.h"

#include <inttypes.h>
#include <stdlib.h>

#include "random.h"

unsigned long calls, lines;
static FILE *samples;

void write_number(uint64_t number)
{
    fprintf(samples, "%" PRIu64 " ", number);
}

void write_digits(const struct lent *lent)
{
    for (size_t i = 0; i < lent->len; i++)
        fprintf(samples, "%02x", lent->at[i]);
}

void write_field(const struct lent *lent)
{
    if (lent->len == 0)
        fputc('-', samples);
    write_digits(lent);
    fputc(' ', samples);
}

void end_line(void)
{
    fputc('\n', samples);
    lines++;
}

void print_answers(const char *call, const unsigned long answers[RUN_NUMBERS])
{
    printf("  %s", call);
    for (int number = 0; number < RUN_NUMBERS; number++) {
        if (answers[number] > 0)
            printf("  %d: %lu", number, answers[number]);
    }
    printf("\n");
}

int random_run(int count, char **words, void (*make_calls)(void), void (*print_summary)(void))
{
    if (count != 4 || (samples = fopen(words[3], "w")) == NULL) {
        fprintf(stderr, "usage: %s CALLS SEED FILE\n", words[0]);
        return 2;
    }
    unsigned long wanted = strtoul(words[1], NULL, 10);
    random_begin(strtoull(words[2], NULL, 10));
    while (calls < wanted)
        make_calls();
    if (fclose(samples) != 0) {
        fprintf(stderr, "%s: cannot write %s\n", words[0], words[3]);
        return 2;
    }
    print_summary();
    printf("  %lu lines written to %s\n", lines, words[3]);
    return 0;
}
