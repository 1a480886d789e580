/* A random run, usage `PROGRAM CALLS SEED FILE`: so many calls, drawn by the seed, of which some go to FILE for the second program. */
#ifndef RUN_H
#define RUN_H

#include <stdio.h>

#include "lent.h"

enum { RUN_NUMBERS = 15 };

/* Calls made, and lines written, so far. */
extern unsigned long calls, lines;

/* Makes calls until there are as many as wanted, then prints the summary. Gives the program's exit status. */
int random_run(int count, char **words, void (*make_calls)(void), void (*print_summary)(void));

/* A line of the file: fields with a space between, numbers decimal, bytes in hex, '-' where there are none. The last bytes stand alone. */
void write_number(uint64_t number);
void write_field(const struct lent *lent);
void write_digits(const struct lent *lent);
void end_line(void);

/* Prints how often a call gave each number. */
void print_answers(const char *call, const unsigned long answers[RUN_NUMBERS]);

#endif
