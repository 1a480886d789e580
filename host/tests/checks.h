/* Counts what a test program has checked. A check that fails is told with its place; the program then ends with status 1. */
#ifndef CHECKS_H
#define CHECKS_H

#include <stdbool.h>

#define check(holds) check_that((holds), #holds, __FILE__, __LINE__)

void check_that(bool holds, const char *what, const char *file, int line);

/* Prints the counts; gives the program's exit status. */
int checks_ended(const char *program);

#endif
