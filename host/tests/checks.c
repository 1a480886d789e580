#include "checks.h"

#include <stdio.h>

static unsigned long done, failed;

void check_that(bool holds, const char *what, const char *file, int line)
{
    done++;
    if (holds)
        return;
    failed++;
    if (failed <= 20)
        printf("%s:%d: does not hold: %s\n", file, line, what);
}

int checks_ended(const char *program)
{
    printf("%s: %lu checks, %lu failed\n", program, done, failed);
    return failed == 0 && done > 0 ? 0 : 1;
}
