/* The jobs of the program. Each gives an exit status, its message printed. */
#ifndef JOBS_H
#define JOBS_H

#include "options.h"

int run_seal(const struct options *options);
int run_open(const struct options *options);
int run_plan(const struct options *options);

int run_parcel_build(const struct options *options);
int run_parcel_open(const struct options *options);
int run_parcel_show(const struct options *options);

#endif
