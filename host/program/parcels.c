/* Building, opening and showing parcels. What stands behind a parcel in the input is not looked at. */
#include <inttypes.h>
#include <stdio.h>

#include "job.h"
#include "jobs.h"
#include "status.h"

static int read_building(struct job *job, const struct options *options)
{
    uint64_t station;
    int status = read_instance(&job->instance, options);
    if (status == STATUS_WELL)
        status = read_number_up_to(&station, UINT16_MAX, "--station", options->word[OPTION_STATION]);
    if (status == STATUS_WELL)
        job->station = (uint16_t)station;
    if (status == STATUS_WELL)
        status = read_number_up_to(&job->last, UINT64_MAX, "--last", options->word[OPTION_LAST]);
    if (status == STATUS_WELL)
        status = read_key(job, options);
    if (status == STATUS_WELL)
        status = read_input(job, PARCEL_TEXT_MAX + 1, options);
    return status;
}

static int read_parcel(struct job *job, const struct options *options)
{
    return read_input(job, PARCEL_TEXT_MAX + PARCEL_ADDED_BYTES, options);
}

static int read_opening(struct job *job, const struct options *options)
{
    int status = read_key(job, options);
    return status == STATUS_WELL ? read_parcel(job, options) : status;
}

/* A parcel's text has a limit of its own. */
static int parcel_status_of(uint64_t answer)
{
    return isap_number(answer) == ISAP_LONG_TEXT ? refused(ISAP_LONG_TEXT, "the text is above 4096 bytes") : status_of(answer);
}

/* The counter goes to standard error before a byte of the parcel is written: none that may have gone out stays untold. */
static int build_parcel(struct job *job)
{
    job->out.len = job->input.len + PARCEL_ADDED_BYTES;
    uint64_t answer = parcel_build(job->instance, job->key.at, job->key.len, job->station, job->last, job->input.at, job->input.len,
                                   job->out.at, job->out.len);
    int status = parcel_status_of(answer);
    if (status == STATUS_WELL && fprintf(stderr, "counter %" PRIu64 "\n", parcel_counter_to_keep(answer, job->last)) < 0)
        status = STATUS_IO;
    return status;
}

static int open_parcel(struct job *job)
{
    job->out.len = parcel_text(job->input.at, job->input.len);
    return parcel_status_of(parcel_open(job->key.at, job->key.len, job->input.at, job->input.len, job->out.at, job->out.len));
}

/* The output is a line for each field. */
static int show_parcel(struct job *job)
{
    const uint8_t *at = job->input.at;
    size_t len = job->input.len;
    job->out.len = (size_t)snprintf((char *)job->out.at, job->out.room,
                                    "instance %" PRIu32 "\nstation %" PRIu16 "\ncounter %" PRIu64 "\ntext %" PRIu32 "\n",
                                    parcel_instance(at, len), parcel_station(at, len), parcel_counter(at, len), parcel_text(at, len));
    return parcel_status_of(parcel_number(at, len));
}

int run_parcel_build(const struct options *options)
{
    return run_job(read_building, build_parcel, options);
}

int run_parcel_open(const struct options *options)
{
    return run_job(read_opening, open_parcel, options);
}

int run_parcel_show(const struct options *options)
{
    return run_job(read_parcel, show_parcel, options);
}
