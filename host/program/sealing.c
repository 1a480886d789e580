/* Sealing, opening and planning. The sealed form is the ciphertext with the tag behind it. */
#include "jobs.h"

#include <inttypes.h>
#include <stdio.h>

#include "files.h"
#include "job.h"
#include "progress.h"
#include "status.h"

/* Associated data may be left out; it is empty then. */
static int read_assoc(struct octets *into, const struct options *options)
{
    char none[] = "";
    char *digits = options->word[OPTION_ASSOC];
    const char *path = options->word[OPTION_ASSOC_FILE];
    return read_bytes(into, digits == NULL && path == NULL ? none : digits, path, "--assoc");
}

/* All but the input. */
static int read_words(struct job *job, const struct options *options)
{
    int status = read_instance(&job->instance, options);
    if (status == STATUS_WELL)
        status = read_key(job, options);
    if (status == STATUS_WELL)
        status = read_bytes(&job->nonce, options->word[OPTION_NONCE], options->word[OPTION_NONCE_FILE], "--nonce");
    if (status == STATUS_WELL)
        status = read_assoc(&job->assoc, options);
    return status;
}

static int read_sealing(struct job *job, const struct options *options)
{
    int status = read_words(job, options);
    return status == STATUS_WELL ? read_input(job, ISAP_TEXT_MAX + 1, options) : status;
}

static int read_opening(struct job *job, const struct options *options)
{
    int status = read_words(job, options);
    return status == STATUS_WELL ? read_input(job, ISAP_TEXT_MAX + ISAP_TAG_BYTES + 1, options) : status;
}

static int seal_input(struct job *job)
{
    size_t text_len = job->input.len;
    uint8_t *out = job->out.at;
    begin_progress("sealing", job->instance, text_len, isap_plan_seal(job->instance, (uint32_t)job->assoc.len, (uint32_t)text_len));
    uint64_t answer = isap_seal(job->instance, job->key.at, job->key.len, job->nonce.at, job->nonce.len, job->assoc.at, job->assoc.len,
                                job->input.at, text_len, out, text_len, out + text_len, ISAP_TAG_BYTES);
    end_progress();
    job->out.len = text_len + ISAP_TAG_BYTES;
    return status_of(answer);
}

/* The input's last 16 bytes are the tag; where there are fewer, all of them are lent as the tag, which is refused. */
static int open_input(struct job *job)
{
    size_t text_len = job->input.len < ISAP_TAG_BYTES ? 0 : job->input.len - ISAP_TAG_BYTES;
    const uint8_t *tag = job->input.at + text_len;
    begin_progress("opening", job->instance, text_len, isap_plan_total(job->instance, (uint32_t)job->assoc.len, (uint32_t)text_len));
    uint64_t answer = isap_open(job->instance, job->key.at, job->key.len, job->nonce.at, job->nonce.len, job->assoc.at, job->assoc.len,
                                job->input.at, text_len, tag, job->input.len - text_len, job->out.at, text_len);
    end_progress();
    job->out.len = text_len;
    return status_of(answer);
}

int run_seal(const struct options *options)
{
    return run_job(read_sealing, seal_input, options);
}

int run_open(const struct options *options)
{
    return run_job(read_opening, open_input, options);
}

int run_plan(const struct options *options)
{
    uint32_t instance, assoc_len, text_len;
    int status = read_instance(&instance, options);
    if (status == STATUS_WELL)
        status = read_number(&assoc_len, "--assoc", options->word[OPTION_ASSOC]);
    if (status == STATUS_WELL)
        status = read_number(&text_len, "--text", options->word[OPTION_TEXT]);
    if (status != STATUS_WELL)
        return status;
    uint64_t verify = isap_plan_verify(instance, assoc_len, text_len);
    uint64_t seal = isap_plan_seal(instance, assoc_len, text_len);
    uint64_t total = isap_plan_total(instance, assoc_len, text_len);
    status = status_of(total);
    if (status != STATUS_WELL)
        return status;
    char lines[64];
    int len = snprintf(lines, sizeof lines, "verify %" PRIu32 "\nseal %" PRIu32 "\ntotal %" PRIu32 "\n", isap_rounds(verify),
                       isap_rounds(seal), isap_rounds(total));
    return write_octets(NULL, (const uint8_t *)lines, (size_t)len);
}
