/* Nothing is written to the output before the library has answered 0. */
#include "job.h"

#include <errno.h>
#include <inttypes.h>
#include <stdio.h>
#include <string.h>

#include "files.h"
#include "status.h"

/* The most that an output has more than its input: the lines that show a parcel, which are longer than a parcel's 31 bytes. */
enum { ADDED_MOST = 96 };

int refused(uint32_t number, const char *cause)
{
    fprintf(stderr, "isap: refused (%" PRIu32 "): %s\n", number, cause);
    return (int)number;
}

int status_of(uint64_t answer)
{
    static const char *const causes[] = {
        [ISAP_BAD_INSTANCE] = "the instance is not 1 to 5",
        [ISAP_BAD_KEY] = "the key is not 16 bytes",
        [ISAP_BAD_NONCE] = "the nonce is not 16 bytes",
        [ISAP_LONG_ASSOC] = "the associated data is above 256 bytes",
        [ISAP_LONG_TEXT] = "the text is above 1048576 bytes",
        [ISAP_BAD_OUT] = "the output is not as long as the text",
        [ISAP_BAD_TAG] = "the tag is not 16 bytes: the sealed input is cut short",
        [ISAP_WRONG_TAG] = "the tag is not the right one: what was given is not what was sealed",
        [PARCEL_WRONG_MARK] = "the mark is not A7 5C: no parcel begins here",
        [PARCEL_COUNTER_SPENT] = "the last counter is already the largest: take a new key",
        [PARCEL_CUT_SHORT] = "the parcel is cut short",
    };
    uint32_t number = isap_number(answer);
    const char *cause = number < sizeof causes / sizeof causes[0] ? causes[number] : NULL;
    if (number == ISAP_ENDED_WELL)
        return STATUS_WELL;
    return refused(number, cause == NULL ? "an answer that this program does not know" : cause);
}

int read_bytes(struct octets *into, char *digits, const char *path, const char *missing)
{
    if (digits != NULL && path != NULL)
        return misused("given both as hex and as a file", missing);
    if (path != NULL)
        return read_octets(into, into->room, path);
    if (digits == NULL)
        return misused("missing", missing);
    bool hex = octets_from_hex(into, digits);
    forget(digits);
    return hex ? STATUS_WELL : misused("not pairs of hex digits", missing);
}

/* The path of a file to read or write, or null for the standard stream. */
static const char *stream_path(const char *word)
{
    return word == NULL || strcmp(word, "-") == 0 ? NULL : word;
}

int read_key(struct job *job, const struct options *options)
{
    return read_bytes(&job->key, options->word[OPTION_KEY], options->word[OPTION_KEY_FILE], "--key");
}

int read_input(struct job *job, size_t most, const struct options *options)
{
    return read_octets(&job->input, most, stream_path(options->word[OPTION_IN]));
}

int run_job(int (*prepare)(struct job *, const struct options *), int (*work)(struct job *), const struct options *options)
{
    struct job job = {
        .key = {job.key_room, 0, sizeof job.key_room},
        .nonce = {job.nonce_room, 0, sizeof job.nonce_room},
        .assoc = {job.assoc_room, 0, sizeof job.assoc_room},
    };
    int status = prepare(&job, options);
    if (status == STATUS_WELL && !octets_widen(&job.out, job.input.len + ADDED_MOST))
        status = failed("hold", "the output", errno);
    if (status == STATUS_WELL) {
        status = work(&job);
        wipe_used_stack();
    }
    if (status == STATUS_WELL)
        status = write_octets(stream_path(options->word[OPTION_OUT]), job.out.at, job.out.len);
    octets_drop(&job.input);
    octets_drop(&job.out);
    wipe(&job, sizeof job);
    return status;
}
