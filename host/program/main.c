/* isap: seals and opens files, plans rounds, and builds, opens and shows parcels, through the libraries' calls for C. */
#include <signal.h>
#include <string.h>

#include "files.h"
#include "jobs.h"
#include "octets.h"
#include "status.h"

static const char help[] =
    "isap: seals and opens by ISAP v2.0 and Spook, texts and parcels\n"
    "\n"
    "  isap seal --instance I (--key-file F | --key HEX) (--nonce-file F | --nonce HEX)\n"
    "            [--assoc-file F | --assoc HEX] [--in F] [--out F]\n"
    "  isap open   the same words\n"
    "  isap plan --instance I --assoc LENGTH --text LENGTH\n"
    "  isap parcel build --instance I (--key-file F | --key HEX) --station N --last N\n"
    "            [--in F] [--out F]\n"
    "  isap parcel open (--key-file F | --key HEX) [--in F] [--out F]\n"
    "  isap parcel show [--in F]\n"
    "  isap --help\n"
    "\n"
    "seal reads a text of at most 1048576 bytes and writes ciphertext and tag; open reads these and\n"
    "writes the text, if the tag is right. If the text is above 65536 bytes and standard error is a\n"
    "terminal, a line there tells how the time goes by. plan prints the lines 'verify N', 'seal N' and\n"
    "'total N': the rounds of an opening with a wrong tag, of a sealing, and of an opening with a right\n"
    "tag.\n"
    "\n"
    "parcel build reads a text of at most 4096 bytes and writes it as a parcel for the radio, with the\n"
    "counter after the last one used. Before the parcel it prints a line 'counter N' on standard error:\n"
    "N is the last counter used from then on, even if the parcel cannot be written. Store N before the\n"
    "parcel leaves the mast; a counter that is used twice gives texts away. Without that line no counter\n"
    "was used.\n"
    "\n"
    "parcel open reads a parcel and writes the text, if the tag is right. parcel show reads a parcel\n"
    "and prints the lines 'instance N', 'station N', 'counter N' and 'text N', which is the text's\n"
    "length, with no look at the tag. Bytes behind a parcel are not looked at.\n"
    "\n"
    "  --instance   1 to 5, or ISAP-A-128a, ISAP-A-128, ISAP-K-128a, ISAP-K-128, Spook-128-512-su\n"
    "  --key-file   a file of 16 bytes\n"
    "  --key        32 hex digits; WARNING: other users of this machine can see a command line\n"
    "  --nonce-file, --nonce   likewise 16 bytes; never seal twice with the same key and nonce\n"
    "  --assoc-file, --assoc   associated data, at most 256 bytes; none if left out\n"
    "  --station    0 to 65535\n"
    "  --last       the last counter used with this key and station; 0 with a new key\n"
    "  --in, --out  default to standard input and standard output, as does -\n"
    "\n"
    "Exit status: 0 well; refusals: 1 instance, 2 key, 3 nonce, 4 associated data too long, 5 text too\n"
    "long, 6 output length, 7 tag length (sealed input cut short), 8 wrong tag, 12 wrong mark, 13 last\n"
    "counter already the largest, 14 parcel cut short; 64 the command line will not do; 74 a file cannot\n"
    "be read or written, or there is no memory for it. Unless it is 0, no file is written; what went to\n"
    "a pipe may be cut.\n";

struct named_job {
    const char *name;
    unsigned allowed;
    int (*run)(const struct options *);
};

static const struct named_job jobs[] = {
    {"seal", OPTIONS_OF_A_SEALING, run_seal},
    {"open", OPTIONS_OF_A_SEALING, run_open},
    {"plan", OPTIONS_OF_A_PLAN, run_plan},
    {NULL, 0, NULL},
};

static const struct named_job parcel_jobs[] = {
    {"build", OPTIONS_OF_BUILDING_A_PARCEL, run_parcel_build},
    {"open", OPTIONS_OF_OPENING_A_PARCEL, run_parcel_open},
    {"show", OPTIONS_OF_SHOWING_A_PARCEL, run_parcel_show},
    {NULL, 0, NULL},
};

/* Does the job that the first word names. */
static int run_named(const struct named_job *job, char **words)
{
    struct options options;
    if (words[0] == NULL)
        return misused("what is to be done is missing", "");
    while (job->name != NULL && strcmp(job->name, words[0]) != 0)
        job++;
    if (job->name == NULL)
        return misused("unknown job", words[0]);
    int status = read_options(&options, job->allowed, words + 1);
    if (status == STATUS_WELL)
        status = job->run(&options);
    forget(options.word[OPTION_KEY]);
    return status;
}

int main(int count, char **words)
{
    signal(SIGPIPE, SIG_IGN); /* so that a closed pipe is told as any other output that cannot be written */
    if (count < 2)
        return run_named(jobs, words + count);
    if (strcmp(words[1], "--help") == 0)
        return write_octets(NULL, (const uint8_t *)help, sizeof help - 1);
    if (strcmp(words[1], "parcel") == 0)
        return run_named(parcel_jobs, words + 2);
    return run_named(jobs, words + 1);
}
