/*
 * The library says nothing before a call has ended, so the line tells the time that has gone by, and how long the call will take as far as
 * a short sealing can tell. A thread writes it: a signal would put the registers of the call that it stops, secret bytes among them, on
 * the stack below what is wiped.
 */
#include "progress.h"

#include <pthread.h>
#include <stdbool.h>
#include <stdio.h>
#include <time.h>
#include <unistd.h>

#include "isap.h"

enum { LONG_TEXT = 65536, TRIAL_TEXT = 4096, SECOND = 1000000000, QUARTER = SECOND / 4 };

/* What the line says. */
static const char *what;
static size_t bytes;
static unsigned long about;
static struct timespec began;

/* How long it is; whether there is one; whether it is to end, and the lock for that. */
static int width;
static bool shown, ended;
static pthread_t thread;
static pthread_mutex_t lock = PTHREAD_MUTEX_INITIALIZER;
static pthread_cond_t end;

static struct timespec now(void)
{
    struct timespec time;
    clock_gettime(CLOCK_MONOTONIC, &time);
    return time;
}

static double seconds_since(struct timespec then)
{
    struct timespec time = now();
    return (double)(time.tv_sec - then.tv_sec) + (double)(time.tv_nsec - then.tv_nsec) / SECOND;
}

/* The seconds that so many rounds take, by a sealing of zeros. The one before it, which is slower, is not counted. */
static double seconds_for(uint32_t instance, uint32_t rounds)
{
    static const uint8_t zeros[TRIAL_TEXT];
    static uint8_t out[TRIAL_TEXT], tag[ISAP_TAG_BYTES];
    struct timespec then;
    uint64_t answer = 0;
    for (int trial = 0; trial < 2; trial++) {
        then = now();
        answer = isap_seal(instance, zeros, ISAP_KEY_BYTES, zeros, ISAP_NONCE_BYTES, zeros, 0, zeros, TRIAL_TEXT, out, TRIAL_TEXT, tag,
                           ISAP_TAG_BYTES);
    }
    return seconds_since(then) / isap_rounds(answer) * rounds;
}

static void write_line(void)
{
    width = fprintf(stderr, "\risap: %s %zu bytes: %lu s of about %lu s", what, bytes, (unsigned long)seconds_since(began), about);
}

/* Messages, and the shell, find the line empty. */
static void clear_line(void)
{
    fprintf(stderr, "\r%*s\r", width, "");
}

static struct timespec in_a_quarter(void)
{
    struct timespec time = now();
    time.tv_nsec += QUARTER;
    time.tv_sec += time.tv_nsec / SECOND;
    time.tv_nsec %= SECOND;
    return time;
}

static void *go_on(void *nothing)
{
    pthread_mutex_lock(&lock);
    while (!ended) {
        struct timespec until = in_a_quarter();
        if (pthread_cond_timedwait(&end, &lock, &until) != 0)
            write_line();
    }
    pthread_mutex_unlock(&lock);
    return nothing;
}

/* False where no thread is to be had: the work then goes on without a line. */
static bool start_thread(void)
{
    pthread_condattr_t clock;
    pthread_condattr_init(&clock);
    pthread_condattr_setclock(&clock, CLOCK_MONOTONIC);
    pthread_cond_init(&end, &clock);
    pthread_condattr_destroy(&clock);
    return pthread_create(&thread, NULL, go_on, NULL) == 0;
}

void begin_progress(const char *doing, uint32_t instance, size_t text_len, uint64_t plan)
{
    if (text_len <= LONG_TEXT || isap_number(plan) != ISAP_ENDED_WELL || !isatty(STDERR_FILENO))
        return;
    what = doing;
    bytes = text_len;
    about = 1 + (unsigned long)seconds_for(instance, isap_rounds(plan));
    began = now();
    write_line();
    shown = start_thread();
    if (!shown)
        clear_line();
}

void end_progress(void)
{
    if (!shown)
        return;
    pthread_mutex_lock(&lock);
    ended = true;
    pthread_cond_signal(&end);
    pthread_mutex_unlock(&lock);
    pthread_join(thread, NULL);
    clear_line();
}
