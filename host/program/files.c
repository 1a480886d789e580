/*
 * A file is written under a name of its own beside the wanted one and then renamed, so that a failure leaves what was there. What is no
 * regular file, as a device or a pipe, is written to directly: to rename over it would remove it.
 */
#include "files.h"

#include <errno.h>
#include <fcntl.h>
#include <stdio.h>
#include <stdlib.h>
#include <string.h>
#include <sys/stat.h>
#include <unistd.h>

#include "status.h"

enum { FIRST_ROOM = 4096 };

int failed(const char *to, const char *what, int cause)
{
    fprintf(stderr, "isap: cannot %s %s: %s\n", to, what, strerror(cause));
    return STATUS_IO;
}

/* A room of twice the length, but of no more than is wanted. */
static size_t wider(size_t room, size_t most)
{
    size_t twice = room == 0 ? FIRST_ROOM : 2 * room;
    return twice < most ? twice : most;
}

/* Null, or what could not be done. */
static const char *read_up_to(struct octets *into, size_t most, int file)
{
    into->len = 0;
    while (into->len < most) {
        if (into->len == into->room && !octets_widen(into, wider(into->room, most)))
            return "hold";
        ssize_t got = read(file, into->at + into->len, into->room - into->len);
        if (got == 0)
            return NULL;
        if (got > 0)
            into->len += (size_t)got;
        else if (errno != EINTR)
            return "read";
    }
    return NULL;
}

int read_octets(struct octets *into, size_t most, const char *path)
{
    int file = path == NULL ? STDIN_FILENO : open(path, O_RDONLY | O_CLOEXEC);
    if (file < 0)
        return failed("open", path, errno);
    const char *undone = read_up_to(into, most, file);
    int cause = errno;
    if (path != NULL)
        close(file);
    return undone == NULL ? STATUS_WELL : failed(undone, path == NULL ? "standard input" : path, cause);
}

static bool write_all(int file, const uint8_t *from, size_t len)
{
    while (len > 0) {
        ssize_t put = write(file, from, len);
        if (put >= 0) {
            from += put;
            len -= (size_t)put;
        } else if (errno != EINTR) {
            return false;
        }
    }
    return true;
}

static int write_directly(const char *path, const uint8_t *from, size_t len)
{
    int file = path == NULL ? STDOUT_FILENO : open(path, O_WRONLY | O_CLOEXEC);
    if (file < 0)
        return failed("open", path, errno);
    bool done = write_all(file, from, len);
    int cause = errno;
    if (path != NULL && close(file) != 0 && done) {
        done = false;
        cause = errno;
    }
    return done ? STATUS_WELL : failed("write", path == NULL ? "standard output" : path, cause);
}

/* A new file whole on disk, with the permissions of the one that it is to replace; 0, or the cause of a failure. */
static int write_new(const char *path, const struct stat *replaced, const uint8_t *from, size_t len)
{
    int file = open(path, O_WRONLY | O_CREAT | O_EXCL | O_CLOEXEC, replaced == NULL ? 0666 : 0600);
    if (file < 0)
        return errno;
    bool done = replaced == NULL || fchmod(file, replaced->st_mode & 0777) == 0;
    done = done && write_all(file, from, len) && fsync(file) == 0;
    int cause = errno;
    if (close(file) != 0 && done) {
        done = false;
        cause = errno;
    }
    if (!done)
        unlink(path);
    return done ? 0 : cause;
}

static int replace(const char *path, const struct stat *replaced, const uint8_t *from, size_t len)
{
    size_t room = strlen(path) + sizeof ".part" + 3 * sizeof(long);
    char *part = malloc(room);
    if (part == NULL)
        return failed("write", path, ENOMEM);
    snprintf(part, room, "%s.%ld.part", path, (long)getpid());
    int cause = write_new(part, replaced, from, len);
    if (cause == 0 && rename(part, path) != 0) {
        cause = errno;
        unlink(part);
    }
    free(part);
    return cause == 0 ? STATUS_WELL : failed("write", path, cause);
}

int write_octets(const char *path, const uint8_t *from, size_t len)
{
    struct stat there;
    if (path == NULL)
        return write_directly(NULL, from, len);
    if (stat(path, &there) != 0)
        return replace(path, NULL, from, len);
    if (!S_ISREG(there.st_mode))
        return write_directly(path, from, len);
    char *behind_links = realpath(path, NULL);
    if (behind_links == NULL)
        return failed("write", path, errno);
    int status = replace(behind_links, &there, from, len);
    free(behind_links);
    return status;
}
