/* spent PROGRAM [ARG..]: runs it and prints to standard error the microseconds of processor time that it took. The time on the clock would
   have in it whatever else the machine does meanwhile. */
#include <stdio.h>
#include <sys/resource.h>
#include <sys/wait.h>
#include <unistd.h>

static long microseconds(struct timeval t)
{
    return (long)t.tv_sec * 1000000 + (long)t.tv_usec;
}

int main(int argc, char **argv)
{
    struct rusage used;
    int status;
    pid_t child = argc > 1 ? fork() : -1;
    if (child == 0) {
        execvp(argv[1], argv + 1);
        _exit(127);
    }
    if (child < 0 || wait4(child, &status, 0, &used) != child || status != 0)
        return 1;
    fprintf(stderr, "%ld\n", microseconds(used.ru_utime) + microseconds(used.ru_stime));
    return 0;
}
