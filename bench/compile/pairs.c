/* Runs two commands in turn, and prints the processor time of both by their medians, and how many times the second's the first
 * takes, by the median of the pairs:
 *     pairs COUNT COMMAND... -- COMMAND...
 * In every second pair the second command goes first. What they write goes to /dev/null. */
#include <fcntl.h>
#include <spawn.h>
#include <stdio.h>
#include <stdlib.h>
#include <string.h>
#include <sys/resource.h>
#include <sys/wait.h>

extern char **environ;

/* The processor time of one run, user's and system's, in microseconds. */
static double taken(char **command, posix_spawn_file_actions_t *quiet)
{
    pid_t child;
    if (posix_spawn(&child, command[0], quiet, NULL, command, environ) != 0) {
        fprintf(stderr, "cannot run %s\n", command[0]);
        exit(1);
    }
    int status;
    struct rusage used;
    if (wait4(child, &status, 0, &used) != child || status != 0) {
        fprintf(stderr, "%s failed\n", command[0]);
        exit(1);
    }
    return (used.ru_utime.tv_sec + used.ru_stime.tv_sec) * 1e6 + used.ru_utime.tv_usec + used.ru_stime.tv_usec;
}

static int by_size(const void *a, const void *b)
{
    double x = *(const double *)a, y = *(const double *)b;
    return (x > y) - (x < y);
}

static double median(double *times, size_t count)
{
    qsort(times, count, sizeof *times, by_size);
    return times[count / 2];
}

int main(int argc, char **argv)
{
    size_t count = argc > 1 ? strtoul(argv[1], NULL, 10) : 0;
    char **first = argv + 2, **second = first;
    while (*second && strcmp(*second, "--"))
        second++;
    if (count == 0 || *first == NULL || *second == NULL)
        return 2;
    *second++ = NULL;
    posix_spawn_file_actions_t quiet;
    posix_spawn_file_actions_init(&quiet);
    posix_spawn_file_actions_addopen(&quiet, 1, "/dev/null", O_WRONLY, 0);
    posix_spawn_file_actions_addopen(&quiet, 2, "/dev/null", O_WRONLY, 0);
    double *one = malloc(count * sizeof *one), *two = malloc(count * sizeof *two), *ratio = malloc(count * sizeof *ratio);
    if (!one || !two || !ratio)
        return 1;
    for (size_t at = 0; at < count; at++) {
        if (at % 2)
            two[at] = taken(second, &quiet);
        one[at] = taken(first, &quiet);
        if (at % 2 == 0)
            two[at] = taken(second, &quiet);
        ratio[at] = one[at] / two[at];
    }
    double between = median(ratio, count);
    printf("%.0f and %.0f microseconds of processor time, %.3f by the median of %zu pairs\n", median(one, count), median(two, count),
           between, count);
    return 0;
}
