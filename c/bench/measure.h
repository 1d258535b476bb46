/* What the programs of the benchmark share. */
#ifndef MEASURE_H
#define MEASURE_H

#include <stdio.h>
#include <stdlib.h>
#include <time.h>

static inline int must(int result, const char *what)
{
    if (result < 0) {
        perror(what);
        exit(2);
    }
    return result;
}

static inline double nanoseconds(void)
{
    struct timespec now;
    clock_gettime(CLOCK_MONOTONIC, &now);
    return 1e9 * (double)now.tv_sec + (double)now.tv_nsec;
}

/* Above 0, or 0 if the text is no such number. */
static inline long count_of(const char *text)
{
    char *rest;
    long count = strtol(text, &rest, 10);
    return *rest == '\0' && count > 0 ? count : 0;
}

#endif
