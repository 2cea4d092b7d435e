/* What the measurements of an index, a span, a constant, a tray and a written sheet share: the same random oils in each run, how plain C stays a call, the
   clock, and how a figure is reported. */
#ifndef MEASURE_H
#define MEASURE_H

#include <stdint.h>
#include <stdio.h>
#include <stdlib.h>
#include <time.h>

enum { REPEATS = 9 };

/* Plain C stays a call, as the library's functions are: no inlining, and nothing that the compiler learns about the caller. What several of its calls share
   is laid out in each. */
#define CALLED __attribute__((noipa))
#define LAID_OUT static inline __attribute__((always_inline))

/* xorshift64, from 0 to below 1 */
static double random_unit(void)
{
    static uint64_t state = 88172645463325252ull;
    state ^= state << 13;
    state ^= state >> 7;
    state ^= state << 17;
    return (double)(state >> 11) / 9007199254740992.0;
}

/* nanoseconds */
static double now(void)
{
    struct timespec t;
    clock_gettime(CLOCK_MONOTONIC, &t);
    return (double)t.tv_sec * 1e9 + (double)t.tv_nsec;
}

static int by_size(const void *x, const void *y)
{
    double d = *(const double *)x - *(const double *)y;
    return (d > 0) - (d < 0);
}

/* the median of the repeats, with the least and the greatest, to so many decimal places */
static void report_to(int places, const char *what, double *values)
{
    qsort(values, REPEATS, sizeof *values, by_size);
    printf("  %-34s %9.*f  (%.*f to %.*f)\n", what, places, values[REPEATS / 2], places, values[0], places, values[REPEATS - 1]);
}

static void report(const char *what, double *values)
{
    report_to(2, what, values);
}

#endif
