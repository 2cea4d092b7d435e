/* log2_scaled beside glibc's log2, and against MPFR. Built and run by bench/log2.sh. */
#include <math.h>
#include <mpfr.h>
#include <stdint.h>
#include <stdio.h>
#include <stdlib.h>
#include <string.h>
#include <time.h>

/* A slice is passed as its address and its length. */
void log2_all(const uint64_t *xs, size_t n, uint64_t *rs, size_t m);

enum { SCALE_BITS = 36, WIDTH = 20, BITS = 49, PRECISION = 128 };

static uint64_t state = 88172645463325252u;

/* xorshift64: the same values in each run */
static uint64_t random64(void)
{
    state ^= state << 13;
    state ^= state >> 7;
    state ^= state << 17;
    return state;
}

/* a number of some bit length from 1 to 49, each length equally often */
static uint64_t random_value(void)
{
    unsigned bits = 1 + random64() % BITS;
    uint64_t top = (uint64_t)1 << (bits - 1);
    return top | (random64() & (top - 1));
}

static double now_ns(void)
{
    struct timespec t;
    clock_gettime(CLOCK_MONOTONIC, &t);
    return t.tv_sec * 1e9 + t.tv_nsec;
}

static void *space(size_t n, size_t size)
{
    void *p = calloc(n, size);
    if (!p) {
        fprintf(stderr, "log2: no memory\n");
        exit(1);
    }
    return p;
}

/* ---- measuring */

enum { COUNT = 4096, ROUNDS = 2000, RUNS = 9 };

static volatile double sink;

static int by_size(const void *a, const void *b)
{
    double x = *(const double *)a, y = *(const double *)b;
    return (x > y) - (x < y);
}

static void print_row(const char *name, double *of, const char *what)
{
    qsort(of, RUNS, sizeof *of, by_size);
    printf("%-22s %6.2f   (from %.2f to %.2f in %d runs)%s\n", name, of[RUNS / 2], of[0], of[RUNS - 1], RUNS, what);
}

static int measure(void)
{
    static uint64_t xs[COUNT], rs[COUNT];
    static double doubles[COUNT], logs[COUNT];
    double ours[RUNS], theirs[RUNS], ratio[RUNS];
    for (int i = 0; i < COUNT; i++) {
        xs[i] = random_value();
        doubles[i] = (double)xs[i];
    }
    for (int run = 0; run < RUNS; run++) {
        double start = now_ns();
        for (int k = 0; k < ROUNDS; k++)
            log2_all(xs, COUNT, rs, COUNT);
        ours[run] = (now_ns() - start) / ((double)COUNT * ROUNDS);
        sink = (double)rs[run];
        start = now_ns();
        for (int k = 0; k < ROUNDS; k++) {
            for (int i = 0; i < COUNT; i++)
                logs[i] = log2(doubles[i]);
            sink = logs[k % COUNT];
        }
        theirs[run] = (now_ns() - start) / ((double)COUNT * ROUNDS);
        ratio[run] = ours[run] / theirs[run];
    }
    print_row("log2_scaled, ns a call", ours, "");
    print_row("glibc log2, ns a call", theirs, "");
    print_row("ratio", ratio, "");
    return 0;
}

/* ---- comparing */

static int by_value(const void *a, const void *b)
{
    uint64_t x = *(const uint64_t *)a, y = *(const uint64_t *)b;
    return (x > y) - (x < y);
}

/* 2^k - 1, 2^k, 2^k + 1, and the first and the last mantissa of each slot of the first level */
static size_t edges(uint64_t *xs)
{
    uint64_t limit = (uint64_t)1 << BITS, unit = limit / 2, spacing = unit / 256;
    size_t n = 0;
    for (int k = 0; k <= BITS; k++)
        for (int d = -1; d <= 1; d++) {
            uint64_t x = ((uint64_t)1 << k) + d;
            if (x >= 1 && x < limit)
                xs[n++] = x;
        }
    for (uint64_t m = unit; m < limit; m += spacing) {
        xs[n++] = m;
        xs[n++] = m + spacing - 1;
    }
    return n;
}

/* r <= E * log2(x) <= r + WIDTH, the logarithm rounded against the claim; returns how far it lies above r */
static double above(mpfr_t t, uint64_t x, uint64_t r, int *wrong)
{
    mpfr_set_ui(t, x, MPFR_RNDN);
    mpfr_log2(t, t, MPFR_RNDD);
    mpfr_mul_2ui(t, t, SCALE_BITS, MPFR_RNDD);
    *wrong = mpfr_cmp_ui(t, r) < 0;
    mpfr_set_ui(t, x, MPFR_RNDN);
    mpfr_log2(t, t, MPFR_RNDU);
    mpfr_mul_2ui(t, t, SCALE_BITS, MPFR_RNDU);
    mpfr_sub_ui(t, t, r, MPFR_RNDU);
    *wrong |= mpfr_cmp_ui(t, WIDTH) > 0;
    return mpfr_get_d(t, MPFR_RNDU);
}

static int compare(size_t n)
{
    uint64_t *xs = space(n + 1000, sizeof *xs), *rs = space(n + 1000, sizeof *rs);
    size_t outside = 0, falls = 0;
    double widest = 0;
    mpfr_t t;
    size_t count = edges(xs);
    while (count < n)
        xs[count++] = random_value();
    qsort(xs, count, sizeof *xs, by_value);
    log2_all(xs, count, rs, count);
    mpfr_init2(t, PRECISION);
    for (size_t i = 0; i < count; i++) {
        int wrong;
        double up = above(t, xs[i], rs[i], &wrong);
        if (up > widest)
            widest = up;
        if (wrong && outside++ < 5)
            fprintf(stderr, "outside: x = %llu, r = %llu\n", (unsigned long long)xs[i], (unsigned long long)rs[i]);
        if (i && rs[i] < rs[i - 1] && falls++ < 5)
            fprintf(stderr, "falls: at x = %llu\n", (unsigned long long)xs[i]);
    }
    mpfr_clear(t);
    printf("log2: %zu values against MPFR: %zu outside the enclosure, %zu falls; E * log2(x) - r is at most %.2f of %d\n", count, outside, falls, widest, WIDTH);
    return outside || falls;
}

int main(int argc, char **argv)
{
    if (argc == 1)
        return measure();
    if (argc == 3 && !strcmp(argv[1], "compare") && atol(argv[2]) > 0)
        return compare((size_t)atol(argv[2]));
    fprintf(stderr, "log2 [compare N]\n");
    return 2;
}
