/* How often does the index come out wrong in ordinary arithmetic?

     precision data/hard-cases.txt [random oils in a line]

   Each arithmetic does what firmware would: y and u turned into mm2/s, L and H
   interpolated or taken from the quadratics in that arithmetic, U < H asked in
   it, formulas 3, 6 and 7 of the standard as printed, and then either
   floor(x + 0.5) or nearbyint(x), which takes a half to the even number. The
   right index is exact (oil.c). No pair here is exactly a half by B. */
#include "cases.h"

#include <math.h>
#include <stdlib.h>
#include <string.h>

/* ---- the arithmetics ---- */

static double fifth(double x)
{
    return round(x * 1e5) / 1e5;
}

/* Formula 3, or 6 and 7, in one type with one logarithm. */
#define ARITHMETIC(name, real, log_of, pow_of, round_n)                                              \
    static void basis_##name(real y, real *l, real *h)                                               \
    {                                                                                                \
        if (y > (real)70.0) {                                                                        \
            *l = (real)0.8353 * y * y + (real)14.67 * y - (real)216.0;                               \
            *h = (real)0.1684 * y * y + (real)11.85 * y - (real)97.0;                                \
            return;                                                                                  \
        }                                                                                            \
        int i = 0;                                                                                   \
        while (i + 2 < ROWS && (real)table[i + 1].y / (real)1000.0 <= y)                             \
            i++;                                                                                     \
        real y0 = (real)table[i].y / (real)1000.0, y1 = (real)table[i + 1].y / (real)1000.0;         \
        real l0 = (real)table[i].l / (real)1000.0, l1 = (real)table[i + 1].l / (real)1000.0;         \
        real h0 = (real)table[i].h / (real)1000.0, h1 = (real)table[i + 1].h / (real)1000.0;         \
        real part = (y - y0) / (y1 - y0);                                                            \
        *l = l0 + (l1 - l0) * part;                                                                  \
        *h = h0 + (h1 - h0) * part;                                                                  \
    }                                                                                                \
    static double index_##name(uint32_t u, uint32_t y)                                               \
    {                                                                                                \
        real U = (real)u / (real)1000.0, Y = (real)y / (real)1000.0, l, h;                           \
        basis_##name(Y, &l, &h);                                                                     \
        if (U >= h)                                                                                  \
            return (double)((l - U) / (l - h) * (real)100.0);                                        \
        real n = round_n((log_of(h) - log_of(U)) / log_of(Y));                                       \
        return (double)((pow_of((real)10.0, n) - (real)1.0) / (real)0.00715 + (real)100.0);          \
    }

#define AS_IS(x) (x)
#define LOG5(x) fifth(log10(x))
ARITHMETIC(double, double, log10, pow, AS_IS)
ARITHMETIC(single, float, log10f, powf, AS_IS)
ARITHMETIC(log5, double, LOG5, pow, AS_IS)
ARITHMETIC(log5n5, double, LOG5, pow, fifth)

enum { ARITHMETICS = 4 };
static const struct { const char *name; double (*index)(uint32_t, uint32_t); } arithmetics[ARITHMETICS] = {
    { "double", index_double },
    { "single", index_single },
    { "5-digit logs", index_log5 },
    { "5-digit logs and N", index_log5n5 },
};

static double floor_of_half_more(double x)
{
    return floor(x + 0.5);
}

enum { ROUNDINGS = 2 };
static const struct { const char *name; double (*round)(double); } roundings[ROUNDINGS] = {
    { "wrong index with floor(x + 0.5)", floor_of_half_more },
    { "wrong index with nearbyint(x)", nearbyint },
};

/* ---- the counts ---- */

struct line { uint64_t cases, wrong[ROUNDINGS][ARITHMETICS]; double worst[ARITHMETICS]; };

static void add(struct line *line, uint32_t u, uint32_t y, int64_t right, double exact)
{
    line->cases++;
    for (int i = 0; i < ARITHMETICS; i++) {
        double x = arithmetics[i].index(u, y);
        for (int j = 0; j < ROUNDINGS; j++)
            line->wrong[j][i] += roundings[j].round(x) != (double)right;
        double off = fabs(x - exact);
        line->worst[i] = off > line->worst[i] ? off : line->worst[i];
    }
}

static void print_share(uint64_t wrong, uint64_t cases)
{
    char text[40];
    snprintf(text, sizeof text, "%" PRIu64 " (%.4g%%)", wrong, 100.0 * (double)wrong / (double)cases);
    printf(" %s |", wrong == 0 ? "never on these" : text);
}

/* A table of each rounding, then one of the errors: the lines are kept for them. */
static struct { const char *name; struct line line; } kept[32];
static int kept_count;

static void keep_line(const char *name, const struct line *line)
{
    kept[kept_count].name = name;
    kept[kept_count++].line = *line;
}

static void print_head(const char *what)
{
    printf("| %s | number |", what);
    for (int i = 0; i < ARITHMETICS; i++)
        printf(" %s |", arithmetics[i].name);
    printf("\n|---|---|---|---|---|---|\n");
}

static void print_wrong(int rounding)
{
    print_head(roundings[rounding].name);
    for (int j = 0; j < kept_count; j++) {
        printf("| %s | %" PRIu64 " |", kept[j].name, kept[j].line.cases);
        for (int i = 0; i < ARITHMETICS; i++)
            print_share(kept[j].line.wrong[rounding][i], kept[j].line.cases);
        printf("\n");
    }
    printf("\n");
}

static void print_worst(void)
{
    print_head("most that the unrounded index is off");
    for (int j = 0; j < kept_count; j++) {
        printf("| %s | %" PRIu64 " |", kept[j].name, kept[j].line.cases);
        for (int i = 0; i < ARITHMETICS; i++)
            printf(" %.1e |", kept[j].line.worst[i]);
        printf("\n");
    }
}

/* ---- the hard cases ---- */

static double exact_index(const struct oil *o)
{
    if (below_h(o))
        return (double)index_b_estimate(o);
    return (double)(100.0L * (long double)(o->L - o->U) / (long double)(o->L - o->H));
}

static void hard_line(const char *path, const char *kind, const char *name)
{
    FILE *file = fopen(path, "r");
    struct line line;
    struct hard_case c;
    bool bad = file == NULL;
    memset(&line, 0, sizeof line);
    while (!bad && next_case(file, &c, &bad)) {
        if (strcmp(c.kind, kind) != 0)
            continue;
        struct oil o = oil_of(c.u, c.y);
        add(&line, c.u, c.y, right_index(&o, c.below), exact_index(&o));
    }
    if (bad) {
        fprintf(stderr, "cannot read %s\n", path);
        exit(1);
    }
    fclose(file);
    keep_line(name, &line);
}

/* ---- random oils ---- */

static uint64_t state = 2270;

static double random_unit(void)
{
    uint64_t z = (state += 0x9e3779b97f4a7c15u);
    z = (z ^ (z >> 30)) * 0xbf58476d1ce4e5b9u;
    z = (z ^ (z >> 27)) * 0x94d049bb133111ebu;
    return (double)((z ^ (z >> 31)) >> 11) * 0x1p-53;
}

/* The right index of any answered pair. By B the long double, whose error is
   below 1e-11, decides away from a half, and MPFR beside one. */
static int64_t right_of_any(const struct oil *o)
{
    if (!below_h(o))
        return index_a(o);
    long double x = index_b_estimate(o), below = floorl(x);
    if (fabsl(x - below - 0.5L) > 1e-6L)
        return (int64_t)floorl(x + 0.5L);
    return right_index(o, (int64_t)below);
}

/* y even in its logarithm from `from` to `to`, the index even between two
   values, and u the whole number of thousandths, a multiple of `grain`, that
   comes closest. */
static void random_line(uint64_t cases, double from, double to, double low, double high, uint32_t grain,
    const char *name)
{
    struct line line;
    memset(&line, 0, sizeof line);
    while (line.cases < cases) {
        uint32_t y = (uint32_t)(from * pow(to / from, random_unit()) / grain) * grain;
        double x = low + (high - low) * random_unit();
        struct oil o = oil_of(y + 1, y);
        double place = (double)o.L - x / 100.0 * (double)(o.L - o.H);
        if (x > 100.0)
            place = (double)o.H * pow(y / 1000.0, -log10(1.0 + 0.00715 * (x - 100.0)));
        uint32_t u = (uint32_t)(place / (double)UNITS / grain + 0.5) * grain;
        if (question(u, y) != 0)
            continue;
        o = oil_of(u, y);
        add(&line, u, y, right_of_any(&o), exact_index(&o));
    }
    keep_line(name, &line);
}

/* Every pair by B with y from `from` to `to`: the least y have the highest
   index and so the greatest errors. */
static void every_line(uint32_t from, uint32_t to, const char *name)
{
    struct line line;
    memset(&line, 0, sizeof line);
    for (uint32_t y = from; y <= to; y++)
        for (uint32_t u = y + 1;; u++) {
            struct oil o = oil_of(u, y);
            if (!below_h(&o))
                break;
            add(&line, u, y, right_of_any(&o), exact_index(&o));
        }
    keep_line(name, &line);
}

int main(int argc, char **argv)
{
    if (argc < 2) {
        fprintf(stderr, "usage: precision data/hard-cases.txt [random oils in a line]\n");
        return 2;
    }
    uint64_t cases = argc > 2 ? strtoull(argv[2], NULL, 10) : 1000000;
    hard_line(argv[1], "A-half", "A, exact halves");
    hard_line(argv[1], "A-table", "A, closest, y to 70");
    hard_line(argv[1], "A-all", "A, closest, any y");
    hard_line(argv[1], "B-common", "B, closest, y to 20, index below 200");
    hard_line(argv[1], "B-table", "B, closest, y to 70");
    hard_line(argv[1], "B-all", "B, closest, any y");
    random_line(cases, 2000, 70000, 0, 100, 1, "random, y 2 to 70, index 0 to 100");
    random_line(cases, 2000, 70000, 100, 200, 1, "random, y 2 to 70, index 100 to 200");
    random_line(cases, 2000, 70000, 80, 160, 10, "random, as printed to 0.01, index 80 to 160");
    random_line(cases, 70000, 500000, 0, 100, 1, "random, y 70 to 500, index 0 to 100");
    random_line(cases, 70000, 500000, 100, 400, 1, "random, y 70 to 500, index 100 to 400");
    every_line(2000, 2200, "every pair by B with y 2 to 2.2 (index to 6593)");
    for (int j = 0; j < ROUNDINGS; j++)
        print_wrong(j);
    print_worst();
    return 0;
}
