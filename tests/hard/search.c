/* Finds the pairs whose exact index lies closest to a half, and writes
   data/hard-cases.txt to standard output.

     tests/hard/search.sh > data/hard-cases.txt

   For every y from 2,000 to 500,000 and every half k + 1/2 there is one place u*
   on the real line where the index passes it, and the whole u next to it is the
   only one that can be closest. All of them are tried: nothing is sampled.

   By A the place is a fraction and the distance |place - u| is exact in whole
   numbers. By B u* = H * Y^(-log10(c/10^7)) in double. The product in the exponent
   is at most 4.6 with an error of a few units of 2^-53, so the relative error of
   u* is below 3e-15; SLOP allows 1e-14. No pair within a limit is lost by it,
   and the distance of each candidate is then taken by MPFR with 256 bits. */
#include "../compare/oil.h"

#include <inttypes.h>
#include <math.h>
#include <stdio.h>
#include <stdlib.h>
#include <string.h>

#define SLOP 1e-14
enum { LEAST_HALF = -100 };     /* by A, halves from -99.5 up */

/* Each kind keeps the `keep` closest; `limit` is a first guess above which
   nothing is looked at by MPFR, checked at the end to have been wide enough. */
struct kind {
    const char *name, *what;
    double limit;
    size_t keep, count, room;
    struct hard *found;
};
struct hard { uint32_t u, y; int64_t below; double distance; };

enum { A_HALF, A_TABLE, A_ALL, B_COMMON, B_TABLE, B_ALL, KINDS };
static struct kind kinds[KINDS] = {
    [A_HALF] = { "A-half", "by A, exactly a half, index from -100 to 100", 0, 1500, 0, 0, NULL },
    [A_TABLE] = { "A-table", "by A, closest but not a half, y up to 70,000", 2e-6, 500, 0, 0, NULL },
    [A_ALL] = { "A-all", "by A, closest but not a half, any y", 1e-9, 500, 0, 0, NULL },
    [B_COMMON] = { "B-common", "by B, closest, y up to 20,000 and index below 200", 3e-6, 1000, 0, 0, NULL },
    [B_TABLE] = { "B-table", "by B, closest, y up to 70,000", 3e-8, 1000, 0, 0, NULL },
    [B_ALL] = { "B-all", "by B, closest, any y", 1.5e-10, 2359, 0, 0, NULL },
};

static void keep(int which, uint32_t u, uint32_t y, int64_t below, double distance)
{
    struct kind *k = &kinds[which];
    if (distance > k->limit)
        return;
    if (k->count == k->room) {
        k->room = 2 * k->room + 1000;
        k->found = realloc(k->found, k->room * sizeof *k->found);
        if (k->found == NULL)
            exit(1);
    }
    k->found[k->count++] = (struct hard){ u, y, below, distance };
}

/* ---- procedure A ---- */

static void search_a(uint32_t y)
{
    int64_t l, h;
    basis(table, y, &l, &h);
    int64_t d = l - h, scale = 200 * UNITS;
    for (int64_t below = LEAST_HALF; below < 100; below++) {
        /* 200 (L - U) = (2 below + 1)(L - H) at the half; place is 200 U. */
        int64_t place = 200 * l - (2 * below + 1) * d;
        int64_t u = (place + scale / 2) / scale, apart = llabs(place - u * scale);
        if (u * UNITS < h)
            continue;
        double distance = (double)apart / (2.0 * (double)d);
        if (apart == 0)
            keep(A_HALF, (uint32_t)u, y, below, 0);
        else if (y <= TABLE_END)
            keep(A_TABLE, (uint32_t)u, y, below, distance);
        if (apart != 0)
            keep(A_ALL, (uint32_t)u, y, below, distance);
    }
}

/* ---- procedure B ---- */

static double exponent[INDEX_GREATEST + 1];     /* log10(c(100k + 50)/10^7) */

static double widest_limit(uint32_t y, int64_t below)
{
    double limit = kinds[B_ALL].limit;
    if (y <= TABLE_END)
        limit = kinds[B_TABLE].limit;
    if (y <= 20000 && below < 200)
        limit = kinds[B_COMMON].limit;
    return limit;
}

/* Takes the exact distance and keeps the pair where it belongs. */
static void measure(uint32_t u, uint32_t y)
{
    struct oil o = oil_of(u, y);
    int64_t below;
    double distance = distance_to_half(&o, &below);
    keep(B_ALL, u, y, below, distance);
    if (y <= TABLE_END)
        keep(B_TABLE, u, y, below, distance);
    if (y <= 20000 && below < 200)
        keep(B_COMMON, u, y, below, distance);
}

static void search_b(uint32_t y)
{
    int64_t l, h;
    basis(table, y, &l, &h);
    double log_y = log(y / 1000.0), height = (double)h / (double)UNITS;
    for (int64_t below = 100; below < INDEX_GREATEST; below++) {
        double place = height * exp(-exponent[below] * log_y), u = rint(place);
        if (place < y)
            return;             /* u has to be above y; places fall with k */
        double antilog = 1.0 + 0.00715 * ((double)below + 0.5 - 100.0);
        double slope = antilog * M_LN10 / (0.00715 * place * log_y);
        if ((fabs(place - u) - SLOP * place) * slope * 0.999 > widest_limit(y, below))
            continue;
        if (u > y && (int64_t)u * UNITS < h)
            measure((uint32_t)u, y);
    }
}

/* ---- the file ---- */

static int by_distance(const void *a, const void *b)
{
    const struct hard *s = a, *t = b;
    if (s->distance != t->distance)
        return s->distance < t->distance ? -1 : 1;
    if (s->y != t->y)
        return s->y < t->y ? -1 : 1;
    return s->u < t->u ? -1 : s->u > t->u;
}

/* Of the exact halves, which all lie at 0, evenly spread ones are kept. */
static void thin(struct kind *k)
{
    for (size_t i = 0; i < k->keep && k->count > k->keep; i++)
        k->found[i] = k->found[i * k->count / k->keep];
}

static void print_kind(struct kind *k)
{
    qsort(k->found, k->count, sizeof *k->found, by_distance);
    size_t shown = k->count < k->keep ? k->count : k->keep;
    fprintf(stderr, "%s: %zu found, %zu kept\n", k->name, k->count, shown);
    if (k->count < k->keep) {
        fprintf(stderr, "%s: the limit %g is too low for %zu\n", k->name, k->limit, k->keep);
        exit(1);
    }
    if (k->limit == 0)
        thin(k);
    for (size_t i = 0; i < shown; i++) {
        const struct hard *h = &k->found[i];
        printf("%s %" PRIu32 " %" PRIu32 " %" PRId64 " %.4e\n", k->name, h->u, h->y, h->below, h->distance);
    }
}

static void print_header(void)
{
    printf("# Pairs whose exact index lies closest to a half; made by tests/hard/search.sh.\n"
           "# Every y from 2,000 to 500,000 with every half that an oil of that y can reach\n"
           "# (by A from -99.5 up) was tried with the whole u next to it; nothing was sampled.\n"
           "# A line: kind, u, y, k (the half is k + 1/2), distance of the exact index from it.\n");
    for (int i = 0; i < KINDS; i++)
        printf("# %s: %s; %zu found within %.1e\n", kinds[i].name, kinds[i].what, kinds[i].count,
            kinds[i].limit);
}

int main(void)
{
    for (int64_t k = 100; k <= INDEX_GREATEST; k++)
        exponent[k] = log10(1.0 + 0.00715 * ((double)k + 0.5 - 100.0));
    for (uint32_t y = Y_LEAST; y <= Y_GREATEST; y++) {
        search_a(y);
        search_b(y);
        if (y % 50000 == 0)
            fprintf(stderr, "searched to y %" PRIu32 "\n", y);
    }
    print_header();
    for (int i = 0; i < KINDS; i++)
        print_kind(&kinds[i]);
    return 0;
}
