/* Products of powers of whole numbers, and which of two is the lesser. */
#define _DEFAULT_SOURCE
#include "audit.h"

#include <gmp.h>
#include <inttypes.h>
#include <mpfr.h>
#include <stdio.h>
#include <stdlib.h>
#include <sys/resource.h>
#include <time.h>

bool quick;

/* ---- time and memory ---- */

double seconds(void)
{
    struct timespec t;
    clock_gettime(CLOCK_MONOTONIC, &t);
    return (double)t.tv_sec + 1e-9 * (double)t.tv_nsec;
}

long megabytes(void)
{
    struct rusage r;
    getrusage(RUSAGE_SELF, &r);
    return r.ru_maxrss / 1024;
}

/* ---- products of powers ---- */

void times_power(struct side *s, uint64_t base, uint64_t exponent)
{
    if (base == 1 || exponent == 0)
        return;
    for (int i = 0; i < s->count; i++)
        if (s->f[i].base == base) {
            s->f[i].exponent += exponent;
            return;
        }
    if (s->count == FACTORS) {
        fprintf(stderr, "audit: too many factors\n");
        exit(2);
    }
    s->f[s->count].base = base;
    s->f[s->count++].exponent = exponent;
}

static void remove_factor(struct side *s, int i)
{
    s->f[i] = s->f[--s->count];
}

static uint64_t gcd(uint64_t a, uint64_t b)
{
    while (b != 0) {
        uint64_t r = a % b;
        a = b;
        b = r;
    }
    return a;
}

/* Cancels one common factor of the two sides; false if there is none. */
static bool cancel_once(struct side *l, struct side *r)
{
    for (int i = 0; i < l->count; i++)
        for (int j = 0; j < r->count; j++) {
            uint64_t a = l->f[i].base, b = r->f[j].base, g = gcd(a, b);
            if (g == 1)
                continue;
            uint64_t e = l->f[i].exponent, f = r->f[j].exponent;
            remove_factor(l, i);
            remove_factor(r, j);
            times_power(l, a / g, e);
            times_power(r, b / g, f);
            if (e > f)
                times_power(l, g, e - f);
            else
                times_power(r, g, f - e);
            return true;
        }
    return false;
}

/* Takes the twos out of every base and answers how many there are in all. */
static uint64_t take_twos(struct side *s)
{
    uint64_t twos = 0;
    struct side odd = { .count = 0 };
    for (int i = 0; i < s->count; i++) {
        int z = __builtin_ctzll(s->f[i].base);
        twos += (uint64_t)z * s->f[i].exponent;
        times_power(&odd, s->f[i].base >> z, s->f[i].exponent);
    }
    *s = odd;
    return twos;
}

static void show_progress(int done, int of)
{
    static double last;
    double now = seconds();
    if (last == 0)
        last = now;
    if (now < last + 2)
        return;
    last = now;
    fprintf(stderr, "audit: squaring %d of %d, %ld MB\n", done, of, megabytes());
}

/* The product itself: all exponents together, from their highest bit down. */
static void multiply_out(mpz_t result, const struct side *s)
{
    int top = 0;
    for (int i = 0; i < s->count; i++) {
        int bits = 64 - __builtin_clzll(s->f[i].exponent);
        top = bits > top ? bits : top;
    }
    mpz_set_ui(result, 1);
    for (int bit = top - 1; bit >= 0; bit--) {
        mpz_mul(result, result, result);
        for (int i = 0; i < s->count; i++)
            if (s->f[i].exponent >> bit & 1)
                mpz_mul_ui(result, result, s->f[i].base);
        show_progress(top - bit, top);
    }
}

/* ---- left <= right ---- */

static void print_side(const struct side *s, uint64_t twos)
{
    printf("2^%" PRIu64, twos);
    for (int i = 0; i < s->count; i++)
        printf("*%" PRIu64 "^%" PRIu64, s->f[i].base, s->f[i].exponent);
}

static bool at_most_by_powers(struct side l, struct side r)
{
    double start = seconds();
    while (cancel_once(&l, &r))
        ;
    uint64_t lt = take_twos(&l), rt = take_twos(&r), common = lt < rt ? lt : rt;
    lt -= common;
    rt -= common;
    mpz_t left, right;
    mpz_inits(left, right, NULL);
    multiply_out(left, &l);
    multiply_out(right, &r);
    uint64_t lb = mpz_sizeinbase(left, 2) + lt, rb = mpz_sizeinbase(right, 2) + rt;
    int order = lb < rb ? -1 : 1;
    if (lb == rb) {
        mpz_mul_2exp(left, left, lt);
        mpz_mul_2exp(right, right, rt);
        order = mpz_cmp(left, right);
    }
    printf("      powers: ");
    print_side(&l, lt);
    printf(" against ");
    print_side(&r, rt);
    printf("\n      %" PRIu64 " bits against %" PRIu64 ", %.1f s, at most %ld MB so far\n", lb, rb,
        seconds() - start, megabytes());
    mpz_clears(left, right, NULL);
    return order <= 0;
}

/* low <= log of the side <= high */
static void enclose_side(mpfr_t low, mpfr_t high, const struct side *s)
{
    mpfr_t t;
    mpfr_init2(t, mpfr_get_prec(low));
    mpfr_set_zero(low, 1);
    mpfr_set_zero(high, 1);
    for (int i = 0; i < s->count; i++) {
        mpfr_log_ui(t, s->f[i].base, MPFR_RNDD);
        mpfr_mul_ui(t, t, s->f[i].exponent, MPFR_RNDD);
        mpfr_add(low, low, t, MPFR_RNDD);
        mpfr_log_ui(t, s->f[i].base, MPFR_RNDU);
        mpfr_mul_ui(t, t, s->f[i].exponent, MPFR_RNDU);
        mpfr_add(high, high, t, MPFR_RNDU);
    }
    mpfr_clear(t);
}

/* -1: left below right, 1: above, 0: the enclosures meet. */
static int order_by_logs(const struct side *l, const struct side *r, mpfr_prec_t bits)
{
    mpfr_t ll, lh, rl, rh;
    mpfr_inits2(bits, ll, lh, rl, rh, (mpfr_ptr)0);
    enclose_side(ll, lh, l);
    enclose_side(rl, rh, r);
    int order = mpfr_less_p(lh, rl) ? -1 : mpfr_greater_p(ll, rh) ? 1 : 0;
    mpfr_clears(ll, lh, rl, rh, (mpfr_ptr)0);
    return order;
}

bool at_most(const struct side *l, const struct side *r)
{
    if (quick)
        for (mpfr_prec_t bits = 128; bits <= 1024; bits *= 2) {
            int order = order_by_logs(l, r, bits);
            if (order != 0)
                return order < 0;
        }
    return at_most_by_powers(*l, *r);
}
