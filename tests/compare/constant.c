#include "constant.h"
#include "oil.h"

#include <gmp.h>
#include <math.h>
#include <mpfr.h>

/* Document 001: (G - 0.0664 - 0.1154 log(V - 5.5)) / (0.94 - 0.109 log(V - 5.5))
   and (G - 0.108 - 0.1255 log(V' - 0.8)) / (0.90 - 0.097 log(V' - 0.8)). */
const struct formula at_40 = { 40, 5501, 1000000000, 5500, 664, 1154, 9400, 1090 };
const struct formula at_100 = { 100, 801, 500000, 800, 1080, 1255, 9000, 970 };

uint32_t constant_question(const struct formula *f, uint32_t viscosity, uint32_t density)
{
    if (viscosity < f->least || viscosity > f->greatest)
        return 21;
    if (density < DENSITY_LEAST || density > DENSITY_GREATEST)
        return 22;
    return 0;
}

/* ---- the logarithm against a fraction ---- */

/* Q*log10(x) is below 2^28, so that a unit in its last place is at most 2^-36;
   the C library's logarithm has a documented error under 4 of them. The margin
   allows 1,000. */
#define MARGIN 0x1p-26L

/* 3 if x is 1,000: the power of ten that x is, -1 if it is none. */
static int power_of_ten(uint32_t x)
{
    int power = 0;
    for (; x % 10 == 0; x /= 10)
        power++;
    return x == 1 ? power : -1;
}

/* The sign of whole - Q*log10(x) at this precision; 0 undecided. */
static int compare_at(uint32_t x, int64_t whole, mpfr_prec_t bits)
{
    mpfr_t low, high;
    mpfr_inits2(bits, low, high, (mpfr_ptr)0);
    mpfr_set_ui(low, x, MPFR_RNDD);
    mpfr_set_ui(high, x, MPFR_RNDU);
    mpfr_log10(low, low, MPFR_RNDD);
    mpfr_log10(high, high, MPFR_RNDU);
    mpfr_mul_ui(low, low, Q, MPFR_RNDD);
    mpfr_mul_ui(high, high, Q, MPFR_RNDU);
    int sign = mpfr_cmp_si(high, whole) < 0 ? 1 : mpfr_cmp_si(low, whole) > 0 ? -1 : 0;
    mpfr_clears(low, high, (mpfr_ptr)0);
    return sign;
}

int compare_with_log(uint32_t x, int64_t whole)
{
    /* 10^f 1000^Q against x^Q, and 1000^Q against x^Q 10^-f, are both f + 3Q
       against Q*log10(x). */
    int64_t f = whole + 3 * (int64_t)Q;
    long double estimate = Q * log10l(x);
    if ((long double)f < estimate - MARGIN)
        return -1;
    if ((long double)f > estimate + MARGIN)
        return 1;
    /* x^Q is a power of ten only where x is one. */
    int power = power_of_ten(x);
    if (power >= 0) {
        int64_t exact = power * (int64_t)Q;
        return (f > exact) - (f < exact);
    }
    /* Unequal, so some precision tells them apart. */
    for (mpfr_prec_t bits = 96;; bits *= 2) {
        int sign = compare_at(x, f, bits);
        if (sign != 0)
            return sign;
    }
}

int compare_powers(uint32_t x, int64_t whole)
{
    /* The tens of x are taken from both sides. */
    int64_t tens = whole + 3 * (int64_t)Q;
    for (; x % 10 == 0; x /= 10)
        tens -= Q;
    if (tens < 0)
        return -1;
    mpz_t left, right;
    mpz_inits(left, right, NULL);
    mpz_ui_pow_ui(left, 10, (unsigned long)tens);
    mpz_ui_pow_ui(right, x, Q);
    int order = mpz_cmp(left, right);
    mpz_clears(left, right, NULL);
    return (order > 0) - (order < 0);
}

/* ---- the formula ---- */

long double constant_with_log(const struct formula *f, uint32_t density, long double log)
{
    return 1000.0L * ((long double)density - f->a - f->b * log) / (f->c - f->d * log);
}

long double constant_estimate(const struct formula *f, uint32_t x, uint32_t density)
{
    return constant_with_log(f, density, log10l(x / 1000.0L));
}

/* Numerator and divisor of the formula with the logarithm numerator/Q, both
   10,000 Q times as great. */
static void at_fraction(const struct formula *f, uint32_t density, int32_t numerator,
    __int128 *n, __int128 *divisor)
{
    *n = ((__int128)density - f->a) * Q - (__int128)f->b * numerator;
    *divisor = (__int128)f->c * Q - (__int128)f->d * numerator;
}

bool fits(const struct formula *f, uint32_t density, int32_t numerator, int32_t k)
{
    __int128 n, divisor, hundredths = 100 * (__int128)k;
    at_fraction(f, density, numerator, &n, &divisor);
    return divisor > 0 && (hundredths - 51) * divisor <= 100000 * n && 100000 * n <= (hundredths + 51) * divisor;
}

const char *constant_fault(const struct formula *f, uint32_t viscosity, uint32_t density,
    const struct constant *answer)
{
    /* A second way to the same, without the two fractions. Its error is far
       below the slack. */
    const long double slack = 1e-9L;
    uint32_t x = viscosity - f->shift;
    if (fabsl(constant_estimate(f, x, density) - answer->k) > 0.51L + slack)
        return "k, by the document's formula";
    if (compare_with_log(x, answer->lower) > 0)
        return "the lower fraction is above the logarithm";
    if (compare_with_log(x, answer->upper) < 0)
        return "the upper fraction is below the logarithm";
    if ((int64_t)answer->upper - answer->lower > APART_GREATEST)
        return "the fractions are more than 64 apart";
    if (!fits(f, density, answer->lower, answer->k))
        return "k does not fit the lower fraction";
    if (!fits(f, density, answer->upper, answer->k))
        return "k does not fit the upper fraction";
    return NULL;
}

/* ---- an answer of our own ---- */

/* floor(n/divisor + 1/2), the divisor above zero. */
static int32_t nearest(__int128 n, __int128 divisor)
{
    __int128 twice = 2 * n + divisor, over = 2 * divisor;
    return (int32_t)(twice / over - (twice % over < 0));
}

struct constant own_constant(const struct formula *f, uint32_t viscosity, uint32_t density)
{
    uint32_t x = viscosity - f->shift;
    int32_t lower = (int32_t)floorl(Q * log10l(x / 1000.0L));
    while (compare_with_log(x, lower) > 0)
        lower--;
    while (compare_with_log(x, lower + 1) <= 0)
        lower++;
    __int128 n, divisor;
    at_fraction(f, density, lower, &n, &divisor);
    struct constant r = { nearest(1000 * n, divisor), lower, lower };
    r.upper += compare_with_log(x, lower) != 0;
    return r;
}
