/* The viscosity-gravity constant, written again for comparison from change
   request #101 and formulas 1 and 2 of document 001.

   A viscosity is in thousandths of a mm2/s, a density in 0.0001 g/ml, and x is
   the viscosity less the 5.5 or 0.8 mm2/s of its formula. Whether a fraction is
   above or below the logarithm is asked in long double with a wide margin, of
   MPFR where that does not decide, and exactly where x is a power of ten. Whether
   k fits a fraction is asked in whole numbers. */
#ifndef CONSTANT_H
#define CONSTANT_H

#include <stdbool.h>
#include <stddef.h>
#include <stdint.h>

enum {
    DENSITY_LEAST = 5000,       /* "5,000 to 15,000" */
    DENSITY_GREATEST = 15000,
    APART_GREATEST = 64,        /* "The two numerators are at most 64 apart" */
    ROW = 3                     /* k, the lower and the upper numerator */
};

/* (G - a - b log(V - shift)) / (c - d log(V - shift)): a to d in 0.0001, the
   shift and the limits of V in thousandths of a mm2/s. */
struct formula {
    int degrees;
    uint32_t least, greatest, shift;
    int32_t a, b, c, d;
};
extern const struct formula at_40, at_100;

struct constant { int32_t k, lower, upper; };

/* The number of the first question that the two fail, 0 if none. The divisor of
   question 23 is above zero at any fraction that the request allows. */
uint32_t constant_question(const struct formula *f, uint32_t viscosity, uint32_t density);

/* The sign of whole - Q*log10(x/1000), exact; x is at least 1. */
int compare_with_log(uint32_t x, int64_t whole);

/* The same by the whole powers themselves, 10^whole 1000^Q and x^Q, in seconds. */
int compare_powers(uint32_t x, int64_t whole);

/* The formula in long double, in thousandths: with this logarithm, and with that
   of x/1000. */
long double constant_with_log(const struct formula *f, uint32_t density, long double log);
long double constant_estimate(const struct formula *f, uint32_t x, uint32_t density);

/* Does the formula with the logarithm numerator/Q lie from k - 0.51 to k + 0.51
   thousandths, with a divisor above zero? */
bool fits(const struct formula *f, uint32_t density, int32_t numerator, int32_t k);

/* What is wrong with an answer to two that pass the questions, NULL if nothing. */
const char *constant_fault(const struct formula *f, uint32_t viscosity, uint32_t density,
    const struct constant *answer);

/* An answer of our own, for wrong libraries made on purpose: the numerators next
   to the logarithm, and k the nearest at the lower one. */
struct constant own_constant(const struct formula *f, uint32_t viscosity, uint32_t density);

#endif
