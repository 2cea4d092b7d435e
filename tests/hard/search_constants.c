/* Finds the questions of the constant that lie closest to a border, and prints
   them: those that tests/compare/constants.c names.

     tests/hard/search-constants.sh

   The first kind are the x whose logarithm, Q times, lies closest to a whole
   numerator. To x = 10^7 all are tried. Above, a numerator comes more often than
   a whole x, and the whole number next to 10^(n/Q) is tried for every n.

   The second kind are the viscosities and densities at which the formula lies
   closest to a half. For every density and every half there is one place on the
   real line where the formula passes it; the whole x on both sides are tried.

   All is done in long double: its error is below 1e-10 of a numerator and below
   1e-15 of a thousandth, far less than the distances found. */
#include "../compare/constant.h"
#include "../compare/oil.h"

#include <inttypes.h>
#include <math.h>
#include <stdio.h>

/* ---- logarithms beside a fraction ---- */

enum { TRIED_ONE_BY_ONE = 10000000, POWER = 7, KEPT_AT_100 = 2 };
#define LIMIT 0x1p-27L

static bool is_power_of_ten(uint32_t x)
{
    while (x % 10 == 0)
        x /= 10;
    return x == 1;
}

static long double to_numerator(uint32_t x)
{
    long double log = Q * log10l(x);
    return fabsl(log - roundl(log));
}

static void print_within_limit(uint32_t x)
{
    long double distance = to_numerator(x);
    if (distance < LIMIT && !is_power_of_ten(x))
        printf("logarithm at 40: x %" PRIu32 ", %.1Le of a numerator\n", x, distance);
}

static void logarithms_at_40(void)
{
    for (uint32_t x = 1; x <= TRIED_ONE_BY_ONE; x++)
        print_within_limit(x);
    const long double most = at_40.greatest - at_40.shift;
    for (int64_t n = (int64_t)POWER * Q + 1; n <= Q * log10l(most) + 1; n++) {
        long double place = powl(10.0L, (long double)n / Q);
        /* A numerator is place/7.3e6 of x here, so that the limit is below 1e-5. */
        if (fabsl(place - roundl(place)) < 1e-5L && roundl(place) <= most)
            print_within_limit((uint32_t)roundl(place));
    }
}

static void logarithms_at_100(void)
{
    uint32_t closest[KEPT_AT_100] = { 2, 2 };
    for (uint32_t x = 1; x <= at_100.greatest - at_100.shift; x++) {
        if (is_power_of_ten(x))
            continue;
        if (to_numerator(x) < to_numerator(closest[0])) {
            closest[1] = closest[0];
            closest[0] = x;
        } else if (to_numerator(x) < to_numerator(closest[1])) {
            closest[1] = x;
        }
    }
    for (int i = 0; i < KEPT_AT_100; i++)
        printf("logarithm at 100: x %" PRIu32 ", %.1Le of a numerator\n", closest[i], to_numerator(closest[i]));
}

/* ---- the formula beside a half ---- */

enum { KEPT = 5 };
struct near { uint32_t viscosity, density; int64_t below; long double distance; };

static void keep(struct near *kept, struct near new)
{
    for (int i = 0; i < KEPT; i++)
        if (kept[i].viscosity == 0 || new.distance < kept[i].distance) {
            struct near last = kept[i];
            kept[i] = new;
            new = last;
            if (new.viscosity == 0)
                return;
        }
}

/* A power of ten is left out: at x = 10^7 the formula may be just the half. */
static uint64_t try_x(const struct formula *f, struct near *kept, uint32_t x, uint32_t density, int64_t below)
{
    if (x < 1 || x > f->greatest - f->shift || is_power_of_ten(x))
        return 0;
    long double distance = fabsl(constant_estimate(f, x, density) - ((long double)below + 0.5L));
    keep(kept, (struct near){ x + f->shift, density, below, distance });
    return 1;
}

static uint64_t try_density(const struct formula *f, struct near *below_zero, struct near *above, uint32_t density)
{
    uint64_t tried = 0;
    uint32_t most = f->greatest - f->shift;
    long double thin = constant_estimate(f, 1, density), thick = constant_estimate(f, most, density);
    for (int64_t k = (int64_t)floorl(fminl(thin, thick)); k <= (int64_t)fmaxl(thin, thick); k++) {
        long double half = (long double)k + 0.5L;
        long double log = (1000.0L * ((long double)density - f->a) - half * f->c) / (1000.0L * f->b - half * f->d);
        long double x = 1000.0L * powl(10.0L, log);
        if (!(x < (long double)most + 1.0L))
            continue;
        tried += try_x(f, k < 0 ? below_zero : above, (uint32_t)x, density, k);
        tried += try_x(f, k < 0 ? below_zero : above, (uint32_t)x + 1, density, k);
    }
    return tried;
}

static void print_near(const struct formula *f, const struct near *kept)
{
    for (int i = 0; i < KEPT && kept[i].viscosity != 0; i++)
        printf("half at %d: viscosity %" PRIu32 " density %" PRIu32 ", %.1Le from %.1f\n",
            f->degrees, kept[i].viscosity, kept[i].density, kept[i].distance, (double)kept[i].below + 0.5);
}

static void halves(const struct formula *f)
{
    struct near below_zero[KEPT] = { 0 }, above[KEPT] = { 0 };
    uint64_t tried = 0;
    for (uint32_t density = DENSITY_LEAST; density <= DENSITY_GREATEST; density++)
        tried += try_density(f, below_zero, above, density);
    printf("halves at %d: %" PRIu64 " tried\n", f->degrees, tried);
    print_near(f, below_zero);
    print_near(f, above);
}

int main(void)
{
    logarithms_at_40();
    logarithms_at_100();
    halves(&at_40);
    halves(&at_100);
    return 0;
}
