/* Constants that are wrong on purpose, put before the library as those of wrong.c
   are; -DWRONG=n chooses the fault. The comparison must notice each one. With the
   last three numbers they are right but chosen otherwise, as the request allows,
   and must pass. */
#include "constant.h"
#include "library.h"
#include "oil.h"

#include <math.h>

uint32_t __real_vi_constant_40(uint32_t viscosity, uint32_t density, int32_t *row, size_t count);
uint32_t __real_vi_constant_100(uint32_t viscosity, uint32_t density, int32_t *row, size_t count);
uint32_t __wrap_vi_constant_40(uint32_t viscosity, uint32_t density, int32_t *row, size_t count);
uint32_t __wrap_vi_constant_100(uint32_t viscosity, uint32_t density, int32_t *row, size_t count);

enum {
    OTHER_FORMULA = 1, NATURAL, TOWARD_ZERO, THREE_DECIMALS, ONE_MORE, EXCHANGED, INVENTED, WITHOUT_SIGN, CUT_LOG,
    LOWER_TOO_GREAT, UPPER_TOO_SMALL, TAKEN_FOR_FRACTION, APART_65, LOWER_ONLY, UPPER_ONLY, DENSITY_FIRST,
    DENSITY_16_BITS, REFUSES_ALL, COUNT_NOT_ASKED, REFUSED_CHANGED, LEFT_AS_FOUND, BESIDE_ROW, FIRST_TO_ALL,
    AT_100_FOR_40, AT_40_FOR_100, LIMITS, OTHER_K = LIMITS + 12, FAR_BELOW, FAR_ABOVE
};

static uint32_t ask_library(const struct formula *f, uint32_t viscosity, uint32_t density, int32_t *row, size_t count)
{
    return f == &at_40 ? __real_vi_constant_40(viscosity, density, row, count)
                       : __real_vi_constant_100(viscosity, density, row, count);
}

/* ---- limits moved by one ---- */

/* From LIMITS on: the viscosity, or else the density, that is refused where the
   library answers, and answered as its neighbour where the library refuses. */
static const struct { int degrees; uint32_t viscosity, density; } moved[] = {
    { 40, 5500, 0 }, { 40, 5501, 0 }, { 40, 1000000000, 0 }, { 40, 1000000001, 0 },
    { 100, 800, 0 }, { 100, 801, 0 }, { 100, 500000, 0 }, { 100, 500001, 0 },
    { 0, 0, 4999 }, { 0, 0, 5000 }, { 0, 0, 15000 }, { 0, 0, 15001 }
};

static uint32_t within(uint32_t value, uint32_t least, uint32_t greatest)
{
    return value < least ? least : value > greatest ? greatest : value;
}

static uint32_t with_limit_moved(const struct formula *f, uint32_t viscosity, uint32_t density, int32_t *row)
{
    size_t i = WRONG < LIMITS || WRONG >= OTHER_K ? 0 : WRONG - LIMITS;
    bool by_density = moved[i].degrees == 0;
    bool here = by_density ? density == moved[i].density
                           : f->degrees == moved[i].degrees && viscosity == moved[i].viscosity;
    uint32_t number = ask_library(f, viscosity, density, row, ROW), turned = by_density ? 22 : 21;
    if (!here || (number != 0 && number != turned))
        return number;
    if (number == 0)
        return turned;
    if (by_density)
        density = within(density, DENSITY_LEAST, DENSITY_GREATEST);
    else
        viscosity = within(viscosity, f->least, f->greatest);
    return ask_library(f, viscosity, density, row, ROW);
}

/* ---- faults in an answer ---- */

/* Formula 2's coefficients with the viscosity at 40 degrees. */
static struct constant by_other_formula(uint32_t viscosity, uint32_t density)
{
    struct formula mixed = at_40;
    mixed.a = at_100.a;
    mixed.b = at_100.b;
    mixed.c = at_100.c;
    mixed.d = at_100.d;
    return own_constant(&mixed, viscosity, density);
}

static int32_t nearest(long double value)
{
    return (int32_t)(int64_t)floorl(value + 0.5L);
}

/* A k that fits one of the two fractions and not the other, if there is one. */
static void fit_one(struct constant *r, const struct formula *f, uint32_t density, int32_t fitted, int32_t other)
{
    for (int32_t k = r->k - 1; k <= r->k + 1; k++)
        if (fits(f, density, fitted, k) && !fits(f, density, other, k)) {
            *r = (struct constant){ k, fitted < other ? fitted : other, fitted < other ? other : fitted };
            return;
        }
}

static void spoil_k(struct constant *r, const struct formula *f, uint32_t viscosity, uint32_t density)
{
    uint32_t x = viscosity - f->shift;
    long double log = log10l(x / 1000.0L);
    switch (WRONG) {
    case OTHER_FORMULA:
        if (f == &at_40)
            *r = by_other_formula(viscosity, density);
        break;
    case NATURAL:
        log = logl(x / 1000.0L);
        r->k = nearest(constant_with_log(f, density, log));
        r->lower = (int32_t)floorl(Q * log);
        r->upper = r->lower + 1;
        break;
    case TOWARD_ZERO:
        r->k = r->k < 0 ? (int32_t)ceill(constant_estimate(f, x, density)) : r->k;
        break;
    case THREE_DECIMALS:
        r->k = nearest(constant_with_log(f, density, roundl(log * 1000.0L) / 1000.0L));
        break;
    case ONE_MORE:
        r->k++;
        break;
    /* The other fraction as far away as it may be. */
    case LOWER_ONLY:
        fit_one(r, f, density, r->lower, r->lower + APART_GREATEST);
        break;
    case UPPER_ONLY:
        fit_one(r, f, density, r->upper, r->upper - APART_GREATEST);
        break;
    default:
        break;
    }
}

static struct constant first_of(struct constant r)
{
    static struct constant first;
    first = first.k == 0 ? r : first;
    return first;
}

static void spoil_fractions(struct constant *r, const struct formula *f, uint32_t viscosity, uint32_t density)
{
    struct constant own = own_constant(f, viscosity, density);
    long double log = Q * log10l((viscosity - f->shift) / 1000.0L);
    switch (WRONG) {
    case EXCHANGED:
        *r = (struct constant){ r->k, r->upper, r->lower };
        break;
    case INVENTED:
        *r = (struct constant){ r->k, 0, 64 };
        break;
    case WITHOUT_SIGN:
        if (r->upper < 0)
            *r = (struct constant){ r->k, -r->upper, -r->lower };
        break;
    case CUT_LOG:               /* toward zero, as C divides */
        if (own.lower < 0)
            *r = (struct constant){ r->k, own.upper, own.upper + 1 };
        break;
    /* The least that is too great, and the greatest that is too small. */
    case LOWER_TOO_GREAT:
        *r = (struct constant){ r->k, own.lower + 1, own.lower + 1 };
        break;
    case UPPER_TOO_SMALL:
        *r = (struct constant){ r->k, own.upper - 1, own.upper - 1 };
        break;
    case TAKEN_FOR_FRACTION:
        if (fabsl(log - roundl(log)) < 0x1p-27L)
            *r = (struct constant){ r->k, (int32_t)roundl(log), (int32_t)roundl(log) };
        break;
    case APART_65:
        *r = (struct constant){ own.k, own.lower, own.lower + 65 };
        break;
    case FIRST_TO_ALL:
        *r = first_of(*r);
        break;
    default:
        break;
    }
}

/* ---- other answers that are right ---- */

/* Fractions as far apart as they may be, or another k, if one fits. */
static void choose_otherwise(struct constant *r, const struct formula *f, uint32_t density)
{
    struct constant other = *r;
    other.lower = WRONG == FAR_BELOW ? r->upper - APART_GREATEST : r->lower;
    other.upper = WRONG == FAR_ABOVE ? r->lower + APART_GREATEST : r->upper;
    for (other.k = r->k - 1; other.k <= r->k + 1; other.k++)
        if ((WRONG != OTHER_K || other.k != r->k) && fits(f, density, other.lower, other.k) &&
            fits(f, density, other.upper, other.k)) {
            *r = other;
            return;
        }
}

/* ---- the calls ---- */

static uint32_t wrong_number(const struct formula *f, uint32_t viscosity, uint32_t density, int32_t *row)
{
    if (WRONG == REFUSES_ALL)
        return 23;
    if (WRONG == DENSITY_FIRST && (density < DENSITY_LEAST || density > DENSITY_GREATEST))
        return 22;
    if (WRONG == DENSITY_16_BITS)
        density = (uint16_t)density;
    if (WRONG >= LIMITS && WRONG < OTHER_K)
        return with_limit_moved(f, viscosity, density, row);
    return ask_library(f, viscosity, density, row, ROW);
}

static uint32_t work_wrongly(const struct formula *f, uint32_t viscosity, uint32_t density,
    int32_t *row, size_t count)
{
    if (count != ROW && WRONG != COUNT_NOT_ASKED)
        return ask_library(f, viscosity, density, row, count);
    int32_t answer[ROW];
    uint32_t number = wrong_number(f, viscosity, density, answer);
    if (WRONG == REFUSED_CHANGED && number != 0)
        row[0] = (int32_t)number;
    if (WRONG == LEFT_AS_FOUND || number != 0)
        return number;
    struct constant r = { answer[0], answer[1], answer[2] };
    if (WRONG >= OTHER_K) {
        choose_otherwise(&r, f, density);
    } else if (WRONG < LIMITS) {
        spoil_k(&r, f, viscosity, density);
        spoil_fractions(&r, f, viscosity, density);
    }
    row[0] = r.k;
    row[1] = r.lower;
    row[2] = r.upper;
    if (WRONG == BESIDE_ROW)
        row[-1] = 0;
    return 0;
}

uint32_t __wrap_vi_constant_40(uint32_t viscosity, uint32_t density, int32_t *row, size_t count)
{
    return work_wrongly(WRONG == AT_100_FOR_40 ? &at_100 : &at_40, viscosity, density, row, count);
}

uint32_t __wrap_vi_constant_100(uint32_t viscosity, uint32_t density, int32_t *row, size_t count)
{
    return work_wrongly(WRONG == AT_40_FOR_100 ? &at_40 : &at_100, viscosity, density, row, count);
}
