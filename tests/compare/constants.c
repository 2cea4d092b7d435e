/* The constants: which viscosities and densities are asked at both temperatures,
   and what is checked of each answer. */
#include "compare.h"

#include <math.h>

/* ---- one constant ---- */

enum { FRAME = 8 };             /* numbers on each side that must stay */

static uint32_t call(const struct formula *f, uint32_t viscosity, uint32_t density, int32_t *row, size_t count)
{
    now_constant(f->degrees, viscosity, density, count == ROW ? row : NULL);
    if (f == &at_40)
        return vi_constant_40(viscosity, density, row, count);
    return vi_constant_100(viscosity, density, row, count);
}

static void count_number(const struct formula *f, uint32_t number)
{
    tally.constants++;
    tally.at_40 += f == &at_40;
    tally.constant_refused[number]++;
}

static void count_answered(const struct formula *f, uint32_t viscosity, const struct constant *r)
{
    tally.k_below_zero += r->k < 0;
    tally.log_below_zero += viscosity < f->shift + 1000;
    if (r->k < tally.k_least)
        tally.k_least = r->k;
    if (r->k > tally.k_greatest)
        tally.k_greatest = r->k;
    if ((int64_t)r->upper - r->lower > tally.widest_row)
        tally.widest_row = (int64_t)r->upper - r->lower;
}

/* Asks and checks everything about the answer; zeros stand for a refused one. */
static struct constant ask(const struct formula *f, uint32_t viscosity, uint32_t density)
{
    /* Half of the rows end at the end of the memory; what they held varies. */
    uint64_t chosen = random64();
    int32_t filled = (int32_t)chosen;
    size_t length = FRAME + ROW + (chosen >> 63 ? chosen >> 32 & (FRAME - 1) : 0);
    int32_t *frame = last_numbers(length), *row = frame + FRAME;
    for (size_t i = 0; i < length; i++)
        frame[i] = filled;
    uint32_t number = constant_question(f, viscosity, density);
    if (call(f, viscosity, density, row, ROW) != number)
        fail("the constant's number", NULL);
    for (size_t i = 0; i < length; i++)
        if (frame[i] != filled && (number != 0 || frame + i < row || frame + i >= row + ROW))
            fail(number != 0 ? "a refused row changed" : "numbers beside the row changed", NULL);
    count_number(f, number);
    if (number != 0)
        return (struct constant){ 0, 0, 0 };
    struct constant r = { row[0], row[1], row[2] };
    const char *what = constant_fault(f, viscosity, density, &r);
    if (what != NULL)
        fail(what, NULL);
    count_answered(f, viscosity, &r);
    return r;
}

static void ask_both(uint32_t viscosity, uint32_t density)
{
    ask(&at_40, viscosity, density);
    ask(&at_100, viscosity, density);
}

/* ---- named ones and edges ---- */

/* Some values of document 001's formulas, worked out apart with fifty digits. */
static void printed_constants(void)
{
    static const struct { const struct formula *f; uint32_t density, viscosity; int32_t k; } printed[] = {
        { &at_40, 8700, 9500, 840 },            /* 839.596 */
        { &at_40, 8750, 46000, 815 },           /* 814.736 */
        { &at_40, 8600, 6500, 844 },            /* 844.255 */
        { &at_40, 5000, 1000000000, -905 },     /* -904.893 */
        { &at_100, 8700, 2500, 835 },           /* 835.278 */
        { &at_100, 9000, 1800, 880 },           /* 880.000 */
        { &at_100, 5000, 801, 645 },            /* 645.256 */
    };
    for (size_t i = 0; i < sizeof printed / sizeof *printed; i++)
        if (ask(printed[i].f, printed[i].viscosity, printed[i].density).k != printed[i].k)
            fail("a constant worked out apart", NULL);
}

/* The enclosure as the request has it, with the powers multiplied out: x is 2,
   4,000, 1,700 and 40,500; tens apart, the numbers have up to 145 million bits. */
static void by_whole_powers(uint64_t wanted)
{
    static const struct { const struct formula *f; uint32_t viscosity; } named[] = {
        { &at_40, 5502 }, { &at_40, 9500 }, { &at_100, 2500 }, { &at_40, 46000 } };
    for (size_t i = 0; i < sizeof named / sizeof *named && i < wanted; i++) {
        uint32_t x = named[i].viscosity - named[i].f->shift;
        struct constant r = ask(named[i].f, named[i].viscosity, 8700);
        if (compare_powers(x, r.lower) > 0 || compare_powers(x, r.upper) < 0)
            fail("a fraction, by whole powers", NULL);
    }
}

/* A row of another count answers 5 and keeps every number. It ends where the
   memory ends, or other numbers follow it. */
static void wrong_count(const struct formula *f, size_t count, size_t room)
{
    int32_t *row = last_numbers(room), before[16];
    for (size_t i = 0; i < room; i++)
        before[i] = row[i] = (int32_t)random64();
    static const uint32_t asked[][2] = { { 9500, 8700 }, { 0, 8700 }, { 9500, 4999 }, { 4294967295u, 0 } };
    for (size_t i = 0; i < sizeof asked / sizeof *asked; i++) {
        if (call(f, asked[i][0], asked[i][1], row, count) != WRONG_LENGTH)
            fail("a row of another count is not answered by 5", NULL);
        for (size_t j = 0; j < room; j++)
            if (row[j] != before[j])
                fail("a row of another count changed", NULL);
    }
}

static void wrong_counts(void)
{
    for (size_t count = 0; count <= 16; count++) {
        if (count == ROW)
            continue;
        wrong_count(&at_40, count, 16);
        wrong_count(&at_100, count, 16);
        wrong_count(&at_40, count, count);
        wrong_count(&at_100, count, count);
    }
}

/* Each limit with both sides, every viscosity with every density: where both are
   outside, 21 is the number. */
static void edges_of_the_questions(void)
{
    static const uint32_t viscosities[] = { 0, 1, 799, 800, 801, 802, 1799, 1800, 1801, 5499, 5500, 5501, 5502, 6499,
        6500, 6501, 499999, 500000, 500001, 999999999, 1000000000, 1000000001, 2147483647, 2147483648u, 4294967294u,
        4294967295u };
    /* 74,236 is 8,700 in its last 16 bits. */
    static const uint32_t densities[] = { 0, 1, 4999, 5000, 5001, 8700, 14999, 15000, 15001, 65535, 74236, 2147483647,
        2147483648u, 4294967294u, 4294967295u };
    for (size_t i = 0; i < sizeof viscosities / sizeof *viscosities; i++)
        for (size_t j = 0; j < sizeof densities / sizeof *densities; j++)
            ask_both(viscosities[i], densities[j]);
}

static void thin_oils(void)
{
    for (uint32_t viscosity = 0; viscosity <= 20000; viscosity++)
        ask_both(viscosity, 8700);
}

/* Every x that is a power of ten, whose logarithm is a fraction itself, with
   every density. With x = 10^7 at 40 degrees and density 5,280 + 63 t, t odd, the
   formula is just a half. */
static void whole_logarithms(const struct formula *f)
{
    for (uint32_t x = 1; x <= f->greatest - f->shift; x *= 10) {
        for (uint32_t density = DENSITY_LEAST; density <= DENSITY_GREATEST; density++)
            ask(f, x + f->shift, density);
        ask(f, x + f->shift - 1, 8700);
        ask(f, x + f->shift + 1, 8700);
    }
}

/* The x at 40 degrees whose logarithm lies closest to a fraction, all of them to
   within 2^-27 of a numerator, and the two closest at 100 degrees; found by
   tests/hard/search-constants.sh. */
static void logarithms_beside_a_fraction(void)
{
    static const uint32_t xs[] = { 4439958, 44399580, 101472809, 103162668, 200132835, 230497073, 259215486,
        356209094, 367308713, 443995800, 498743545, 628339567, 996932764, 452782, 60213 };
    for (size_t i = 0; i < sizeof xs / sizeof *xs; i++)
        for (uint32_t density = DENSITY_LEAST; density <= DENSITY_GREATEST; density += 500) {
            ask(&at_40, xs[i] + at_40.shift, density);
            if (xs[i] <= at_100.greatest - at_100.shift)
                ask(&at_100, xs[i] + at_100.shift, density);
        }
}

/* The formula is closest to a half here, of every density with every half: five
   below zero and five above at 40 degrees, from 1.5e-14 of a thousandth away, and
   five at 100, from 2.4e-10 away; found by tests/hard/search-constants.sh. */
static void closest_to_a_half(void)
{
    static const uint32_t cases_40[][2] = { { 230576674, 6499 }, { 79571247, 5522 }, { 382207705, 5629 },
        { 587791733, 7233 }, { 984698847, 6214 }, { 774996431, 13280 }, { 676696220, 9647 }, { 282187022, 14925 },
        { 842424927, 8630 }, { 365292463, 12377 } };
    static const uint32_t cases_100[][2] = { { 42810, 9091 }, { 250670, 5741 }, { 22360, 11381 }, { 291270, 9873 },
        { 185770, 11294 } };
    for (size_t i = 0; i < sizeof cases_40 / sizeof *cases_40; i++)
        ask(&at_40, cases_40[i][0], cases_40[i][1]);
    for (size_t i = 0; i < sizeof cases_100 / sizeof *cases_100; i++)
        ask(&at_100, cases_100[i][0], cases_100[i][1]);
}

/* ---- the spreads ---- */

/* Both sides of the place where the formula passes r hundredths of a thousandth. */
static void ask_place(const struct formula *f, uint32_t density, int64_t r)
{
    long double value = (long double)r / 100.0L;
    long double log = (1000.0L * ((long double)density - f->a) - value * f->c) / (1000.0L * f->b - value * f->d);
    long double x = 1000.0L * powl(10.0L, log);
    if (!(x >= 1.0L && x < (long double)(f->greatest - f->shift)))
        return;
    uint32_t viscosity = (uint32_t)x + f->shift;
    ask(f, viscosity, density);
    ask(f, viscosity + 1, density);
}

/* Of every density each step-th half that a viscosity can reach, or the place a
   hundredth before or after it: between those two, both k fit. */
void compare_formula(const struct formula *f, int64_t step)
{
    for (uint32_t density = DENSITY_LEAST; density <= DENSITY_GREATEST; density++) {
        long double thin = constant_estimate(f, 1, density);
        long double thick = constant_estimate(f, f->greatest - f->shift, density);
        int64_t least = (int64_t)floorl(fminl(thin, thick)), greatest = (int64_t)ceill(fmaxl(thin, thick));
        for (int64_t k = least + random_in(0, step - 1); k <= greatest; k += step)
            ask_place(f, density, 100 * k + 50 + random_in(-1, 1));
    }
}

static uint64_t left_of(uint64_t wanted)
{
    return wanted > tally.constants ? wanted - tally.constants : 0;
}

enum { ALL_PLACES = 18500000 }; /* questions of compare_formula, both formulas, by steps of 1 */

/* Half of what is left to ask, or all halves if they are fewer. */
static void halves(uint64_t wanted)
{
    int64_t step = (int64_t)(ALL_PLACES / (left_of(wanted) / 2 + 1)) + 1;
    compare_formula(&at_40, step);
    compare_formula(&at_100, step);
}

/* Every viscosity at 100 degrees, if there is room for them. */
static void viscosities_at_100(uint64_t wanted)
{
    uint64_t all = at_100.greatest - at_100.least + 1;
    uint32_t step = (uint32_t)(all / (left_of(wanted) / 4 + 1)) + 1;
    for (uint32_t viscosity = at_100.least; viscosity <= at_100.greatest; viscosity += step)
        ask(&at_100, viscosity, (uint32_t)random_in(DENSITY_LEAST, DENSITY_GREATEST));
}

static void ask_any(const struct formula *f)
{
    uint32_t viscosity = f->shift + (uint32_t)random_log(1, f->greatest - f->shift);
    uint32_t density = (uint32_t)random_in(DENSITY_LEAST, DENSITY_GREATEST);
    switch (random_in(0, 19)) {
    case 0:
        ask(f, (uint32_t)random64(), (uint32_t)random64());
        break;
    case 1:
        ask(f, (uint32_t)random_log(1, UINT32_MAX), density);
        break;
    case 2:
        ask(f, viscosity, (uint32_t)random_log(1, UINT32_MAX));
        break;
    case 3:
        ask(f, (uint32_t)random_in(f->least, f->greatest), density);
        break;
    case 4:
        ask(f, f->shift + (uint32_t)random_in(1, 2000), density);
        break;
    default:
        ask(f, viscosity, density);
    }
}

enum { RANDOM_AFTER_HALVES = 6000000 };

static void random_constants(uint64_t wanted)
{
    uint64_t end = tally.constants + RANDOM_AFTER_HALVES;
    while (tally.constants < wanted && tally.constants < end) {
        ask_any(random64() & 1 ? &at_40 : &at_100);
        progress("constants", tally.constants, wanted);
    }
}

void compare_constants(uint64_t wanted, uint64_t by_powers)
{
    printed_constants();
    by_whole_powers(by_powers);
    wrong_counts();
    edges_of_the_questions();
    thin_oils();
    whole_logarithms(&at_40);
    whole_logarithms(&at_100);
    logarithms_beside_a_fraction();
    closest_to_a_half();
    /* A longer run asks for the halves again; the places beside them are others. */
    do {
        halves(wanted);
        viscosities_at_100(wanted);
        random_constants(wanted);
    } while (tally.constants < wanted);
}
