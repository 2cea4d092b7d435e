/* The records of viscosity-gravity constants, from their lines alone.

   A line is: temperature viscosity density number, and where the number is 0 also
   k, lower and upper. With x = viscosity - 5500 at 40 C or viscosity - 800 at
   100 C, lower / Q and upper / Q enclose the logarithm of x / 1000 to the base 10;
   at both, formula 1 or 2 of source document 001 lies from k - 0.51 to k + 0.51
   thousandths. */
#include "audit.h"

#include <ctype.h>
#include <inttypes.h>
#include <stdio.h>
#include <string.h>

/* x is from 1 to below 10^9, so that the logarithm is from -3 to below 6. Of two
   numerators that enclose it, at most 64 apart, neither is beyond these. */
enum { APART_MOST = 64, NUMERATOR_LEAST = -3 * Q - APART_MOST, NUMERATOR_GREATEST = 6 * Q + APART_MOST };
enum { DENSITY_LEAST = 5000, DENSITY_GREATEST = 15000, NUMBERS_REFUSED = 4, NUMBERS_ANSWERED = 7 };

struct constant { uint32_t temperature, viscosity, density, number; int32_t k, lower, upper; };

static struct constant constants[RECORDS_GREATEST];

/* ---- the formulas ---- */

/* (density - offset - slope log) / (whole - fall log), each in 0.0001 g/ml. */
struct formula { uint32_t least, greatest, start; int64_t offset, slope, whole, fall; };

static const struct formula formula_1 = { 5501, 1000000000, 5500, 664, 1154, 9400, 1090 };
static const struct formula formula_2 = { 801, 500000, 800, 1080, 1255, 9000, 970 };

static const struct formula *formula_of(const struct constant *c)
{
    return c->temperature == 40 ? &formula_1 : &formula_2;
}

/* x, what the logarithm is taken of, in thousandths. */
static uint32_t argument_of(const struct constant *c)
{
    return c->viscosity - formula_of(c)->start;
}

/* The formula's numerator and divisor times Q, with log / Q as the logarithm. */
static int64_t numerator_at(const struct constant *c, int32_t log)
{
    const struct formula *f = formula_of(c);
    return ((int64_t)c->density - f->offset) * Q - f->slope * log;
}

static int64_t divisor_at(const struct constant *c, int32_t log)
{
    const struct formula *f = formula_of(c);
    return f->whole * Q - f->fall * log;
}

/* Question 23 is asked of the greatest numerator there could be: the divisor falls
   as the logarithm rises, so that it is above zero at all the others too. */
static uint32_t constant_question(const struct constant *c)
{
    const struct formula *f = formula_of(c);
    if (c->viscosity < f->least || c->viscosity > f->greatest)
        return 21;
    if (c->density < DENSITY_LEAST || c->density > DENSITY_GREATEST)
        return 22;
    return divisor_at(c, NUMERATOR_GREATEST) > 0 ? 0 : 23;
}

/* ---- a record ---- */

/* k - 0.51 to k + 0.51 thousandths, in hundredths of a thousandth. */
static bool k_fits(const struct constant *c, int32_t log)
{
    int64_t numerator = numerator_at(c, log), divisor = divisor_at(c, log);
    __int128 value = (__int128)100000 * numerator, k = (__int128)100 * c->k;
    printf("    at %" PRId32 " / Q: numerator %" PRId64 ", divisor %" PRId64 ", both times 10000 Q\n", log, numerator, divisor);
    return claim("0 < divisor", divisor > 0) &&
        claim("(100k - 51) divisor <= 100000 numerator <= (100k + 51) divisor",
            (k - 51) * divisor <= value && value <= (k + 51) * divisor);
}

/* 10^log 1000^Q <= x^Q, or the other way round for the upper numerator; 10^-log
   stands on the other side where the logarithm is below zero. */
static bool enclosure_claim(const struct constant *c, int32_t log, bool lower)
{
    struct side thousand = { .count = 0 }, x = { .count = 0 };
    times_power(&thousand, 1000, Q);
    times_power(&x, argument_of(c), Q);
    times_power(log < 0 ? &x : &thousand, 10, log < 0 ? -(uint64_t)log : (uint64_t)log);
    return lower ? at_most(&thousand, &x) : at_most(&x, &thousand);
}

static const char *audit_answer(const struct constant *c)
{
    int32_t lower = c->lower, upper = c->upper;
    printf("    x %" PRIu32 " thousandths of a mm2/s, the viscosity less %" PRIu32 "\n", argument_of(c), formula_of(c)->start);
    if (lower > upper)
        return "the lower numerator is above the upper one";
    if ((int64_t)upper - lower > APART_MOST)
        return "the numerators are more than 64 apart";
    if (lower < NUMERATOR_LEAST || upper > NUMERATOR_GREATEST)
        return "a numerator is more than 64 from any logarithm there is, -3 to 6";
    if (!k_fits(c, lower))
        return "k is not that of the lower fraction";
    if (!k_fits(c, upper))
        return "k is not that of the upper fraction";
    if (!claim(lower < 0 ? "1000^Q <= x^Q 10^-lower" : "10^lower 1000^Q <= x^Q", enclosure_claim(c, lower, true)))
        return "the lower fraction is above the logarithm";
    if (!claim(upper < 0 ? "x^Q 10^-upper <= 1000^Q" : "x^Q <= 10^upper 1000^Q", enclosure_claim(c, upper, false)))
        return "the upper fraction is below the logarithm";
    return NULL;
}

static const char *audit_constant(uint32_t i)
{
    const struct constant *c = &constants[i];
    uint32_t number = constant_question(c);
    printf("  %" PRIu32 " C, viscosity %" PRIu32 ", density %" PRIu32 ": number %" PRIu32, c->temperature, c->viscosity, c->density, c->number);
    if (c->number == 0)
        printf(", k %" PRId32 ", lower %" PRId32 ", upper %" PRId32, c->k, c->lower, c->upper);
    printf("\n");
    if (c->number == 23 && number == 0)
        return "refused by 23, and the divisor is above zero at all fractions that could be answered";
    if (c->number != number)
        return "the number is not that of the first failed question";
    return number == 0 ? audit_answer(c) : NULL;
}

/* ---- the lines ---- */

static const char *blanks(const char *c)
{
    while (isspace((unsigned char)*c))
        c++;
    return c;
}

/* The place after a number of at most 2^32 - 1 with or without a minus sign, or NULL. */
static const char *number_at(const char *c, int64_t *value)
{
    bool below = *c == '-';
    const char *first = c + below;
    int64_t v = 0;
    for (c = first; isdigit((unsigned char)*c) && v <= UINT32_MAX; c++)
        v = 10 * v + (*c - '0');
    *value = below ? -v : v;
    bool ends = *c == '\0' || isspace((unsigned char)*c);
    return c > first && ends && v <= UINT32_MAX ? c : NULL;
}

/* How many numbers the line has, or -1 where it has anything else or too many. */
static int numbers_of(const char *line, int64_t numbers[NUMBERS_ANSWERED])
{
    int count = 0;
    for (const char *c = blanks(line); *c != '\0'; c = blanks(c), count++) {
        c = count < NUMBERS_ANSWERED ? number_at(c, &numbers[count]) : NULL;
        if (c == NULL)
            return -1;
    }
    return count;
}

/* What is wrong with the numbers of a line, or NULL. */
static const char *ask_numbers(int count, const int64_t n[NUMBERS_ANSWERED])
{
    if (count != NUMBERS_REFUSED && count != NUMBERS_ANSWERED)
        return "is not temperature viscosity density number, nor that with k lower upper; whole numbers are asked";
    if (n[0] != 40 && n[0] != 100)
        return "has another temperature than 40 or 100";
    if (n[1] < 0 || n[2] < 0 || n[3] < 0)
        return "has a viscosity, density or number below zero";
    if ((n[3] == 0) != (count == NUMBERS_ANSWERED))
        return n[3] == 0 ? "has number 0 without k, lower and upper" : "has more than a number that is not 0";
    for (int i = NUMBERS_REFUSED; i < count; i++)
        if (n[i] < INT32_MIN || n[i] > INT32_MAX)
            return "has a k, lower or upper of more than 32 bits";
    return NULL;
}

/* Whether the line, counted from 1, holds a record, which is then kept. */
static bool read_line(const char *line, size_t length, uint32_t place, struct constant *c)
{
    int64_t n[NUMBERS_ANSWERED] = { 0 };
    int count = strlen(line) == length ? numbers_of(line, n) : -1;
    if (count == 0)
        return false;
    const char *wrong = ask_numbers(count, n);
    if (wrong != NULL)
        stop("line %" PRIu32 ": \"%.60s\" %s", place, line, wrong);
    *c = (struct constant){ (uint32_t)n[0], (uint32_t)n[1], (uint32_t)n[2], (uint32_t)n[3], (int32_t)n[4], (int32_t)n[5], (int32_t)n[6] };
    return true;
}

/* The place of the first byte b, or the end. */
static char *first_of(char *at, char *end, char b)
{
    char *found = memchr(at, b, (size_t)(end - at));
    return found == NULL ? end : found;
}

struct records read_constants(const char *path)
{
    struct file file = read_file(path);
    char *end = (char *)file.bytes + file.length;
    uint32_t n = 0, place = 1;
    for (char *at = (char *)file.bytes, *next; at < end; at = next + 1, place++) {
        next = first_of(at, end, '\n');
        char *stops = first_of(at, next, '#');
        struct constant c;
        *stops = '\0';
        if (!read_line(at, (size_t)(stops - at), place, &c))
            continue;
        if (n == RECORDS_GREATEST)
            stop("line %" PRIu32 ": a file has at most %d constants", place, RECORDS_GREATEST);
        constants[n++] = c;
    }
    return (struct records){ .holder = "the file", .n = n, .audit = audit_constant };
}
