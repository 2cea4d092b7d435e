/* The cost of a viscosity-gravity constant: the library beside plain C, on the same oils in one run.

   constant time                  ns a constant and ratios, several repetitions
   constant run WHAT OILS TIMES   one of them alone, for an instruction count: WHAT is printed, folded, call or many; OILS is lab40, full40, lab100
                                  or full100

   printed   doubles and libm as a firmware author would write it, formula 1 or 2 as printed with log10; no certificate
   folded    the same with the cheaper log, the factors of the logarithm and of the units folded into the constants
   call      vi_constant_40 or vi_constant_100, one call a constant
   many      one call for all oils (bench/constant.sh writes it)

   All ask the same limits and store what they find for each oil. */
#include <math.h>
#include <stdint.h>
#include <stdio.h>
#include <stdlib.h>
#include <string.h>

#include "measure.h"
#include "viscosity_index.h"

/* A slice is passed as its address and its length. */
void constants_40(const uint32_t *viscosities, size_t n, const uint32_t *densities, size_t m, int32_t *out, size_t places);
void constants_100(const uint32_t *viscosities, size_t n, const uint32_t *densities, size_t m, int32_t *out, size_t places);

enum { OILS = 2000, ROW = VI_CONSTANT_SIZE, PASSES = 400, MIXES = 4 };

struct oils {
    const char *name;
    int celsius;
    double least, most; /* the viscosities, in thousandths of a mm2/s */
    uint32_t light, heavy; /* the densities, in 0.0001 g/ml */
    uint32_t viscosity[OILS], density[OILS];
};

static struct oils mixes[MIXES] = {
    {.name = "lab40", .celsius = 40, .least = 5501, .most = 200000, .light = 8000, .heavy = 9500},
    {.name = "full40", .celsius = 40, .least = 5501, .most = 1e9, .light = 5000, .heavy = 15000},
    {.name = "lab100", .celsius = 100, .least = 1500, .most = 20000, .light = 8000, .heavy = 9500},
    {.name = "full100", .celsius = 100, .least = 801, .most = 5e5, .light = 5000, .heavy = 15000},
};

static int32_t plain_k[OILS], rows[OILS][ROW];
static volatile int64_t sink;

/* viscosities even in their logarithm, densities even */
static void draw(struct oils *oils)
{
    for (int i = 0; i < OILS; i++) {
        oils->viscosity[i] = (uint32_t)(oils->least * pow(oils->most / oils->least, random_unit()) + 0.5);
        oils->density[i] = oils->light + (uint32_t)((oils->heavy - oils->light + 1) * random_unit());
    }
}

/* ---- plain C: the number, and k where it is 0 */

static uint32_t printed_40(uint32_t v, uint32_t d, int32_t *k)
{
    if (v < 5501 || v > 1000000000)
        return 21;
    if (d < 5000 || d > 15000)
        return 22;
    double log = log10(v / 1000.0 - 5.5), divisor = 0.94 - 0.109 * log;
    if (!(divisor > 0))
        return 23;
    *k = (int32_t)floor(1000 * ((d / 10000.0 - 0.0664 - 0.1154 * log) / divisor) + 0.5);
    return 0;
}

static uint32_t printed_100(uint32_t v, uint32_t d, int32_t *k)
{
    if (v < 801 || v > 500000)
        return 21;
    if (d < 5000 || d > 15000)
        return 22;
    double log = log10(v / 1000.0 - 0.8), divisor = 0.90 - 0.097 * log;
    if (!(divisor > 0))
        return 23;
    *k = (int32_t)floor(1000 * ((d / 10000.0 - 0.108 - 0.1255 * log) / divisor) + 0.5);
    return 0;
}

/* x in thousandths: log10(x / 1000) is log(x) / log(10) - 3 */
#define TENTH 0.43429448190325182765 /* 1 / log(10) */

static uint32_t folded_40(uint32_t v, uint32_t d, int32_t *k)
{
    if (v < 5501 || v > 1000000000)
        return 21;
    if (d < 5000 || d > 15000)
        return 22;
    double ln = log(v - 5500), divisor = 9.4 + 3 * 1.09 - 1.09 * TENTH * ln;
    if (!(divisor > 0))
        return 23;
    *k = (int32_t)floor((d - 664 + 3 * 1154.0 - 1154 * TENTH * ln) / divisor + 0.5);
    return 0;
}

static uint32_t folded_100(uint32_t v, uint32_t d, int32_t *k)
{
    if (v < 801 || v > 500000)
        return 21;
    if (d < 5000 || d > 15000)
        return 22;
    double ln = log(v - 800), divisor = 9.0 + 3 * 0.97 - 0.97 * TENTH * ln;
    if (!(divisor > 0))
        return 23;
    *k = (int32_t)floor((d - 1080 + 3 * 1255.0 - 1255 * TENTH * ln) / divisor + 0.5);
    return 0;
}

/* ---- one pass over all oils; the compiler sees each plain function called by its name */

#define FOR_ALL(CALL)                                     \
    for (int i = 0; i < OILS; i++) {                      \
        uint32_t v = o->viscosity[i], d = o->density[i];  \
        sum += CALL;                                      \
    }

static void pass(const char *what, const struct oils *o)
{
    int64_t sum = 0;
    if (strcmp(what, "many") == 0)
        (o->celsius == 40 ? constants_40 : constants_100)(o->viscosity, OILS, o->density, OILS, rows[0], ROW * OILS);
    else if (strcmp(what, "call") == 0 && o->celsius == 40)
        FOR_ALL(vi_constant_40(v, d, rows[i], ROW))
    else if (strcmp(what, "call") == 0)
        FOR_ALL(vi_constant_100(v, d, rows[i], ROW))
    else if (strcmp(what, "printed") == 0 && o->celsius == 40)
        FOR_ALL(printed_40(v, d, &plain_k[i]))
    else if (strcmp(what, "printed") == 0)
        FOR_ALL(printed_100(v, d, &plain_k[i]))
    else if (o->celsius == 40)
        FOR_ALL(folded_40(v, d, &plain_k[i]))
    else
        FOR_ALL(folded_100(v, d, &plain_k[i]))
    sink += sum;
}

/* All four answer every oil, with the same k but beside a half, where document 001's value fits two. */
static void compare(const struct oils *o)
{
    static const char *const plain[] = {"printed", "folded"}, *const ours[] = {"call", "many"};
    int differ = 0;
    for (int a = 0; a < 2; a++)
        for (int b = 0; b < 2; b++) {
            memset(plain_k, 0x55, sizeof plain_k);
            memset(rows, 0xaa, sizeof rows);
            pass(plain[a], o);
            pass(ours[b], o);
            for (int i = 0; i < OILS; i++) {
                differ += plain_k[i] != rows[i][0];
                if (abs(plain_k[i] - rows[i][0]) > 1) {
                    fprintf(stderr, "%s: viscosity %u density %u: %s %d, %s %d\n", o->name, o->viscosity[i], o->density[i], plain[a], plain_k[i],
                        ours[b], rows[i][0]);
                    exit(1);
                }
            }
        }
    printf("oils %s: %d at %d C, k from plain C and the library differs %d times in %d\n", o->name, OILS, o->celsius, differ, 4 * OILS);
}

/* ---- measuring */

static double ns_a_constant(const char *what, const struct oils *o)
{
    double start = now();
    for (int i = 0; i < PASSES; i++)
        pass(what, o);
    return (now() - start) / PASSES / OILS;
}

static void time_all(const struct oils *o)
{
    static const char *const kinds[] = {"printed", "folded", "call", "many"};
    static const char *const labels[] = {"plain C, as printed", "plain C, folded", "vi_constant_40 or _100", "one call for all oils"};
    static const struct {
        const char *label;
        int over, under;
    } ratios[] = {
        {"call / plain C as printed", 2, 0}, {"call / plain C folded", 2, 1}, {"many / plain C as printed", 3, 0}, {"many / plain C folded", 3, 1},
    };
    double ns[4][REPEATS], ratio[4][REPEATS];
    compare(o);
    for (int r = 0; r < REPEATS; r++) {
        for (int k = 0; k < 4; k++)
            ns[k][r] = ns_a_constant(kinds[k], o);
        for (int q = 0; q < 4; q++)
            ratio[q][r] = ns[ratios[q].over][r] / ns[ratios[q].under][r];
    }
    printf("oils %s: ns a constant, median of %d repetitions (least to greatest)\n", o->name, REPEATS);
    for (int k = 0; k < 4; k++)
        report(labels[k], ns[k]);
    for (int q = 0; q < 4; q++)
        report(ratios[q].label, ratio[q]);
}

int main(int count, char **words)
{
    int known = 0;
    for (int i = 0; i < MIXES; i++) {
        draw(&mixes[i]);
        if (count == 2 && strcmp(words[1], "time") == 0)
            time_all(&mixes[i]);
        if (count != 5 || strcmp(words[1], "run") != 0 || strcmp(words[3], mixes[i].name) != 0)
            continue;
        known = 1;
        for (int t = atoi(words[4]); t > 0; t--)
            pass(words[2], &mixes[i]);
    }
    if (known || (count == 2 && strcmp(words[1], "time") == 0))
        return 0;
    fprintf(stderr, "constant time | constant run WHAT OILS TIMES\n");
    return 2;
}
