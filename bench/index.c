/* The cost of an index: the library beside plain C and beside a rigorous interval version, on the same pairs in one run.

   index time                   ns a pair and ratios, several repetitions
   index run WHAT OILS TIMES    one of them alone, for an instruction count: WHAT is plain, printed, sheet, pair or interval;
                                OILS is below, above or mix

   plain     doubles and libm as a firmware author would write it, log(H/U) / log(Y) and nearbyint, which takes a half to the even number; no certificate
   printed   the same with formula 7 as printed, (log H - log U) / log Y
   interval  MPFR enclosures with p, P and mark, in rising precision */
#include <math.h>
#include <mpfr.h>
#include <stdint.h>
#include <stdio.h>
#include <stdlib.h>
#include <string.h>

#include "measure.h"
#include "plain.h"
#include "viscosity_index.h"

enum { PAIRS = 2000 };

struct oils {
    const char *name;
    uint32_t u[PAIRS], y[PAIRS];
};

/* ---- MPFR: p and P enclose Q*N, and two enclosed logarithms of c decide the mark */

static mpfr_t low, high, a, b;

/* the logarithm to the base 10 of x / d, rounded to one side */
static void log10_of(mpfr_t r, uint64_t x, uint64_t d, mpfr_rnd_t side)
{
    mpfr_set_ui(r, x, side);
    mpfr_div_ui(r, r, d, side);
    mpfr_log10(r, r, side);
}

static uint64_t h_units(uint32_t y)
{
    double l, h;
    plain_l_and_h(y / 1000.0, &l, &h);
    return (uint64_t)(h * 1e10 + 0.5);
}

/* Q*N rounded to one side */
static void scaled_n(mpfr_t r, uint64_t h, uint64_t u, uint32_t y, mpfr_rnd_t side)
{
    mpfr_rnd_t other = side == MPFR_RNDD ? MPFR_RNDU : MPFR_RNDD;
    log10_of(a, h, u, side);
    log10_of(b, y, 1000, other);
    mpfr_div(r, a, b, side);
    mpfr_mul_2ui(r, r, 24, side);
}

static int interval_index(uint32_t u, uint32_t y)
{
    double l, h;
    plain_l_and_h(y / 1000.0, &l, &h);
    if (u / 1000.0 >= h)
        return plain_index(u, y, 0);
    uint64_t units = h_units(y), U = (uint64_t)u * 10000000u;
    scaled_n(low, units, U, y, MPFR_RNDD);
    scaled_n(high, units, U, y, MPFR_RNDU);
    unsigned long p = mpfr_get_ui(low, MPFR_RNDD), P = mpfr_get_ui(high, MPFR_RNDU);
    int k = (int)floor((pow(10, (double)p / 16777216) - 1) / 0.00715 + 100.5);
    for (;; k++) { /* the k of which at least k - 0.5 is shown and k + 0.5 is not */
        log10_of(a, 10000000 + 71500ull * (unsigned)(k - 100) + 35750, 10000000, MPFR_RNDU);
        mpfr_mul_2ui(a, a, 24, MPFR_RNDU);
        if (mpfr_cmp_ui(a, p) > 0)
            break;
    }
    log10_of(b, 10000000 + 71500ull * (unsigned)(k - 100) + 35750, 10000000, MPFR_RNDD);
    mpfr_mul_2ui(b, b, 24, MPFR_RNDD);
    return mpfr_cmp_ui(b, P) >= 0 ? k : -(k + 1); /* negative: near */
}

/* ---- the oils */

static void draw(struct oils *oils, const char *name)
{
    oils->name = name;
    for (int i = 0; i < PAIRS; i++) {
        double l, h, y, u;
        if (strcmp(name, "mix") == 0) {
            draw_of_mix(&oils->u[i], &oils->y[i]);
            continue;
        }
        y = 2 * pow(250, random_unit());
        plain_l_and_h(y, &l, &h);
        if (strcmp(name, "below") == 0)
            u = y + (h - y) * random_unit();
        else
            u = h + (l - h) * 1.2 * random_unit();
        oils->y[i] = (uint32_t)(y * 1000);
        oils->u[i] = (uint32_t)(u * 1000) > oils->y[i] ? (uint32_t)(u * 1000) : oils->y[i] + 1;
    }
}

/* ---- one pass over all pairs. Sheets are made before the clock starts: a worked sheet can be worked again */

static volatile int64_t sink;
static uint8_t sheets[PAIRS][VI_SHEET_SIZE(1)]; /* room for PAIRS sheets of one pair, or fewer larger ones */

static void make_sheets(const struct oils *oils, int n)
{
    static uint32_t row[2 * PAIRS];
    size_t length = VI_SHEET_SIZE((size_t)n);
    uint8_t *at = sheets[0];
    for (int i = 0; i < PAIRS; i++) {
        row[2 * i] = oils->u[i];
        row[2 * i + 1] = oils->y[i];
    }
    for (int i = 0; i + n <= PAIRS; i += n, at += length)
        vi_write_sheet(row + 2 * i, 2 * (size_t)n, at, length);
}

static void pass(const char *what, const struct oils *oils, int n)
{
    int64_t sum = 0;
    uint8_t record[16];
    if (strcmp(what, "sheet") == 0) {
        size_t length = VI_SHEET_SIZE((size_t)n);
        for (int i = 0; i < PAIRS / n; i++)
            sum += vi_sheet(sheets[0] + length * (size_t)i, length);
    } else if (strcmp(what, "pair") == 0) {
        for (int i = 0; i < PAIRS; i++)
            sum += vi_pair(oils->u[i], oils->y[i], record, sizeof record);
    } else if (strcmp(what, "interval") == 0) {
        for (int i = 0; i < PAIRS; i++)
            sum += interval_index(oils->u[i], oils->y[i]);
    } else {
        int printed = strcmp(what, "printed") == 0;
        for (int i = 0; i < PAIRS; i++)
            sum += plain_index(oils->u[i], oils->y[i], printed);
    }
    sink += sum;
}

static double ns_a_pair(const char *what, const struct oils *oils, int n, int passes)
{
    int pairs = PAIRS / n * n;
    make_sheets(oils, n);
    double start = now();
    for (int i = 0; i < passes; i++)
        pass(what, oils, n);
    return (now() - start) / passes / pairs;
}

/* how many of the oils are below H, and how many of those have an index that the table of thresholds does not reach */
static void describe(const struct oils *oils)
{
    int below = 0, high = 0;
    for (int i = 0; i < PAIRS; i++) {
        uint8_t record[16];
        vi_pair(oils->u[i], oils->y[i], record, sizeof record);
        below += record[VI_RECORD_METHOD] >= VI_METHOD_B_SETTLED;
        high += record[VI_RECORD_METHOD] >= VI_METHOD_B_SETTLED && record[VI_RECORD_INDEX] + 256 * record[VI_RECORD_INDEX + 1] > 611;
    }
    printf("oils %s: %d of %d below H, %d of them with an index above 611\n", oils->name, below, PAIRS, high);
}

static void time_all(const struct oils *oils)
{
    describe(oils);
    static const struct {
        const char *label, *what;
        int n, passes;
    } rows_of[] = {
        {"plain C, log(H/U)", "plain", PAIRS, 60},
        {"plain C, formula 7 as printed", "printed", PAIRS, 60},
        {"vi_sheet, sheets of 2,000", "sheet", PAIRS, 60},
        {"vi_sheet, sheets of 60", "sheet", 60, 60},
        {"vi_sheet, sheets of 1", "sheet", 1, 20},
        {"vi_pair", "pair", PAIRS, 20},
        {"MPFR intervals", "interval", PAIRS, 1},
    };
    enum { KINDS = sizeof rows_of / sizeof *rows_of };
    double ns[KINDS][REPEATS], ratio[REPEATS];
    for (int r = 0; r < REPEATS; r++)
        for (int k = 0; k < KINDS; k++)
            ns[k][r] = ns_a_pair(rows_of[k].what, oils, rows_of[k].n, rows_of[k].passes);
    printf("oils %s: ns a pair, median of %d repetitions (least to greatest)\n", oils->name, REPEATS);
    static const struct {
        const char *label;
        int over, under;
    } ratios[] = {
        {"sheet of 2,000 / plain C", 2, 0}, {"sheet of 2,000 / printed formula", 2, 1}, {"vi_pair / plain C", 5, 0}, {"vi_pair / printed formula", 5, 1},
        {"sheet of 60 / sheet of 2,000", 3, 2}, {"MPFR intervals / sheet of 2,000", 6, 2},
    };
    double all[KINDS][REPEATS];
    memcpy(all, ns, sizeof all);
    for (int k = 0; k < KINDS; k++)
        report(rows_of[k].label, ns[k]);
    for (size_t q = 0; q < sizeof ratios / sizeof *ratios; q++) {
        for (int r = 0; r < REPEATS; r++)
            ratio[r] = all[ratios[q].over][r] / all[ratios[q].under][r];
        report(ratios[q].label, ratio);
    }
}

int main(int count, char **words)
{
    static struct oils oils[3];
    draw(&oils[0], "below");
    draw(&oils[1], "above");
    draw(&oils[2], "mix");
    mpfr_inits2(96, low, high, a, b, (mpfr_ptr)0);
    if (count == 2 && strcmp(words[1], "time") == 0) {
        for (int i = 0; i < 3; i++)
            time_all(&oils[i]);
        return 0;
    }
    if (count == 5 && strcmp(words[1], "run") == 0) {
        for (int i = 0; i < 3; i++)
            if (strcmp(words[3], oils[i].name) == 0) {
                make_sheets(&oils[i], PAIRS);
                for (int t = atoi(words[4]); t > 0; t--)
                    pass(words[2], &oils[i], PAIRS);
            }
        return 0;
    }
    fprintf(stderr, "index time | index run WHAT OILS TIMES\n");
    return 2;
}
