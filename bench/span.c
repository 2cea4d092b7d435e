/* The cost of a span: vi_span beside a vi_pair for each pair of the span and beside plain C, on the same spans in one run.

   span time                  ns a span and ratios, several repetitions
   span sweep Y1 ..           the ratio of the times while the index rises, at each y1, until it is above the target or u1 cannot be less
   span list                  the kinds of spans
   span run WHAT KIND TIMES   one of them alone, for an instruction count: WHAT is plain, pairs or span; KIND is one of the list, or Y1:INDEX for a step
                              of the sweep, or Y1:thin for its last

   plain   plain C, bench/plain.h with log(H/U): over all y at u2 for the least index, and over all y at u1 for the greatest
   pairs   the same with vi_pair
   span    vi_span

   All ask the same limits and store the same two numbers. */
#include <math.h>
#include <stdint.h>
#include <stdio.h>
#include <stdlib.h>
#include <string.h>

#include "measure.h"
#include "plain.h"
#include "viscosity_index.h"

enum { SPANS = 300, STEP = 100 };

static const double target = 0.3; /* of the time of a vi_pair for each pair */

struct span {
    uint32_t u1, u2, y1, y2;
};

enum way {
    AIMED, /* u1 has an index at the middle of the span */
    ABOVE, /* likewise, and every pair is at or above H */
    BELOW, /* likewise, and every pair is below H */
    MIX,   /* as bench/index.c's mix: u1 is from 0.75 to 1.15 of H at y1 */
    AT_H,  /* u1 is H at some y of the span */
    THIN,  /* u1 = y2 + 1, and y1 takes every value in turn */
};

static const struct kind {
    const char *name, *label;
    enum way way;
    double least, most;     /* y1 in mm2/s, even in its logarithm */
    double lowest, highest; /* the index that is aimed at, even */
    uint32_t wide;          /* y2 - y1 */
    double share;           /* u2 / u1 */
} kinds[] = {
    {"above", "above H, index 0 to 95", ABOVE, 2, 499.8, 0, 95, 200, 1.0035},
    {"below", "below H, index 105 to 180", BELOW, 3, 20, 105, 180, 200, 1.0035},
    {"mix", "a planner's mix", MIX, 3, 20, 0, 0, 200, 1.0035},
    {"across-h", "across H", AT_H, 2, 499.8, 0, 0, 200, 1.0035},
    {"across-70", "across 70,000, index 0 to 180", AIMED, 69.801, 70, 0, 180, 200, 1.0035},
    {"high", "index 200 to 600", AIMED, 2, 499.8, 200, 600, 200, 1.0035},
    {"thousand", "index 1,000 to 2,000", AIMED, 2, 10, 1000, 2000, 200, 1.0035},
    {"thousands", "index 2,000 to 3,000", AIMED, 2, 4, 2000, 3000, 200, 1.0035},
    {"thin", "u1 = y2 + 1, y1 2,000 to 2,100", THIN, 2, 2.1, 0, 0, 200, 1.0035},
    {"thinnest", "u1 = u2 = y2 + 1, y1 2,000", THIN, 2, 2, 0, 0, 200, 1},
    {"mix-50", "a planner's mix, y2 - y1 = 50", MIX, 3, 20, 0, 0, 50, 1.0035},
    {"mix-10", "a planner's mix, y2 - y1 = 10", MIX, 3, 20, 0, 0, 10, 1.0035},
    {"mix-2", "a planner's mix, y2 - y1 = 2", MIX, 3, 20, 0, 0, 2, 1.0035},
    {"mix-0", "a planner's mix, y2 = y1", MIX, 3, 20, 0, 0, 0, 1.0035},
    {"pair", "a planner's mix, one pair", MIX, 3, 20, 0, 0, 0, 1},
    {"thinnest-3", "u1 = u2 = y2 + 1, y1 2,000, y2 - y1 = 3", THIN, 2, 2, 0, 0, 3, 1},
};
enum { KINDS = sizeof kinds / sizeof *kinds };

static struct span spans[SPANS];
static int32_t rows_of[SPANS][VI_SPAN_SIZE];
static volatile int64_t sink;

/* ---- plain C and the pairs */

LAID_OUT uint32_t limits(uint32_t u1, uint32_t u2, uint32_t y1, uint32_t y2, size_t count)
{
    if (count != VI_SPAN_SIZE)
        return VI_SPAN_NOT_2;
    if (u1 > u2 || y1 > y2)
        return VI_LOWER_ABOVE_UPPER;
    if (y2 - y1 > VI_SPAN_WIDEST)
        return VI_LIMITS_TOO_WIDE;
    if (y1 < VI_Y_LEAST)
        return VI_Y_BELOW_LEAST;
    if (y2 > VI_Y_GREATEST)
        return VI_Y_ABOVE_MOST;
    if (u2 > VI_U_GREATEST)
        return VI_U_ABOVE_MOST;
    if (u1 <= y2)
        return VI_U_NOT_ABOVE_Y;
    return VI_ANSWERED;
}

LAID_OUT uint32_t walk(int32_t (*index)(uint32_t u, uint32_t y), uint32_t u1, uint32_t u2, uint32_t y1, uint32_t y2, int32_t *row, size_t count)
{
    uint32_t number = limits(u1, u2, y1, y2, count);
    if (number != VI_ANSWERED)
        return number;
    int32_t least = index(u2, y1), greatest = index(u1, y1);
    for (uint32_t y = y1 + 1; y <= y2; y++) {
        int32_t k = index(u2, y);
        least = k < least ? k : least;
    }
    for (uint32_t y = y1 + 1; y <= y2; y++) {
        int32_t k = index(u1, y);
        greatest = k > greatest ? k : greatest;
    }
    row[VI_SPAN_LEAST] = least;
    row[VI_SPAN_GREATEST] = greatest;
    return VI_ANSWERED;
}

LAID_OUT int32_t index_by_plain(uint32_t u, uint32_t y)
{
    return plain_index(u, y, 0);
}

LAID_OUT int32_t index_by_pair(uint32_t u, uint32_t y)
{
    uint8_t record[VI_RECORD_SIZE];
    int32_t index;
    vi_pair(u, y, record, sizeof record);
    memcpy(&index, record + VI_RECORD_INDEX, sizeof index);
    return index;
}

static CALLED uint32_t span_by_plain(uint32_t u1, uint32_t u2, uint32_t y1, uint32_t y2, int32_t *row, size_t count)
{
    return walk(index_by_plain, u1, u2, y1, y2, row, count);
}

static CALLED uint32_t span_by_pairs(uint32_t u1, uint32_t u2, uint32_t y1, uint32_t y2, int32_t *row, size_t count)
{
    return walk(index_by_pair, u1, u2, y1, y2, row, count);
}

/* ---- the spans */

static double h_at(double y)
{
    double l, h;
    plain_l_and_h(y, &l, &h);
    return h;
}

/* u in mm2/s that has this index at y */
static double u_of(double index, double y)
{
    double l, h;
    plain_l_and_h(y, &l, &h);
    return index <= 100 ? l - (l - h) * index / 100 : h / pow(y, log10((index - 100) * 0.00715 + 1));
}

static double middle(const struct span *s)
{
    return (s->y1 + s->y2) / 2000.0;
}

static void draw_one(const struct kind *k, int i, struct span *s)
{
    double u;
    if (k->way == THIN)
        s->y1 = (uint32_t)(1000 * k->least + 0.5) + (uint32_t)i % (uint32_t)(1000 * (k->most - k->least) + 1.5);
    else
        s->y1 = (uint32_t)(1000 * k->least * pow(k->most / k->least, random_unit()) + 0.5);
    s->y2 = s->y1 + k->wide;
    if (k->way == THIN)
        u = (s->y2 + 1) / 1000.0;
    else if (k->way == MIX)
        u = h_at(s->y1 / 1000.0) * (0.75 + 0.4 * random_unit());
    else if (k->way == AT_H)
        u = h_at((s->y1 + k->wide * random_unit()) / 1000);
    else
        u = u_of(k->lowest + (k->highest - k->lowest) * random_unit(), middle(s));
    s->u1 = (uint32_t)(1000 * u + 0.5);
    s->u2 = (uint32_t)(s->u1 * k->share + 0.5);
}

static int fits(const struct kind *k, const struct span *s)
{
    if (k->way == ABOVE && s->u1 < 1000 * h_at(s->y2 / 1000.0))
        return 0;
    if (k->way == BELOW && s->u2 >= 1000 * h_at(s->y1 / 1000.0))
        return 0;
    return s->u1 > s->y2;
}

static void draw(const struct kind *k)
{
    for (int i = 0; i < SPANS; i++)
        do
            draw_one(k, i, &spans[i]);
        while (!fits(k, &spans[i]));
}

/* The spans of a step of the sweep: one y1, and an index from `index` to STEP more. Answers 0, and draws nothing, where u1 would not be above y2. */
static int draw_step(uint32_t y1, double index)
{
    double y = y1 / 1000.0;
    struct kind step = {"", "", AIMED, y, y, index, index + STEP, VI_SPAN_WIDEST, 1.0035};
    if (1000 * u_of(step.highest, y + VI_SPAN_WIDEST / 2000.0) < y1 + VI_SPAN_WIDEST + 1)
        return 0;
    draw(&step);
    return 1;
}

static void draw_thin(uint32_t y1)
{
    struct kind thin = {"", "", THIN, y1 / 1000.0, y1 / 1000.0, 0, 0, VI_SPAN_WIDEST, 1.0035};
    draw(&thin);
}

/* ---- one pass over all spans */

#define FOR_ALL(CALL)               \
    for (int i = 0; i < SPANS; i++) \
        sum += CALL(spans[i].u1, spans[i].u2, spans[i].y1, spans[i].y2, rows_of[i], VI_SPAN_SIZE);

static void pass(const char *what)
{
    int64_t sum = 0;
    if (strcmp(what, "span") == 0)
        FOR_ALL(vi_span)
    else if (strcmp(what, "pairs") == 0)
        FOR_ALL(span_by_pairs)
    else
        FOR_ALL(span_by_plain)
    if (sum != VI_ANSWERED) {
        fprintf(stderr, "span: %s refuses a span\n", what);
        exit(1);
    }
    sink += sum;
}

/* The pairs and vi_span answer every span alike, and plain C differs by 1 at most, where a value is too close to a half for it. */
static void compare(const struct kind *k)
{
    static int32_t ours[SPANS][VI_SPAN_SIZE];
    int differ = 0, below = 0, across = 0, lowest = INT32_MAX, highest = INT32_MIN;
    draw(k);
    memset(rows_of, 0xaa, sizeof rows_of);
    pass("span");
    memcpy(ours, rows_of, sizeof ours);
    memset(rows_of, 0xaa, sizeof rows_of);
    pass("pairs");
    if (memcmp(ours, rows_of, sizeof ours) != 0) {
        fprintf(stderr, "span: %s: vi_span and the pairs differ\n", k->name);
        exit(1);
    }
    memset(rows_of, 0xaa, sizeof rows_of);
    pass("plain");
    for (int i = 0; i < SPANS; i++) {
        for (int j = 0; j < (int)VI_SPAN_SIZE; j++) {
            differ += ours[i][j] != rows_of[i][j];
            if (abs(ours[i][j] - rows_of[i][j]) > 1) {
                fprintf(stderr, "span: %s: plain C %d, vi_span %d\n", k->name, rows_of[i][j], ours[i][j]);
                exit(1);
            }
        }
        lowest = ours[i][VI_SPAN_LEAST] < lowest ? ours[i][VI_SPAN_LEAST] : lowest;
        highest = ours[i][VI_SPAN_GREATEST] > highest ? ours[i][VI_SPAN_GREATEST] : highest;
        int all = spans[i].u2 < 1000 * h_at(spans[i].y1 / 1000.0), none = spans[i].u1 >= 1000 * h_at(spans[i].y2 / 1000.0);
        below += all;
        across += !all && !none;
    }
    printf("%s: %d spans, %d of them below H and %d across it, index %d to %d; plain C has another index %d times in %d\n", k->label, SPANS, below, across,
        lowest, highest, differ, 2 * SPANS);
}

/* ---- measuring */

static double ns_a_span(const char *what, int passes)
{
    double start = now();
    for (int i = 0; i < passes; i++)
        pass(what);
    return (now() - start) / passes / SPANS;
}

static void time_all(const struct kind *k)
{
    double plain[REPEATS], pairs[REPEATS], span[REPEATS], to_pairs[REPEATS], to_plain[REPEATS];
    unsigned calls = 2 * (k->wide + 1);
    int passes = (int)(804 / calls);
    char label[64];
    compare(k);
    for (int r = 0; r < REPEATS; r++) {
        plain[r] = ns_a_span("plain", passes);
        pairs[r] = ns_a_span("pairs", passes);
        span[r] = ns_a_span("span", 4 * passes);
        to_pairs[r] = span[r] / pairs[r];
        to_plain[r] = span[r] / plain[r];
    }
    printf("  ns a span, median of %d repetitions (least to greatest)\n", REPEATS);
    report("plain C", plain);
    snprintf(label, sizeof label, "%u vi_pair", calls);
    report(label, pairs);
    report("vi_span", span);
    snprintf(label, sizeof label, "vi_span / %u vi_pair", calls);
    report_to(3, label, to_pairs);
    report_to(3, "vi_span / plain C", to_plain);
}

/* the median of the ratios of the spans that are drawn */
static double report_ratio(const char *label)
{
    double ratio[REPEATS];
    for (int r = 0; r < REPEATS; r++) {
        double pairs = ns_a_span("pairs", 1);
        ratio[r] = ns_a_span("span", 4) / pairs;
    }
    report_to(3, label, ratio);
    return ratio[REPEATS / 2];
}

static void sweep(uint32_t y1)
{
    char label[64];
    double index = STEP, ratio = 0;
    printf("y1 %u: vi_span / 402 vi_pair by the index, median of %d repetitions (least to greatest)\n", y1, REPEATS);
    for (; ratio <= target && draw_step(y1, index); index += STEP) {
        snprintf(label, sizeof label, "index %.0f to %.0f", index, index + STEP);
        ratio = report_ratio(label);
    }
    if (ratio > target)
        printf("  passes %.1f between %.0f and %.0f\n", target, index - STEP, index);
    draw_thin(y1);
    pass("span");
    snprintf(label, sizeof label, "u1 = y2 + 1, index %d to %d", rows_of[0][VI_SPAN_LEAST], rows_of[0][VI_SPAN_GREATEST]);
    report_ratio(label);
}

/* Draws the spans of a kind, or of a step of the sweep; answers 0 where there is none of that name. */
static int draw_named(const char *name)
{
    unsigned y1;
    double index;
    char rest[8];
    for (int i = 0; i < KINDS; i++)
        if (strcmp(name, kinds[i].name) == 0) {
            draw(&kinds[i]);
            return 1;
        }
    if (sscanf(name, "%u:%lf", &y1, &index) == 2)
        return draw_step(y1, index);
    if (sscanf(name, "%u:%7s", &y1, rest) == 2 && strcmp(rest, "thin") == 0) {
        draw_thin(y1);
        return 1;
    }
    return 0;
}

int main(int count, char **words)
{
    if (count == 2 && strcmp(words[1], "time") == 0) {
        for (int i = 0; i < KINDS; i++)
            time_all(&kinds[i]);
        return 0;
    }
    if (count > 2 && strcmp(words[1], "sweep") == 0) {
        for (int i = 2; i < count; i++)
            sweep((uint32_t)atoi(words[i]));
        return 0;
    }
    if (count == 2 && strcmp(words[1], "list") == 0) {
        for (int i = 0; i < KINDS; i++)
            puts(kinds[i].name);
        return 0;
    }
    if (count == 5 && strcmp(words[1], "run") == 0 && draw_named(words[3])) {
        for (int t = atoi(words[4]); t > 0; t--)
            pass(words[2]);
        return 0;
    }
    fprintf(stderr, "span time | span sweep Y1 .. | span list | span run WHAT KIND TIMES\n");
    return 2;
}
