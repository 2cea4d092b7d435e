/* The pairs: which ones are asked, and what is checked of each answer. */
#include "compare.h"

#include <math.h>
#include <string.h>

struct tally tally = { .index_least = INT64_MAX, .index_greatest = INT64_MIN,
    .k_least = INT64_MAX, .k_greatest = INT64_MIN, .sum_least = INT64_MAX, .sum_greatest = INT64_MIN,
    .span_least = INT64_MAX, .span_greatest = INT64_MIN };

/* ---- one pair ---- */

enum { FRAME = 24 };            /* bytes on each side that must stay */

static void count(const struct record *r)
{
    tally.pairs++;
    if (r->number != 0) {
        tally.refused[r->number]++;
        return;
    }
    if (r->index < tally.index_least)
        tally.index_least = r->index;
    if (r->index > tally.index_greatest)
        tally.index_greatest = r->index;
    if (r->method == BY_A) {
        tally.a++;
        return;
    }
    if (r->method == B_SETTLED)
        tally.settled++;
    else
        tally.near++;
    if (r->P - r->p > tally.widest)
        tally.widest = r->P - r->p;
}

/* Is every byte of the frame around the record as it was filled? */
static bool frame_kept(const uint8_t *frame, size_t length, const uint8_t *record, uint8_t filled)
{
    for (size_t i = 0; i < length; i++)
        if ((frame + i < record || frame + i >= record + RECORD) && frame[i] != filled)
            return false;
    return true;
}

struct record check_pair(uint32_t u, uint32_t y)
{
    /* Half of the records end at the end of the memory, half stand at an odd
       place; what the record held before varies. */
    uint8_t filled = (uint8_t)(random64() | 1);
    bool at_end = filled & 2;
    size_t length = at_end ? FRAME + RECORD : FRAME + RECORD + FRAME;
    uint8_t *frame = last_bytes(length);
    uint8_t *record = frame + FRAME - (at_end ? 0 : filled % 8);
    memset(frame, filled, length);
    now_pair(u, y);
    uint32_t answer = vi_pair(u, y, record, RECORD);
    if (answer != question(u, y))
        fail("the number answered", record);
    const char *what = fault(u, y, record);
    if (what != NULL)
        fail(what, record);
    if (!frame_kept(frame, length, record, filled))
        fail("bytes beside the record changed", record);
    return record_of_bytes(record);
}

static struct record check_counted(uint32_t u, uint32_t y)
{
    struct record r = check_pair(u, y);
    count(&r);
    return r;
}

/* ---- the pairs of one y, and their order ---- */

struct seen { uint32_t u; struct record r; };
static struct seen seen[256];
static int seen_count;

/* Demand 3: of two answered with equal y, neither near, the thicker one at
   40 degrees never has the higher index. */
static void check_order(uint32_t y)
{
    for (int i = 0; i < seen_count; i++)
        for (int j = 0; j < seen_count; j++) {
            const struct seen *thin = &seen[i], *thick = &seen[j];
            if (thin->u < thick->u && thick->r.index > thin->r.index) {
                now_pair(thick->u, y);
                fail("index above that of a thinner oil with the same y", NULL);
            }
        }
    seen_count = 0;
}

/* Asks the pair unless u is no 32-bit number; keeps it for the order. */
static void ask(int64_t u, uint32_t y)
{
    if (u < 0 || u > UINT32_MAX)
        return;
    struct record r = check_counted((uint32_t)u, y);
    if (r.number == 0 && r.method != B_NEAR && seen_count < 256)
        seen[seen_count++] = (struct seen){ (uint32_t)u, r };
}

/* Both sides of the place where procedure A passes k + 1/2. An L or H that is
   wrong by a thousandth moves most of these places over a whole u. */
static void ask_half_by_a(const struct oil *o, int64_t k)
{
    __int128 place = 200 * (__int128)o->L - (2 * k + 1) * (__int128)(o->L - o->H);
    int64_t u = (int64_t)(place / (200 * UNITS));
    ask(u, o->y);
    ask(u + 1, o->y);
}

int64_t half_by_b(const struct oil *o, int64_t k)
{
    long double n = log10l((10000000.0L + 71500.0L * ((long double)k + 0.5L - 100.0L)) / 10000000.0L);
    return (int64_t)((long double)o->H / (long double)UNITS * powl(o->y / 1000.0L, -n));
}

/* Both sides of the place where procedure B passes k + 1/2. */
static void ask_half_by_b(const struct oil *o, int64_t k)
{
    int64_t u = half_by_b(o, k);
    ask(u, o->y);
    ask(u + 1, o->y);
}

static int64_t greatest_index(uint32_t y)
{
    struct oil o = oil_of(y + 1, y);
    return (int64_t)index_b_estimate(&o);
}

static void ask_around_h(const struct oil *o)
{
    int64_t u = o->H / UNITS;
    ask(u - 1, o->y);
    ask(u, o->y);
    ask(u + 1, o->y);
}

enum { EACH_Y = 12 };           /* pairs asked by ask_y */

/* A dozen pairs for one y; the sweep over every y uses this. */
static void ask_y(uint32_t y)
{
    struct oil o = oil_of(y + 1, y);
    ask((int64_t)y + 1, y);
    ask_around_h(&o);
    ask_half_by_a(&o, random_in(50, 98));
    ask_half_by_a(&o, random_in(-20, 49));
    ask_half_by_b(&o, random_in(100, greatest_index(y)));
    ask(random_in(y + 1, o.H / UNITS), y);
    ask(random_log(o.H / UNITS, U_GREATEST), y);
    check_order(y);
}

/* Many more for one y: rows, gaps and the end of the table use this. */
static void ask_y_closely(uint32_t y)
{
    if (y < Y_LEAST || y > Y_GREATEST)
        return;
    struct oil o = oil_of(y + 1, y);
    int64_t greatest = greatest_index(y);
    ask(y, y);
    ask((int64_t)y + 1, y);
    ask(U_GREATEST, y);
    ask_around_h(&o);
    ask(o.L / UNITS, y);
    ask(o.L / UNITS + 1, y);
    static const int near_ends[] = { -100, -2, -1, 0, 1, 49, 97, 98, 99 };
    for (size_t i = 0; i < sizeof near_ends / sizeof *near_ends; i++)
        ask_half_by_a(&o, near_ends[i]);
    for (int i = 0; i < 8; i++)
        ask_half_by_a(&o, random_in(-50, 98));
    ask_half_by_b(&o, 100);
    ask_half_by_b(&o, 101);
    ask_half_by_b(&o, greatest);
    for (int i = 0; i < 8; i++)
        ask_half_by_b(&o, random_in(100, greatest));
    check_order(y);
}

/* ---- the spreads ---- */

void compare_row(int row)
{
    uint32_t y = (uint32_t)table[row].y;
    ask_y_closely(y - 1);
    ask_y_closely(y);
    ask_y_closely(y + 1);
    if (row + 1 == ROWS)
        return;
    uint32_t next = (uint32_t)table[row + 1].y;
    ask_y_closely((y + next) / 2);
    ask_y_closely((uint32_t)random_in(y + 1, next - 1));
    ask_y_closely((uint32_t)random_in(y + 1, next - 1));
}

static void rows_and_gaps(void)
{
    for (int i = 0; i < ROWS; i++)
        compare_row(i);
}

void compare_heavy(uint32_t step)
{
    for (uint32_t y = TABLE_END + 1; y <= Y_GREATEST; y += step)
        ask_y(y);
}

static void both_sides_of_the_table_end(void)
{
    for (uint32_t y = TABLE_END - 60; y <= TABLE_END + 60; y++)
        ask_y_closely(y);
}

static void edges_of_the_questions(void)
{
    static const uint32_t ys[] = { 0, 1, 1999, 2000, 2001, 69999, 70000, 70001, 499999, 500000, 500001,
        1000000000, 1000000001, 2147483647, 2147483648u, 4294967295u };
    static const uint32_t us[] = { 0, 1, 1999, 2000, 2001, 6393, 6394, 6395, 7994, 499999, 500000, 500001,
        500002, 999999999, 1000000000, 1000000001, 2147483647, 2147483648u, 4294967294u, 4294967295u };
    for (size_t i = 0; i < sizeof ys / sizeof *ys; i++) {
        for (size_t j = 0; j < sizeof us / sizeof *us; j++)
            check_counted(us[j], ys[i]);
        for (int64_t u = (int64_t)ys[i] - 2; u <= (int64_t)ys[i] + 2; u++)
            check_counted((uint32_t)u, ys[i]);
    }
}

/* The pairs that document 01 and request #106 name, held to the numbers that
   they print; (8034, 2000) is exactly -2.5, the request's slip. */
static void printed_pairs(void)
{
    static const struct { uint32_t u, y; int method, index; } printed[] = {
        { 73300, 8860, BY_A, 92 }, { 22830, 5050, B_SETTLED, 156 }, { 53470, 7080, BY_A, 87 },
        { 53470, 7800, B_SETTLED, 111 }, { 28490, 5000, BY_A, 100 }, { 28489, 5000, B_SETTLED, 100 },
        { 7986, 2000, BY_A, 0 }, { 8018, 2000, BY_A, -2 }, { 7970, 2000, BY_A, 2 },
        { 8034, 2000, BY_A, -2 }, { 1000000000, 2000, BY_A, -62499500 },
        { 6188000, 100000, BY_A, 50 } };
    for (size_t i = 0; i < sizeof printed / sizeof *printed; i++) {
        struct record r = check_counted(printed[i].u, printed[i].y);
        if (r.method != printed[i].method || r.index != printed[i].index)
            fail("an answer that document 01 or request #106 prints", NULL);
    }
}

/* Every length but 16 answers 5 and keeps the record. */
static void wrong_lengths(void)
{
    for (size_t length = 0; length <= 64; length++) {
        uint8_t *record = last_bytes(64), before[64];
        for (int i = 0; i < 64; i++)
            before[i] = record[i] = (uint8_t)random64();
        uint32_t u = (uint32_t)random_in(0, 100000), y = (uint32_t)random_in(0, 20000);
        now_pair(u, y);
        if (length == RECORD)
            continue;
        if (vi_pair(u, y, record, length) != WRONG_LENGTH)
            fail("a record of another length is not answered by 5", NULL);
        if (memcmp(record, before, 64) != 0)
            fail("a record of another length changed", NULL);
    }
}

void pick_oil(uint32_t *u, uint32_t *y)
{
    *y = (uint32_t)random_log(Y_LEAST, 100000);
    struct oil o = oil_of(*y + 1, *y);
    long double index = (long double)random_in(0, 250000) / 1000.0L;
    long double place = (long double)o.L - index / 100.0L * (long double)(o.L - o.H);
    if (index > 100.0L)
        place = (long double)o.H * powl(*y / 1000.0L, -log10l(1.0L + 0.00715L * (index - 100.0L)));
    *u = (uint32_t)(place / (long double)UNITS);
}

void pick_pair(uint32_t *u, uint32_t *y)
{
    switch (random_in(0, 9)) {
    case 0:
        *u = (uint32_t)random64();
        *y = (uint32_t)random64();
        break;
    case 1:
        *u = (uint32_t)random_log(1, UINT32_MAX);
        *y = (uint32_t)random_log(1, UINT32_MAX);
        break;
    case 2:
        *y = (uint32_t)random_in(Y_LEAST - 3, Y_LEAST + 3);
        *u = (uint32_t)random_in(Y_LEAST - 6, 4 * Y_LEAST);
        break;
    case 3:
    case 4:
        *y = (uint32_t)random_in(Y_LEAST, Y_GREATEST);
        *u = (uint32_t)random_log(*y, U_GREATEST);
        break;
    default:
        pick_oil(u, y);
    }
}

/* A dozen pairs of every y if that many are wanted, else of evenly spread y. */
static void sweep(uint64_t wanted)
{
    uint64_t left = wanted > tally.pairs ? wanted - tally.pairs : 0;
    uint64_t all = (uint64_t)(Y_GREATEST - Y_LEAST + 1) * EACH_Y;
    uint32_t step = left >= all ? 1 : (uint32_t)(all / (left + 1)) + 1;
    for (uint32_t y = Y_LEAST; y <= Y_GREATEST; y += step) {
        ask_y(y);
        progress("pairs", tally.pairs, wanted);
    }
}

enum { RANDOM_AFTER_SWEEP = 1000000 };

static void random_pairs(uint64_t wanted)
{
    uint64_t end = tally.pairs + RANDOM_AFTER_SWEEP;
    while (tally.pairs < wanted && tally.pairs < end) {
        uint32_t u, y;
        pick_pair(&u, &y);
        check_counted(u, y);
        progress("pairs", tally.pairs, wanted);
    }
}

void compare_pairs(uint64_t wanted)
{
    printed_pairs();
    wrong_lengths();
    edges_of_the_questions();
    rows_and_gaps();
    both_sides_of_the_table_end();
    /* A longer run sweeps again; the halves and the random u are others. */
    do {
        sweep(wanted);
        random_pairs(wanted);
    } while (tally.pairs < wanted);
}
