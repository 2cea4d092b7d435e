/* The writings: which rows are written into which buffers. write_call.c checks each. */
#include "write_call.h"

#include <string.h>

/* ---- rows ---- */

/* Beside a half by B, where a thousandth of u changes the index by little: many of
   these are near. */
static void draw_near(uint32_t *u, uint32_t *y)
{
    *y = (uint32_t)random_in(200000, Y_GREATEST);
    struct oil o = oil_of(*y + 1, *y);
    *u = (uint32_t)(half_by_b(&o, random_in(100, 300)) + random_in(0, 1));
}

enum { ANY_NUMBERS, ENDS, NEAR_PAIRS, ONE_PAIR_FOR_ALL, OTHER_PAIRS, LAST_KIND = 9 };

/* Any numbers, those at the ends of 8, 16, 31 and 32 bits, near pairs, or the many
   kinds of pairs that sheets have too, most of them answered. */
static void draw_pair(int64_t kind, uint32_t *u, uint32_t *y)
{
    static const uint32_t ends[] = { 0, 1, 255, 256, 65535, 65536, 0x7fffffff, 0x80000000, 0xfffffffe, 0xffffffff };
    if (kind == ANY_NUMBERS) {
        *u = (uint32_t)random64();
        *y = (uint32_t)random64();
    } else if (kind == ENDS) {
        *u = ends[random_in(0, 9)];
        *y = ends[random_in(0, 9)];
    } else if (kind == NEAR_PAIRS) {
        draw_near(u, y);
    } else {
        pick_pair(u, y);
    }
}

/* The row that is asked with one size of the buffer after another. */
static uint32_t row[LONGEST_ROW];

static void draw_row(size_t count)
{
    int64_t kind = random_in(0, LAST_KIND);
    uint32_t u, y;
    for (size_t i = 0; i < count; i += 2) {
        if (i == 0 || kind != ONE_PAIR_FOR_ALL)
            draw_pair(kind, &u, &y);
        row[i] = u;
        if (i + 1 < count)
            row[i + 1] = y;
    }
}

static void ask(size_t count, size_t length)
{
    struct writing w = { .row = row, .count = count, .length = length };
    if (call_writing(&w) == 0)
        check_written(&w);
}

/* ---- named ones and edges ---- */

/* Put down by hand. */
static void named_sheets(void)
{
    static const uint32_t list[] = { 73300, 8860, 0x01020304, 0xffffffff };
    static const uint8_t empty[] = { 0, 0, 0, 0, 16, 0, 0, 0, 16, 0, 0, 0, 16, 0, 0, 0 };
    static const uint8_t one[40] = { 1, 0, 0, 0, 16, 0, 0, 0, 24, 0, 0, 0, 40, 0, 0, 0, 0x54, 0x1e, 1, 0, 0x9c, 0x22 };
    static const uint8_t two[64] = { 2, 0, 0, 0, 16, 0, 0, 0, 32, 0, 0, 0, 64, 0, 0, 0, 0x54, 0x1e, 1, 0, 0x9c, 0x22,
        0, 0, 4, 3, 2, 1, 0xff, 0xff, 0xff, 0xff };
    static const struct { const uint8_t *bytes; size_t length; } named[] = {
        { empty, sizeof empty }, { one, sizeof one }, { two, sizeof two } };
    for (size_t n = 0; n < sizeof named / sizeof *named; n++) {
        struct writing w = { .row = list, .count = 2 * n, .length = named[n].length };
        if (call_writing(&w) != 0 || memcmp(written_sheet(), named[n].bytes, w.length) != 0)
            fail("a sheet put down by hand", NULL);
        check_written(&w);
    }
}

/* Each size that some question or some slip would take for the right one, and those a
   byte off it. */
static void ask_sizes(size_t count)
{
    size_t n = count / 2, cut = count % PAST_16_BITS / 2;
    const size_t sizes[] = { 0, HEADER, sheet_size(n), sheet_size(n + 1), sheet_size(n == 0 ? 0 : n - 1),
        sheet_size(count), sheet_size(cut), sheet_size(n) + PAST_16_BITS, sheet_size(n) + (PAIR + RECORD) / 2,
        sheet_size(COUNT_GREATEST), HEADER + PAIR * n, HEADER + RECORD * n, (PAIR + RECORD) * n };
    draw_row(count);
    for (size_t i = 0; i < sizeof sizes / sizeof *sizes; i++) {
        ask(count, sizes[i]);
        ask(count, sizes[i] + 1);
        if (sizes[i] != 0)
            ask(count, sizes[i] - 1);
    }
}

static void edges_of_the_questions(void)
{
    static const size_t counts[] = { 0, 1, 2, 3, 4, 5, 6, 254, 255, 256, 257, 258, 2000, 2001, 2002, 3998, 3999, 4000,
        4001, 4002, 4003, 4004, 4005, 8000, 65534, 65535, 65536, 65537, 65538, 65539, 65540, 69535, 69536, 69537,
        LONGEST_ROW };
    for (size_t i = 0; i < sizeof counts / sizeof *counts; i++)
        ask_sizes(counts[i]);
}

/* A row or a buffer whose size is right in its last 32 bits, and a buffer that is right
   for such a row: there is memory for as many numbers and bytes as those bits say. */
static void past_32_bits(void)
{
    static const size_t counts[] = { 1, 2, 3, 4, 100, 3999, MOST_NUMBERS, 4001, 4002 };
    draw_row(MOST_NUMBERS + 2);
    for (size_t i = 0; i < sizeof counts / sizeof *counts; i++) {
        size_t count = counts[i], size = sheet_size(count / 2), more = sheet_size(PAST_32_BITS / 2) - HEADER;
        const struct writing asked[] = {
            { row, count + PAST_32_BITS, size, PAST_32_BITS, 0 },
            { row, count + PAST_32_BITS, size + more, PAST_32_BITS, more },
            { row, count + PAST_32_BITS, size + PAST_32_BITS, PAST_32_BITS, PAST_32_BITS },
            { row, count, size + PAST_32_BITS, 0, PAST_32_BITS } };
        for (size_t j = 0; j < sizeof asked / sizeof *asked; j++)
            if (call_writing(&asked[j]) == 0)
                fail("a size past 32 bits is taken", NULL);
    }
}

/* "rows of every length from 0 to 4,002, buffers one byte too short and too long" */
static void every_count(void)
{
    for (size_t count = 0; count < SWEPT_COUNTS; count++) {
        size_t right = sheet_size(count / 2);
        draw_row(count);
        ask(count, right);
        ask(count, right - 1);
        ask(count, right + 1);
        ask(count, (size_t)random_in(0, 2 * (int64_t)right));
    }
}

/* ---- two lists ---- */

static void exchange(uint32_t *one, uint32_t *other)
{
    uint32_t kept = *one;
    *one = *other;
    *other = kept;
}

/* Makes another list of it, unless chance makes the same one again: how many numbers. */
static size_t change_list(uint32_t *list, size_t count, enum write_kind kind)
{
    uint32_t *at = &list[random_in(0, (int64_t)count - 1)];
    switch (kind) {
    case ONE_BIT:
        *at ^= UINT32_C(1) << random_in(0, 31);
        return count;
    case ONE_NUMBER:
        *at = (uint32_t)random64();
        return count;
    case TWO_NUMBERS:
        exchange(at, &list[random_in(0, (int64_t)count - 1)]);
        return count;
    case ONE_PAIR_LESS:
        return count - 2;
    default:
        return count;
    }
}

static bool same_bytes(const void *one, size_t size, const void *other, size_t other_size)
{
    return size == other_size && memcmp(one, other, size) == 0;
}

/* "Two written sheets are equal exactly when their lists of pairs are": of the
   library's own bytes, whatever they ought to be. The first list is written once more
   when the other has been. */
static void ask_two(size_t n)
{
    static uint32_t other[MOST_NUMBERS];
    static uint8_t first[LONGEST_SHEET];
    enum write_kind kind = (enum write_kind)random_in(SAME_LIST, ONE_PAIR_LESS);
    draw_row(2 * n);
    memcpy(other, row, 2 * n * sizeof *row);
    size_t count = change_list(other, 2 * n, kind);
    struct writing one = { .row = row, .count = 2 * n, .length = sheet_size(n) };
    struct writing two = { .row = other, .count = count, .length = sheet_size(count / 2) };
    call_writing(&one);
    memcpy(first, written_sheet(), one.length);
    call_writing(&two);
    bool same_list = same_bytes(row, 2 * n * sizeof *row, other, count * sizeof *row);
    if (same_bytes(first, one.length, written_sheet(), two.length) != same_list)
        fail(same_list ? "two sheets of one list" : "one sheet of two lists", NULL);
    check_written(&two);
    call_writing(&one);
    if (memcmp(first, written_sheet(), one.length) != 0)
        fail("two sheets of one list", NULL);
    check_written(&one);
    tally.of_write_kind[same_list ? SAME_LIST : kind]++;
}

static void two_lists(void)
{
    for (size_t n = 1; n <= 40; n++)
        ask_two(n);
    ask_two(COUNT_GREATEST);
}

/* ---- the spreads ---- */

/* Most have an even count, and few numbers. */
static size_t pick_count(void)
{
    int64_t kind = random_in(0, 1999);
    size_t odd = random_in(0, 9) == 0;
    if (kind == 0)
        return (size_t)random_in(0, LONGEST_ROW);
    if (kind <= 8)
        return 2 * (size_t)random_in(0, COUNT_GREATEST + 9) + odd;
    return 2 * (size_t)(kind <= 100 ? random_log(1, 200) : random_in(0, 10)) + odd;
}

/* Most are right; the others are a byte or some bytes off, or those of other lists. */
static size_t pick_length(size_t count)
{
    size_t right = sheet_size(count / 2);
    switch (random_in(0, 15)) {
    case 0:
        return right - 1;
    case 1:
        return right + 1;
    case 2:
        return right + (size_t)random_in(-HEADER, 64);
    case 3:
        return sheet_size((size_t)random_in(0, (int64_t)count));
    case 4:
        return (size_t)random_in(0, 80);
    default:
        return right;
    }
}

static void ask_any(void)
{
    if (random_in(0, 3) == 0) {
        ask_two((size_t)random_log(1, random_in(0, 199) == 0 ? COUNT_GREATEST : 20));
        return;
    }
    size_t count = pick_count();
    draw_row(count);
    ask(count, pick_length(count));
}

/* ---- the run ---- */

enum { WRITES_PART = 2 };

void compare_writes(uint64_t wanted)
{
    if (wanted == 0)
        return;
    begin_part(WRITES_PART);
    make_write_rooms();
    two_lists();
    named_sheets();
    edges_of_the_questions();
    past_32_bits();
    every_count();
    while (tally.writes < wanted) {
        ask_any();
        progress("writings", tally.writes, wanted);
    }
    check_writings_met();
}
