/*
 * Calls the library as firmware does: every question's number at its edge, buffers of no length, both orders of the blocks, gaps, 2,000
 * pairs, result blocks full of garbage, unaligned buffers, rows of every count that end where the memory ends, trays from empty to full and back,
 * with sample numbers over all 32 bits, stored, read-only and damaged, and a refresh where the places cannot be read. What a sheet, the row of a
 * span or a tray should hold after a call is put together here from what it held before and from vi_pair's records, the kept summary by a walk over
 * the places, a written sheet from its row, and all of it is compared, with the bytes on either side of the buffer.
 */
#define _DEFAULT_SOURCE
#include "viscosity_index.h"

#include <stdio.h>
#include <stdlib.h>
#include <string.h>
#include <sys/mman.h>
#include <unistd.h>

enum { GUARD = 64, ROOM = 65536, STEPS = 8 };

static unsigned checks, failures;

static void check(int good, const char *what, unsigned long got, unsigned long wanted)
{
    checks++;
    if (!good) {
        failures++;
        fprintf(stderr, "calls: %s: got %lu, wanted %lu\n", what, got, wanted);
    }
}

static void put32(uint8_t *at, uint32_t x)
{
    for (int i = 0; i < 4; i++)
        at[i] = (uint8_t)(x >> (8 * i));
}

static uint32_t get32(const uint8_t *at)
{
    return at[0] | (uint32_t)at[1] << 8 | (uint32_t)at[2] << 16 | (uint32_t)at[3] << 24;
}

static uint32_t seed = 2270;

static uint32_t any(void)
{
    seed = seed * 1664525u + 1013904223u;
    return seed >> 8 ^ seed << 16;
}

static void fill(uint8_t *at, size_t length)
{
    for (size_t i = 0; i < length; i++)
        at[i] = (uint8_t)any();
}

/* ---- pairs ---- */

static void pair_is(uint32_t u, uint32_t y, uint32_t number)
{
    static const uint8_t zeros[VI_RECORD_SIZE];
    uint8_t record[VI_RECORD_SIZE];
    fill(record, sizeof record);
    const uint32_t got = vi_pair(u, y, record, sizeof record);
    check(got == number, "the number of a pair", got, number);
    check(record[VI_RECORD_NUMBER] == number, "byte 0 of a record", record[VI_RECORD_NUMBER], number);
    check(record[2] == 0 && record[3] == 0, "bytes 2 and 3 of a record", record[2], 0);
    const uint8_t method = record[VI_RECORD_METHOD];
    if (number != VI_ANSWERED)
        check(memcmp(record + 1, zeros, sizeof record - 1) == 0, "the rest of a refused record", 1, 0);
    else
        check(method >= VI_METHOD_A && method <= VI_METHOD_B_NEAR, "the method of an answered record", method, VI_METHOD_A);
    if (method == VI_METHOD_A)
        check(memcmp(record + VI_RECORD_LOWER, zeros, 8) == 0, "the fractions of a record by A", 1, 0);
}

static void pair_edges(void)
{
    pair_is(3000, 1999, VI_Y_BELOW_LEAST);
    pair_is(3000, 2000, VI_ANSWERED);
    pair_is(600000, 500000, VI_ANSWERED);
    pair_is(600000, 500001, VI_Y_ABOVE_MOST);
    pair_is(1000000000, 2000, VI_ANSWERED);
    pair_is(1000000001, 2000, VI_U_ABOVE_MOST);
    pair_is(2000, 2000, VI_U_NOT_ABOVE_Y);
    pair_is(2001, 2000, VI_ANSWERED);
    pair_is(500000, 500000, VI_U_NOT_ABOVE_Y);
    pair_is(500001, 500000, VI_ANSWERED);
    /* several questions fail: the first gives its number */
    pair_is(0, 0, VI_Y_BELOW_LEAST);
    pair_is(UINT32_MAX, 1999, VI_Y_BELOW_LEAST);
    pair_is(1000000001, 500001, VI_Y_ABOVE_MOST);
    pair_is(UINT32_MAX, UINT32_MAX, VI_Y_ABOVE_MOST);
    pair_is(UINT32_MAX, 500000, VI_U_ABOVE_MOST);
    pair_is(0, 2000, VI_U_NOT_ABOVE_Y);
}

/* a record of any other length is left as it was, whatever the pair */
static void record_lengths(void)
{
    static const uint32_t oils[][2] = {{73300, 8860}, {20000, 1999}, {0, UINT32_MAX}};
    uint8_t room[64], kept[64];
    for (size_t length = 0; length <= 40; length++)
        for (size_t i = 0; i < 3 && length != VI_RECORD_SIZE; i++) {
            fill(room, sizeof room);
            memcpy(kept, room, sizeof room);
            const uint32_t got = vi_pair(oils[i][0], oils[i][1], room + 7, length);
            check(got == VI_RECORD_NOT_16, "a record that is not 16 bytes", got, VI_RECORD_NOT_16);
            check(memcmp(room, kept, sizeof room) == 0, "a record that is not 16 bytes is kept", 1, 0);
        }
    check(vi_pair(73300, 8860, NULL, 0) == VI_RECORD_NOT_16, "no record", 0, VI_RECORD_NOT_16);
}

/* ---- sheets ---- */

static uint8_t room[GUARD + STEPS + ROOM + GUARD], kept[sizeof room];

static void header(uint8_t *sheet, uint32_t n, uint32_t pairs, uint32_t results, uint32_t total)
{
    put32(sheet + VI_HEADER_COUNT, n);
    put32(sheet + VI_HEADER_PAIRS, pairs);
    put32(sheet + VI_HEADER_RESULTS, results);
    put32(sheet + VI_HEADER_TOTAL, total);
}

/* a header over garbage, in a buffer of `length`: refused by that number, and every byte kept; or accepted */
static void sheet_is(uint32_t n, uint32_t pairs, uint32_t results, uint32_t total, size_t length, uint32_t number)
{
    for (unsigned step = 0; step < STEPS; step++) {
        uint8_t *sheet = room + GUARD + step;
        fill(room, sizeof room);
        header(sheet, n, pairs, results, total);
        memcpy(kept, room, sizeof room);
        const uint32_t got = vi_sheet(sheet, length);
        check(got == number, "the number of a sheet", got, number);
        if (number != VI_ACCEPTED)
            check(memcmp(room, kept, sizeof room) == 0, "a refused sheet is kept", 1, 0);
    }
}

static void sheet_edges(void)
{
    const uint32_t full = 16 + 24 * VI_MOST_PAIRS;
    for (size_t length = 0; length < VI_HEADER_SIZE; length++)
        sheet_is(0, 16, 16, (uint32_t)length, length, VI_SHEET_SHORT);
    check(vi_sheet(NULL, 0) == VI_SHEET_SHORT, "no sheet", 0, VI_SHEET_SHORT);
    sheet_is(0, 16, 16, 16, 16, VI_ACCEPTED);
    sheet_is(0, 16, 16, 15, 16, VI_SHEET_TOTAL);
    sheet_is(0, 16, 16, 17, 16, VI_SHEET_TOTAL);
    sheet_is(0, 16, 16, UINT32_MAX, 16, VI_SHEET_TOTAL);
    sheet_is(2000, 16, 16 + 8 * 2000, full, full, VI_ACCEPTED);
    sheet_is(2001, 16, 16 + 8 * 2001, full + 24, full + 24, VI_SHEET_COUNT);
    sheet_is(UINT32_MAX, 16, 16, 16, 16, VI_SHEET_COUNT);
    /* the pair block */
    sheet_is(1, 15, 24, 40, 40, VI_SHEET_PAIRS);
    sheet_is(1, 16, 24, 40, 40, VI_ACCEPTED);
    sheet_is(1, 32, 16, 40, 40, VI_ACCEPTED);
    sheet_is(1, 33, 16, 40, 40, VI_SHEET_PAIRS);
    sheet_is(0, 17, 16, 16, 16, VI_SHEET_PAIRS);
    sheet_is(0, 15, 16, 16, 16, VI_SHEET_PAIRS);
    sheet_is(1, 0, 24, 40, 40, VI_SHEET_PAIRS);
    sheet_is(1, UINT32_MAX - 7, 24, 40, 40, VI_SHEET_PAIRS);
    sheet_is(2000, UINT32_MAX - 15999, 16, 40, 40, VI_SHEET_PAIRS);
    /* the result block */
    sheet_is(1, 32, 15, 40, 40, VI_SHEET_RESULTS);
    sheet_is(1, 16, 25, 40, 40, VI_SHEET_RESULTS);
    sheet_is(0, 16, 17, 16, 16, VI_SHEET_RESULTS);
    sheet_is(0, 16, 15, 16, 16, VI_SHEET_RESULTS);
    sheet_is(1, 16, UINT32_MAX - 15, 40, 40, VI_SHEET_RESULTS);
    sheet_is(1, 16, UINT32_MAX - 7, 40, 40, VI_SHEET_RESULTS);
    /* the blocks share a byte, or just do not */
    sheet_is(1, 16, 23, 64, 64, VI_SHEET_SHARED);
    sheet_is(1, 16, 24, 64, 64, VI_ACCEPTED);
    sheet_is(1, 31, 16, 64, 64, VI_SHEET_SHARED);
    sheet_is(1, 32, 16, 64, 64, VI_ACCEPTED);
    sheet_is(1, 20, 20, 64, 64, VI_SHEET_SHARED);
    sheet_is(2, 24, 16, 64, 64, VI_SHEET_SHARED);
    sheet_is(0, 20, 20, 64, 64, VI_ACCEPTED);
    sheet_is(0, 64, 64, 64, 64, VI_ACCEPTED);
    /* several questions fail: the first gives its number */
    sheet_is(UINT32_MAX, 0, 0, 41, 40, VI_SHEET_TOTAL);
    sheet_is(2001, 0, 0, 40, 40, VI_SHEET_COUNT);
    sheet_is(1, 15, 15, 40, 40, VI_SHEET_PAIRS);
    sheet_is(3, 16, 20, 40, 40, VI_SHEET_RESULTS);
}

static void any_pair(uint32_t i, uint32_t *u, uint32_t *y)
{
    *y = any() % 8 ? 2000 + any() % (i % 2 ? 20000 : 498001) : any();
    *u = any() % 8 ? *y + any() % (i % 3 ? 1 + 20 * (*y % 500001) : 1000000000) : any();
}

/* works the sheet, which stands in `room` */
static void is_worked(uint8_t *sheet)
{
    const uint32_t n = get32(sheet + VI_HEADER_COUNT), pairs = get32(sheet + VI_HEADER_PAIRS), results = get32(sheet + VI_HEADER_RESULTS);
    uint8_t *wanted = kept + (sheet - room);
    memcpy(kept, room, sizeof room);
    for (uint32_t i = 0; i < n; i++) {
        const uint8_t *pair = sheet + pairs + i * VI_PAIR_SIZE;
        vi_pair(get32(pair + VI_PAIR_U), get32(pair + VI_PAIR_Y), wanted + results + i * VI_RECORD_SIZE, VI_RECORD_SIZE);
    }
    const uint32_t got = vi_sheet(sheet, get32(sheet + VI_HEADER_TOTAL));
    check(got == VI_ACCEPTED, "a sheet of any shape", got, VI_ACCEPTED);
    check(memcmp(room, kept, sizeof room) == 0, "the records, and every byte outside the result block", n, n);
}

/* works n random pairs in blocks at these offsets; the bytes between are garbage, and so is the result block before the call */
static void worked(uint32_t n, uint32_t pairs, uint32_t results, uint32_t total, unsigned step)
{
    uint8_t *sheet = room + GUARD + step;
    fill(room, sizeof room);
    header(sheet, n, pairs, results, total);
    for (uint32_t i = 0; i < n; i++) {
        uint32_t u, y;
        any_pair(i, &u, &y);
        put32(sheet + pairs + i * VI_PAIR_SIZE + VI_PAIR_U, u);
        put32(sheet + pairs + i * VI_PAIR_SIZE + VI_PAIR_Y, y);
    }
    is_worked(sheet);
}

static void shapes(void)
{
    static const uint32_t counts[] = {0, 1, 2, 3, 17, 100, 2000};
    for (size_t c = 0; c < sizeof counts / sizeof *counts; c++)
        for (uint32_t before = 0; before <= 5; before++)
            for (uint32_t between = 0; between <= 9; between += 3) {
                const uint32_t n = counts[c], first = VI_HEADER_SIZE + before;
                const uint32_t total = first + 24 * n + between + before;
                const unsigned step = (before + between) % STEPS;
                worked(n, first, first + 8 * n + between, total, step);
                worked(n, first + 16 * n + between, first, total, step);
            }
}

/* of equal y the greater u never has the greater index, where neither is near */
static void order(uint32_t y, uint32_t from, uint32_t stride)
{
    uint8_t *sheet = room + GUARD;
    const uint32_t n = VI_MOST_PAIRS, results = 16 + 8 * n, total = results + 16 * n;
    header(sheet, n, 16, results, total);
    for (uint32_t i = 0; i < n; i++) {
        put32(sheet + 16 + 8 * i, from + stride * i);
        put32(sheet + 16 + 8 * i + 4, y);
    }
    check(vi_sheet(sheet, total) == VI_ACCEPTED, "a sheet of equal y", 1, VI_ACCEPTED);
    long last = INT32_MAX;
    for (uint32_t i = 0; i < n; i++) {
        const uint8_t *record = sheet + results + 16 * i;
        const long index = (int32_t)get32(record + VI_RECORD_INDEX);
        if (record[VI_RECORD_METHOD] == VI_METHOD_REFUSED || record[VI_RECORD_METHOD] == VI_METHOD_B_NEAR)
            continue;
        check(index <= last, "the index of a thicker oil", (unsigned long)index, (unsigned long)last);
        last = index;
    }
}

/* ---- constants ---- */

enum { ROW = VI_CONSTANT_SIZE, BEFORE = 5, MOST_NUMBERS = 16, MOST_APART = 64 };
typedef uint32_t constant_call(uint32_t viscosity, uint32_t density, int32_t *row, size_t count);

/* numbers that end where the memory ends: a touch of what follows them ends the program */
static int32_t *last_numbers(size_t count)
{
    static uint8_t *end;
    const size_t page = (size_t)sysconf(_SC_PAGESIZE);
    if (end == NULL) {
        uint8_t *pages = mmap(NULL, 2 * page, PROT_READ | PROT_WRITE, MAP_PRIVATE | MAP_ANONYMOUS, -1, 0);
        if (pages == MAP_FAILED || mprotect(pages + page, page, PROT_NONE) != 0)
            exit(2);
        end = pages + page;
    }
    return (int32_t *)(void *)(end - count * sizeof(int32_t));
}

/* the call's number; k and two fractions that may be right, or every number of the row as it was */
static void constant_is(constant_call *call, uint32_t viscosity, uint32_t density, uint32_t number, int32_t k)
{
    for (size_t after = 0; after <= 4; after++) {
        const size_t size = (BEFORE + ROW + after) * sizeof(int32_t);
        int32_t *numbers = last_numbers(BEFORE + ROW + after), *row = numbers + BEFORE, as_before[BEFORE + ROW + 4];
        fill((uint8_t *)numbers, size);
        memcpy(as_before, numbers, size);
        const uint32_t got = call(viscosity, density, row, ROW);
        check(got == number, "the number of a constant", got, number);
        if (number == VI_ANSWERED) {
            const int64_t apart = (int64_t)row[VI_CONSTANT_UPPER] - row[VI_CONSTANT_LOWER];
            check(row[VI_CONSTANT_K] == k, "k", (unsigned long)row[VI_CONSTANT_K], (unsigned long)k);
            check(apart >= 0 && apart <= MOST_APART, "the fractions of a constant", (unsigned long)apart, MOST_APART);
            memcpy(row, as_before + BEFORE, ROW * sizeof *row);
        }
        check(memcmp(numbers, as_before, size) == 0, "the numbers of a refused row and beside a row", 1, 0);
    }
}

static void constants_at_40(void)
{
    constant_is(vi_constant_40, 9500, 8700, VI_ANSWERED, 840);
    constant_is(vi_constant_40, 46000, 8750, VI_ANSWERED, 815);
    constant_is(vi_constant_40, 6500, 8600, VI_ANSWERED, 844);
    constant_is(vi_constant_40, 1000000000, 5000, VI_ANSWERED, -905);
    constant_is(vi_constant_40, 1000000000, 15000, VI_ANSWERED, 2592);
    constant_is(vi_constant_40, 1000000000, 7588, VI_ANSWERED, 0);
    constant_is(vi_constant_40, 1000000001, 8700, VI_VISCOSITY_OUTSIDE, 0);
    constant_is(vi_constant_40, 5501, 5000, VI_ANSWERED, 615);
    constant_is(vi_constant_40, 5500, 5000, VI_VISCOSITY_OUTSIDE, 0);
    constant_is(vi_constant_40, 0, 8700, VI_VISCOSITY_OUTSIDE, 0);
    constant_is(vi_constant_40, UINT32_MAX, 8700, VI_VISCOSITY_OUTSIDE, 0);
    constant_is(vi_constant_40, 9500, 4999, VI_DENSITY_OUTSIDE, 0);
    constant_is(vi_constant_40, 9500, 5000, VI_ANSWERED, 416);
    constant_is(vi_constant_40, 9500, 15000, VI_ANSWERED, 1560);
    constant_is(vi_constant_40, 9500, 15001, VI_DENSITY_OUTSIDE, 0);
    constant_is(vi_constant_40, 9500, UINT32_MAX, VI_DENSITY_OUTSIDE, 0);
    /* both questions fail: the first gives its number */
    constant_is(vi_constant_40, 5500, 4999, VI_VISCOSITY_OUTSIDE, 0);
    constant_is(vi_constant_40, UINT32_MAX, UINT32_MAX, VI_VISCOSITY_OUTSIDE, 0);
}

static void constants_at_100(void)
{
    constant_is(vi_constant_100, 2500, 8700, VI_ANSWERED, 835);
    constant_is(vi_constant_100, 1800, 9000, VI_ANSWERED, 880);
    constant_is(vi_constant_100, 801, 5000, VI_ANSWERED, 645);
    constant_is(vi_constant_100, 800, 5000, VI_VISCOSITY_OUTSIDE, 0);
    constant_is(vi_constant_100, 0, 8700, VI_VISCOSITY_OUTSIDE, 0);
    constant_is(vi_constant_100, 500000, 5000, VI_ANSWERED, 84);
    constant_is(vi_constant_100, 500000, 15000, VI_ANSWERED, 1650);
    constant_is(vi_constant_100, 500001, 8700, VI_VISCOSITY_OUTSIDE, 0);
    constant_is(vi_constant_100, UINT32_MAX, 8700, VI_VISCOSITY_OUTSIDE, 0);
    constant_is(vi_constant_100, 2500, 4999, VI_DENSITY_OUTSIDE, 0);
    constant_is(vi_constant_100, 2500, 5000, VI_ANSWERED, 414);
    constant_is(vi_constant_100, 2500, 15000, VI_ANSWERED, 1553);
    constant_is(vi_constant_100, 2500, 15001, VI_DENSITY_OUTSIDE, 0);
    constant_is(vi_constant_100, 500001, 15001, VI_VISCOSITY_OUTSIDE, 0);
    constant_is(vi_constant_100, 0, 0, VI_VISCOSITY_OUTSIDE, 0);
}

/* a row of any other count is left as it was, whatever is asked; one of no numbers may have no place */
static void row_counts(constant_call *call)
{
    static const uint32_t asked[][2] = {{9500, 8700}, {0, 8700}, {9500, 4999}, {UINT32_MAX, 0}};
    int32_t as_before[MOST_NUMBERS];
    for (size_t count = 0; count <= MOST_NUMBERS; count++)
        for (size_t i = 0; i < 4 && count != ROW; i++) {
            int32_t *row = last_numbers(count);
            fill((uint8_t *)row, count * sizeof *row);
            memcpy(as_before, row, count * sizeof *row);
            const uint32_t got = call(asked[i][0], asked[i][1], row, count);
            check(got == VI_CONSTANT_NOT_3, "a row that is not 3 numbers", got, VI_CONSTANT_NOT_3);
            check(memcmp(row, as_before, count * sizeof *row) == 0, "a row that is not 3 numbers is kept", 1, 0);
        }
    check(call(9500, 8700, NULL, 0) == VI_CONSTANT_NOT_3, "no row", 0, VI_CONSTANT_NOT_3);
}

/* ---- trays ---- */

enum { TRAY_LENT, RECORD_LENT, PAIR_LENT, SUMMARY_LENT, LENT, PAGE = 4096, MOST_AFTER = 24 };

/* what is lent to a call with a tray: of each memory the last bytes of a page, or a few bytes before; and the page as it has to be afterwards */
static uint8_t *pages[LENT], wanted_pages[LENT][PAGE];

static void make_pages(void)
{
    const size_t page = (size_t)sysconf(_SC_PAGESIZE), room = page < PAGE ? PAGE : page;
    for (unsigned i = 0; i < LENT; i++) {
        uint8_t *memory = mmap(NULL, room + page, PROT_READ | PROT_WRITE, MAP_PRIVATE | MAP_ANONYMOUS, -1, 0);
        if (memory == MAP_FAILED || mprotect(memory + room, page, PROT_NONE) != 0)
            exit(2);
        pages[i] = memory + room - PAGE;
    }
}

static void *lend(unsigned which, size_t size, size_t after)
{
    fill(pages[which], PAGE);
    memcpy(wanted_pages[which], pages[which], PAGE);
    return pages[which] + PAGE - after - size;
}

/* `at` will hold these bytes */
static void will_hold(unsigned which, const void *at, const void *bytes, size_t size)
{
    memcpy(wanted_pages[which] + ((const uint8_t *)at - pages[which]), bytes, size);
}

static void pages_are_right(uint32_t number)
{
    const char *const what = number == VI_ANSWERED ? "what a call with a tray leaves, and what stays" : "memory lent to a refused call with a tray";
    for (unsigned i = 0; i < LENT; i++)
        check(memcmp(pages[i], wanted_pages[i], PAGE) == 0, what, i, number);
}

/* the tray between two calls; each call is lent a copy. Where it is foreign, somebody else wrote it, and what an answered call keeps is not asked. */
static uint32_t held[VI_TRAY_SIZE];
static int foreign;

static void begin_empty(void)
{
    memset(held, 0, sizeof held);
    foreign = 0;
}

static uint32_t *lend_tray(size_t after)
{
    uint32_t *tray = (uint32_t *)lend(TRAY_LENT, sizeof held, after);
    memcpy(tray, held, sizeof held);
    will_hold(TRAY_LENT, tray, held, sizeof held);
    return tray;
}

/* the first place that is free, or that holds the number; VI_TRAY_PLACES if there is none */
static size_t place_of(int is_free, uint32_t number)
{
    size_t i = 0;
    for (; i < VI_TRAY_PLACES; i++) {
        const uint32_t *place = held + VI_PLACE_SIZE * i;
        const int free_place = place[VI_PLACE_METHOD] == VI_METHOD_REFUSED;
        if (is_free ? free_place : !free_place && place[VI_PLACE_NUMBER] == number)
            break;
    }
    return i;
}

static void keep_64(uint32_t *at, int64_t x)
{
    at[0] = (uint32_t)(uint64_t)x;
    at[1] = (uint32_t)((uint64_t)x >> 32);
}

static int64_t kept_64(const uint32_t *at)
{
    return (int64_t)((uint64_t)at[0] | (uint64_t)at[1] << 32);
}

/* the nine numbers that a tray with these places keeps; those of a foreign tray as the call left them */
static void keep(const uint32_t *left)
{
    uint32_t *nine = held + VI_TRAY_KEPT;
    int64_t lowest = INT64_MAX, highest = INT64_MIN, sum = 0;
    if (foreign) {
        memcpy(nine, left + VI_TRAY_KEPT, VI_KEPT_SIZE * sizeof *nine);
        return;
    }
    memset(nine, 0, VI_KEPT_SIZE * sizeof *nine);
    for (size_t i = 0; i < VI_TRAY_PLACES; i++) {
        const uint32_t *place = held + VI_PLACE_SIZE * i, method = place[VI_PLACE_METHOD];
        const int64_t index = (int32_t)place[VI_PLACE_INDEX];
        if (method == VI_METHOD_REFUSED)
            continue;
        lowest = index < lowest ? index : lowest;
        highest = index > highest ? index : highest;
        sum += index;
        nine[method == VI_METHOD_A ? VI_KEPT_A : method == VI_METHOD_B_SETTLED ? VI_KEPT_SETTLED : VI_KEPT_NEAR]++;
        keep_64(nine + VI_KEPT_LOWEST, lowest);
        keep_64(nine + VI_KEPT_HIGHEST, highest);
        keep_64(nine + VI_KEPT_SUM, sum);
    }
}

static void put_is(uint32_t number, uint32_t u, uint32_t y, uint32_t wanted)
{
    uint32_t before[VI_TRAY_SIZE];
    memcpy(before, held, sizeof held);
    for (size_t after = 0; after <= MOST_AFTER; after += 8) {
        memcpy(held, before, sizeof held);
        uint32_t *tray = lend_tray(after);
        uint8_t *record = (uint8_t *)lend(RECORD_LENT, VI_RECORD_SIZE, after / 8), answer[VI_RECORD_SIZE];
        vi_pair(u, y, answer, sizeof answer);
        const uint32_t got = vi_tray_put(tray, VI_TRAY_SIZE, number, u, y, record, VI_RECORD_SIZE);
        check(got == wanted, "the number of a put", got, wanted);
        if (wanted == VI_ANSWERED) {
            uint32_t *place = held + VI_PLACE_SIZE * place_of(1, 0);
            memset(place, 0, VI_PLACE_SIZE * sizeof *place);
            place[VI_PLACE_METHOD] = answer[VI_RECORD_METHOD];
            place[VI_PLACE_NUMBER] = number;
            place[VI_PLACE_U] = u;
            place[VI_PLACE_Y] = y;
            place[VI_PLACE_INDEX] = get32(answer + VI_RECORD_INDEX);
            place[VI_PLACE_LOWER] = get32(answer + VI_RECORD_LOWER);
            place[VI_PLACE_UPPER] = get32(answer + VI_RECORD_UPPER);
            keep(tray);
            will_hold(TRAY_LENT, tray, held, sizeof held);
            will_hold(RECORD_LENT, record, answer, sizeof answer);
        }
        pages_are_right(wanted);
    }
}

/* the pair that comes out, which is asked of vi_pair anew */
static void take_is(uint32_t number, uint32_t wanted)
{
    uint32_t before[VI_TRAY_SIZE];
    memcpy(before, held, sizeof held);
    for (size_t after = 0; after <= MOST_AFTER; after += 8) {
        memcpy(held, before, sizeof held);
        uint32_t *tray = lend_tray(after), *pair = (uint32_t *)lend(PAIR_LENT, VI_SAMPLE_PAIR_SIZE * sizeof *pair, after);
        uint8_t *record = (uint8_t *)lend(RECORD_LENT, VI_RECORD_SIZE, after / 8), answer[VI_RECORD_SIZE];
        const uint32_t got = vi_tray_take(tray, VI_TRAY_SIZE, number, pair, VI_SAMPLE_PAIR_SIZE, record, VI_RECORD_SIZE);
        check(got == wanted, "the number of a take", got, wanted);
        if (wanted == VI_ANSWERED) {
            uint32_t *place = held + VI_PLACE_SIZE * place_of(0, number), out[VI_SAMPLE_PAIR_SIZE];
            out[VI_SAMPLE_PAIR_U] = place[VI_PLACE_U];
            out[VI_SAMPLE_PAIR_Y] = place[VI_PLACE_Y];
            vi_pair(place[VI_PLACE_U], place[VI_PLACE_Y], answer, sizeof answer);
            place[VI_PLACE_METHOD] = VI_METHOD_REFUSED;
            keep(tray);
            will_hold(TRAY_LENT, tray, held, sizeof held);
            will_hold(PAIR_LENT, pair, out, sizeof out);
            will_hold(RECORD_LENT, record, answer, sizeof answer);
        }
        pages_are_right(wanted);
    }
}

static void summary_is(int64_t count, int64_t lowest, int64_t highest, int64_t sum, int64_t by_a, int64_t settled, int64_t near_half)
{
    int64_t row[VI_SUMMARY_SIZE];
    row[VI_SUMMARY_HELD] = count;
    row[VI_SUMMARY_LOWEST] = lowest;
    row[VI_SUMMARY_HIGHEST] = highest;
    row[VI_SUMMARY_SUM] = sum;
    row[VI_SUMMARY_A] = by_a;
    row[VI_SUMMARY_SETTLED] = settled;
    row[VI_SUMMARY_NEAR] = near_half;
    for (size_t after = 0; after <= MOST_AFTER; after += 8) {
        const uint32_t *tray = lend_tray(after);
        int64_t *out = (int64_t *)lend(SUMMARY_LENT, sizeof row, after);
        const uint32_t got = vi_tray_summary(tray, VI_TRAY_SIZE, out, VI_SUMMARY_SIZE);
        check(got == VI_ANSWERED, "the number of a summary", got, VI_ANSWERED);
        will_hold(SUMMARY_LENT, out, row, sizeof row);
        pages_are_right(VI_ANSWERED);
    }
}

/* from empty to full and back, every question on the way; of several that fail the first gives its number */
static void tray_from_empty_to_full(void)
{
    begin_empty();
    summary_is(0, 0, 0, 0, 0, 0, 0);
    take_is(0, VI_NUMBER_NOT_HELD);
    take_is(255, VI_NUMBER_NOT_HELD);
    put_is(0, 73300, 8860, VI_ANSWERED);
    put_is(255, 22830, 5050, VI_ANSWERED);
    put_is(7, 8018, 2000, VI_ANSWERED);
    summary_is(3, -2, 156, 246, 2, 1, 0);
    put_is(0, 22830, 5050, VI_NUMBER_HELD);
    put_is(0, 3000, 1999, VI_Y_BELOW_LEAST);
    put_is(0, 600000, 500001, VI_Y_ABOVE_MOST);
    put_is(0, 1000000001, 2000, VI_U_ABOVE_MOST);
    put_is(0, 2000, 2000, VI_U_NOT_ABOVE_Y);
    put_is(1, UINT32_MAX, UINT32_MAX, VI_Y_ABOVE_MOST);
    for (unsigned i = 3; i < VI_TRAY_PLACES; i++)
        put_is(97 + i, 1000000000, 2000, VI_ANSWERED);
    summary_is(64, -62499500, 156, 246 - (int64_t)61 * 62499500, 63, 1, 0);
    put_is(1, 73300, 8860, VI_TRAY_FULL);
    put_is(0, 73300, 8860, VI_NUMBER_HELD);
    put_is(0, 3000, 1999, VI_Y_BELOW_LEAST);
    put_is(1, 2000, 2000, VI_U_NOT_ABOVE_Y);
    take_is(1, VI_NUMBER_NOT_HELD);
    take_is(255, VI_ANSWERED);
    take_is(255, VI_NUMBER_NOT_HELD);
    put_is(1, 22830, 5050, VI_ANSWERED);
    put_is(255, 22830, 5050, VI_TRAY_FULL);
    for (unsigned i = 3; i < VI_TRAY_PLACES; i++)
        take_is(97 + i, VI_ANSWERED);
    summary_is(3, -2, 156, 246, 2, 1, 0);
    take_is(7, VI_ANSWERED);
    summary_is(2, 92, 156, 248, 1, 1, 0);
    take_is(1, VI_ANSWERED);
    summary_is(1, 92, 92, 92, 1, 0, 0);
    take_is(0, VI_ANSWERED);
    summary_is(0, 0, 0, 0, 0, 0, 0);
}

/* six numbers, each alone, where none of the others is held, and all held, each with a pair of its own; then 64 that begin with one number and go on by one
   step: with the same lowest bytes, of nine digits, over the whole range */
static void tray_numbers(void)
{
    static const uint32_t numbers[] = {0, 1, 257, 65537, 16777217, UINT32_MAX};
    static const uint32_t steps[][2] = {{1, 256}, {1, 65536}, {1, 16777216}, {104000200, 13000007}, {0, UINT32_MAX / 63}};
    const unsigned count = sizeof numbers / sizeof *numbers;
    begin_empty();
    for (unsigned i = 0; i < count; i++) {
        put_is(numbers[i], 73300, 8860, VI_ANSWERED);
        for (unsigned j = 0; j < count; j++)
            if (j != i)
                take_is(numbers[j], VI_NUMBER_NOT_HELD);
        put_is(numbers[i], 22830, 5050, VI_NUMBER_HELD);
        take_is(numbers[i], VI_ANSWERED);
        take_is(numbers[i], VI_NUMBER_NOT_HELD);
    }
    for (unsigned i = 0; i < count; i++)
        put_is(numbers[i], 73300 + i, 8860, VI_ANSWERED);
    for (unsigned i = 0; i < count; i++)
        put_is(numbers[i], 22830, 5050, VI_NUMBER_HELD);
    for (unsigned i = 0; i < count; i++)
        take_is(numbers[i], VI_ANSWERED);
    for (unsigned s = 0; s < sizeof steps / sizeof *steps; s++) {
        for (unsigned i = 0; i < VI_TRAY_PLACES; i++)
            put_is(steps[s][0] + steps[s][1] * i, 73300 + i, 8860, VI_ANSWERED);
        put_is(steps[s][0] + steps[s][1] * VI_TRAY_PLACES, 73300, 8860, VI_TRAY_FULL);
        take_is(steps[s][0] + steps[s][1] * VI_TRAY_PLACES, VI_NUMBER_NOT_HELD);
        for (unsigned i = VI_TRAY_PLACES; i > 0; i--)
            take_is(steps[s][0] + steps[s][1] * (i - 1), VI_ANSWERED);
    }
}

/* a tray may be stored, and its summary taken where it cannot be written */
static void tray_stored(void)
{
    int64_t row[VI_SUMMARY_SIZE];
    begin_empty();
    put_is(3, 73300, 8860, VI_ANSWERED);
    FILE *file = tmpfile();
    check(file != NULL && fwrite(held, sizeof held, 1, file) == 1, "a stored tray", 0, 1);
    memset(held, 0, sizeof held);
    if (file != NULL) {
        rewind(file);
        check(fread(held, sizeof held, 1, file) == 1, "a loaded tray", 0, 1);
        fclose(file);
    }
    put_is(3, 22830, 5050, VI_NUMBER_HELD);
    put_is(4, 144936, 16776, VI_ANSWERED); /* near */
    summary_is(2, 92, 125, 217, 1, 0, 1);
    const size_t page = (size_t)sysconf(_SC_PAGESIZE);
    uint8_t *memory = (uint8_t *)mmap(NULL, page, PROT_READ | PROT_WRITE, MAP_PRIVATE | MAP_ANONYMOUS, -1, 0);
    if (memory == MAP_FAILED)
        exit(2);
    memcpy(memory, held, sizeof held);
    check(mprotect(memory, page, PROT_READ) == 0, "memory that cannot be written", 1, 0);
    const uint32_t got = vi_tray_summary((const uint32_t *)(const void *)memory, VI_TRAY_SIZE, row, VI_SUMMARY_SIZE);
    check(got == VI_ANSWERED && row[VI_SUMMARY_HELD] == 2 && row[VI_SUMMARY_SUM] == 217, "the summary of a tray that cannot be written", got, 0);
    take_is(3, VI_ANSWERED);
}

/* the lowest and the highest leave while another sample has the same index, by the same method or by another, and where none has; one between them
   leaves; the last leaves; the same sample comes again */
static void tray_keeps(void)
{
    begin_empty();
    put_is(1, 73300, 8860, VI_ANSWERED);   /* 92 by A */
    put_is(2, 28490, 5000, VI_ANSWERED);   /* 100 by A */
    put_is(3, 28489, 5000, VI_ANSWERED);   /* 100 by B */
    put_is(4, 73300, 8860, VI_ANSWERED);   /* 92 by A */
    put_is(5, 144936, 16776, VI_ANSWERED); /* 125 by B, near */
    put_is(6, 144935, 16776, VI_ANSWERED); /* 125 by B */
    summary_is(6, 92, 125, 634, 3, 2, 1);
    put_is(6, 8018, 2000, VI_NUMBER_HELD);
    take_is(7, VI_NUMBER_NOT_HELD);
    summary_is(6, 92, 125, 634, 3, 2, 1);
    take_is(1, VI_ANSWERED);
    summary_is(5, 92, 125, 542, 2, 2, 1);
    take_is(6, VI_ANSWERED);
    summary_is(4, 92, 125, 417, 2, 1, 1);
    take_is(2, VI_ANSWERED);
    summary_is(3, 92, 125, 317, 1, 1, 1);
    take_is(5, VI_ANSWERED);
    summary_is(2, 92, 100, 192, 1, 1, 0);
    take_is(4, VI_ANSWERED);
    summary_is(1, 100, 100, 100, 0, 1, 0);
    for (unsigned i = 0; i < 2; i++) {
        take_is(3, VI_ANSWERED);
        summary_is(0, 0, 0, 0, 0, 0, 0);
        put_is(3, 28489, 5000, VI_ANSWERED);
        summary_is(1, 100, 100, 100, 0, 1, 0);
    }
}

/* a refresh reads what is kept and no place: the places end where memory begins that can be read */
static void tray_places_not_read(void)
{
    const size_t page = (size_t)sysconf(_SC_PAGESIZE);
    uint8_t *memory = (uint8_t *)mmap(NULL, 2 * page, PROT_READ | PROT_WRITE, MAP_PRIVATE | MAP_ANONYMOUS, -1, 0);
    if (memory == MAP_FAILED)
        exit(2);
    uint32_t *tray = (uint32_t *)(void *)(memory + page) - VI_TRAY_KEPT;
    int64_t row[VI_SUMMARY_SIZE];
    for (unsigned i = 0; i <= VI_TRAY_PLACES; i++) {
        uint8_t record[VI_RECORD_SIZE];
        check(mprotect(memory, page, PROT_NONE) == 0, "places that cannot be read", 1, 0);
        const uint32_t got = vi_tray_summary(tray, VI_TRAY_SIZE, row, VI_SUMMARY_SIZE);
        check(got == VI_ANSWERED && row[VI_SUMMARY_HELD] == i && row[VI_SUMMARY_SUM] == (int64_t)i * 92, "a refresh that reads no place", got, 0);
        check(mprotect(memory, page, PROT_READ | PROT_WRITE) == 0, "places that can be read", 1, 0);
        vi_tray_put(tray, VI_TRAY_SIZE, i, 73300, 8860, record, sizeof record);
    }
    munmap(memory, 2 * page);
}

/* all three calls with memories of these sizes: 5 where one of its own is not the right one, and nothing changes; of no size there may be no place */
static void sizes_are(size_t tray_count, size_t length, size_t pair_count, size_t row_count)
{
    static const uint32_t oils[][2] = {{73300, 8860}, {3000, 1999}};
    for (unsigned i = 0; i < 4; i++) {
        uint32_t *tray = (uint32_t *)lend(TRAY_LENT, tray_count * sizeof *tray, 0);
        uint8_t *record = (uint8_t *)lend(RECORD_LENT, length, 0);
        uint32_t *pair = (uint32_t *)lend(PAIR_LENT, pair_count * sizeof *pair, 0);
        int64_t *row = (int64_t *)lend(SUMMARY_LENT, row_count * sizeof *row, 0);
        const int none = i >= 2, tray_right = tray_count == VI_TRAY_SIZE, record_right = length == VI_RECORD_SIZE;
        tray = none && tray_count == 0 ? NULL : tray;
        record = none && length == 0 ? NULL : record;
        pair = none && pair_count == 0 ? NULL : pair;
        row = none && row_count == 0 ? NULL : row;
        uint32_t got = VI_TRAY_NOT_LENT;
        if (!tray_right || !record_right)
            got = vi_tray_put(tray, tray_count, 9, oils[i % 2][0], oils[i % 2][1], record, length);
        check(got == VI_TRAY_NOT_LENT, "a put with other sizes", got, VI_TRAY_NOT_LENT);
        if (!tray_right || !record_right || pair_count != VI_SAMPLE_PAIR_SIZE)
            got = vi_tray_take(tray, tray_count, 9, pair, pair_count, record, length);
        check(got == VI_TRAY_NOT_LENT, "a take with other sizes", got, VI_TRAY_NOT_LENT);
        if (!tray_right || row_count != VI_SUMMARY_SIZE)
            got = vi_tray_summary(tray, tray_count, row, row_count);
        check(got == VI_TRAY_NOT_LENT, "a summary with other sizes", got, VI_TRAY_NOT_LENT);
        pages_are_right(VI_TRAY_NOT_LENT);
    }
}

/* among them 512, the size before change request #105 */
static void tray_sizes(void)
{
    for (size_t count = 0; count <= VI_TRAY_SIZE + VI_PLACE_SIZE; count++)
        sizes_are(count, VI_RECORD_SIZE, VI_SAMPLE_PAIR_SIZE, VI_SUMMARY_SIZE);
    for (size_t length = 0; length <= 40; length++)
        sizes_are(VI_TRAY_SIZE, length, VI_SAMPLE_PAIR_SIZE, VI_SUMMARY_SIZE);
    for (size_t count = 0; count <= MOST_NUMBERS; count++) {
        sizes_are(VI_TRAY_SIZE, VI_RECORD_SIZE, count, VI_SUMMARY_SIZE);
        sizes_are(VI_TRAY_SIZE, VI_RECORD_SIZE, VI_SAMPLE_PAIR_SIZE, count);
    }
    sizes_are(0, 0, 0, 0);
}

/* a summary of any numbers: what is kept, whatever the places hold */
static void kept_is_answered(void)
{
    const uint32_t *nine = held + VI_TRAY_KEPT;
    const int64_t by_a = nine[VI_KEPT_A], settled = nine[VI_KEPT_SETTLED], near_half = nine[VI_KEPT_NEAR], count = by_a + settled + near_half;
    if (count == 0)
        summary_is(0, 0, 0, 0, 0, 0, 0);
    else
        summary_is(count, kept_64(nine + VI_KEPT_LOWEST), kept_64(nine + VI_KEPT_HIGHEST), kept_64(nine + VI_KEPT_SUM), by_a, settled, near_half);
}

/* the numbers in `held` are any: each call answers, and changes what the header says */
static void any_tray(uint32_t number)
{
    unsigned count = 0;
    for (size_t i = 0; i < VI_TRAY_PLACES; i++)
        count += held[VI_PLACE_SIZE * i + VI_PLACE_METHOD] != VI_METHOD_REFUSED;
    kept_is_answered();
    const size_t at = place_of(0, number);
    put_is(number, 73300, 8860, at < VI_TRAY_PLACES ? VI_NUMBER_HELD : count == VI_TRAY_PLACES ? VI_TRAY_FULL : VI_ANSWERED);
    if (place_of(0, number) == VI_TRAY_PLACES) {
        take_is(number, VI_NUMBER_NOT_HELD);
        return;
    }
    uint32_t *tray = lend_tray(0), *pair = (uint32_t *)lend(PAIR_LENT, VI_SAMPLE_PAIR_SIZE * sizeof *pair, 0);
    uint8_t *record = (uint8_t *)lend(RECORD_LENT, VI_RECORD_SIZE, 0);
    uint32_t *place = held + VI_PLACE_SIZE * place_of(0, number);
    const uint32_t got = vi_tray_take(tray, VI_TRAY_SIZE, number, pair, VI_SAMPLE_PAIR_SIZE, record, VI_RECORD_SIZE);
    check(got == VI_ANSWERED, "a take from any tray", got, VI_ANSWERED);
    check(record[VI_RECORD_NUMBER] == 0 && record[VI_RECORD_METHOD] <= VI_METHOD_B_NEAR && record[2] == 0 && record[3] == 0, "a record of any tray",
          record[VI_RECORD_METHOD], VI_METHOD_B_NEAR);
    will_hold(RECORD_LENT, record, record, VI_RECORD_SIZE);
    will_hold(PAIR_LENT, pair, place + VI_PLACE_U, VI_SAMPLE_PAIR_SIZE * sizeof *pair);
    place[VI_PLACE_METHOD] = VI_METHOD_REFUSED;
    keep(tray);
    will_hold(TRAY_LENT, tray, held, sizeof held);
    pages_are_right(VI_ANSWERED);
    kept_is_answered();
}

static void damaged_trays(void)
{
    for (unsigned i = 0; i < 400; i++) {
        fill((uint8_t *)held, sizeof held);
        if (i % 4 == 1) /* small numbers, many of them twice */
            for (size_t j = 0; j < VI_TRAY_SIZE; j++)
                held[j] %= j % VI_PLACE_SIZE == VI_PLACE_METHOD ? 5 : 64;
        if (i % 4 == 2)
            memset(held, i % 8 == 2 ? 0xFF : (int)(any() % 256), sizeof held);
        if (i % 4 == 3) { /* one sample, and one number changed, of its place or of what is kept */
            begin_empty();
            put_is(i % 8 == 3 ? i : any(), 22830, 5050, VI_ANSWERED);
            held[i % 16 < 8 ? any() % VI_PLACE_SIZE : VI_TRAY_KEPT + any() % VI_KEPT_SIZE] = any() % 2 ? any() : any() % 4;
        }
        foreign = 1;
        for (unsigned j = 0; j < 4; j++)
            any_tray(j % 2 ? held[VI_PLACE_SIZE * (any() % VI_TRAY_PLACES) + VI_PLACE_NUMBER] : any() >> 12 * j); /* of 32 bits, or of 8 */
    }
}

/* ---- spans ---- */

enum { SPAN = VI_SPAN_SIZE };

/* the call's number; the two indices, or every number of the row as it was */
static void span_is(uint32_t u1, uint32_t u2, uint32_t y1, uint32_t y2, uint32_t number, int32_t least, int32_t greatest)
{
    for (size_t after = 0; after <= 4; after++) {
        const size_t size = (BEFORE + SPAN + after) * sizeof(int32_t);
        int32_t *numbers = last_numbers(BEFORE + SPAN + after), *row = numbers + BEFORE, wanted[BEFORE + SPAN + 4];
        fill((uint8_t *)numbers, size);
        memcpy(wanted, numbers, size);
        const uint32_t got = vi_span(u1, u2, y1, y2, row, SPAN);
        check(got == number, "the number of a span", got, number);
        if (number == VI_ANSWERED) {
            check(row[VI_SPAN_LEAST] == least, "the least index", (unsigned long)row[VI_SPAN_LEAST], (unsigned long)least);
            check(row[VI_SPAN_GREATEST] == greatest, "the greatest index", (unsigned long)row[VI_SPAN_GREATEST], (unsigned long)greatest);
            wanted[BEFORE + VI_SPAN_LEAST] = least;
            wanted[BEFORE + VI_SPAN_GREATEST] = greatest;
        }
        check(memcmp(numbers, wanted, size) == 0, "the row of a span and the numbers beside it", 1, 0);
    }
}

static int32_t index_of(uint32_t u, uint32_t y)
{
    uint8_t record[VI_RECORD_SIZE];
    check(vi_pair(u, y, record, sizeof record) == VI_ANSWERED, "a pair inside", 1, VI_ANSWERED);
    return (int32_t)get32(record + VI_RECORD_INDEX);
}

/* what vi_pair gives over all y */
static void span_is_of_pairs(uint32_t u1, uint32_t u2, uint32_t y1, uint32_t y2)
{
    int32_t least = INT32_MAX, greatest = INT32_MIN;
    for (uint32_t y = y1; y <= y2; y++) {
        const int32_t low = index_of(u2, y), high = index_of(u1, y);
        least = low < least ? low : least;
        greatest = high > greatest ? high : greatest;
    }
    span_is(u1, u2, y1, y2, VI_ANSWERED, least, greatest);
}

static void named_spans(void)
{
    span_is(73300, 73300, 8860, 8860, VI_ANSWERED, 92, 92);
    span_is(72567, 74033, 8851, 8869, VI_ANSWERED, 91, 94);       /* by A */
    span_is(22602, 23058, 5045, 5055, VI_ANSWERED, 153, 160);     /* by B */
    span_is(28489, 28490, 5000, 5001, VI_ANSWERED, 100, 100);     /* by both */
    span_is(2172, 2172, 2000, 2134, VI_ANSWERED, 5000, 5012);     /* neither is at y1 or y2 */
    span_is(144936, 144936, 16776, 16776, VI_ANSWERED, 125, 125); /* near */
    span_is(144936, 144937, 16770, 16776, VI_ANSWERED, 124, 125);
    span_is(30000000, 30000000, 70000, 70000, VI_ANSWERED, -749, -749);
    span_is(30000000, 30000000, 69999, 70001, VI_ANSWERED, -750, -749);
    span_is(2001, 1000000000, 2000, 2000, VI_ANSWERED, -62499500, 6593);
    span_is_of_pairs(634102642, 634102642, 70000, 70137); /* the least is at 70,001 */
    span_is_of_pairs(49150590, 49150590, 69964, 70001);   /* the greatest is at 70,000 */
    span_is_of_pairs(1500000, 1700000, 69900, 70100);
    span_is_of_pairs(2201, 2201, 2000, 2200);
    span_is_of_pairs(2201, 1000000000, 2000, 2200);
    span_is_of_pairs(500001, 1000000000, 499800, 500000);
}

/* both sides of every limit */
static void span_edges(void)
{
    span_is(73301, 73300, 8860, 8860, VI_LOWER_ABOVE_UPPER, 0, 0);
    span_is(73300, 73300, 8861, 8860, VI_LOWER_ABOVE_UPPER, 0, 0);
    span_is_of_pairs(73300, 73300, 8860, 8860 + VI_SPAN_WIDEST);
    span_is(73300, 73300, 8860, 8861 + VI_SPAN_WIDEST, VI_LIMITS_TOO_WIDE, 0, 0);
    span_is(73300, 73300, 2000, 2000 + VI_SPAN_WIDEST + 65536, VI_LIMITS_TOO_WIDE, 0, 0);
    span_is(20000, 20000, 1999, 2001, VI_Y_BELOW_LEAST, 0, 0);
    span_is_of_pairs(20000, 20000, 2000, 2001);
    span_is_of_pairs(900000, 900000, 499999, 500000);
    span_is(900000, 900000, 500000, 500001, VI_Y_ABOVE_MOST, 0, 0);
    span_is_of_pairs(900000, 1000000000, 2000, 2000);
    span_is(900000, 1000000001, 2000, 2000, VI_U_ABOVE_MOST, 0, 0);
    span_is_of_pairs(2002, 2003, 2000, 2001);
    span_is(2001, 2003, 2000, 2001, VI_U_NOT_ABOVE_Y, 0, 0);
    /* several questions fail: the first gives its number */
    span_is(1, 0, 0, 600000, VI_LOWER_ABOVE_UPPER, 0, 0);
    span_is(0, UINT32_MAX, UINT32_MAX, 0, VI_LOWER_ABOVE_UPPER, 0, 0);
    span_is(0, UINT32_MAX, 0, UINT32_MAX, VI_LIMITS_TOO_WIDE, 0, 0);
    span_is(0, 1000000001, 1999, 500001, VI_LIMITS_TOO_WIDE, 0, 0);
    span_is(0, 1000000001, 1999, 2000, VI_Y_BELOW_LEAST, 0, 0);
    span_is(0, 1000000001, 500000, 500001, VI_Y_ABOVE_MOST, 0, 0);
    span_is(0, 1000000001, 2000, 2000, VI_U_ABOVE_MOST, 0, 0);
    span_is(UINT32_MAX, UINT32_MAX, UINT32_MAX, UINT32_MAX, VI_Y_ABOVE_MOST, 0, 0);
}

/* a row of any other count is left as it was, whatever is asked; one of no numbers may have no place */
static void span_row_counts(void)
{
    static const uint32_t asked[][4] = {{73300, 73300, 8860, 8860}, {73301, 73300, 8860, 8860}, {73300, 73300, 8860, 9061}, {73300, 73300, 1999, 2000},
                                        {73300, UINT32_MAX, 8860, 8860}, {0, 0, 8860, 8860}};
    int32_t as_before[MOST_NUMBERS];
    for (size_t count = 0; count <= MOST_NUMBERS; count++)
        for (size_t i = 0; i < sizeof asked / sizeof *asked && count != SPAN; i++) {
            int32_t *row = last_numbers(count);
            fill((uint8_t *)row, count * sizeof *row);
            memcpy(as_before, row, count * sizeof *row);
            const uint32_t got = vi_span(asked[i][0], asked[i][1], asked[i][2], asked[i][3], row, count);
            check(got == VI_SPAN_NOT_2, "a row that is not 2 numbers", got, VI_SPAN_NOT_2);
            check(memcmp(row, as_before, count * sizeof *row) == 0, "a row that is not 2 numbers is kept", 1, 0);
        }
    check(vi_span(73300, 73300, 8860, 8860, NULL, 0) == VI_SPAN_NOT_2, "no row of a span", 0, VI_SPAN_NOT_2);
}

/* ---- writings ---- */

enum { PAIR_NUMBERS = 2, MOST_ROW = PAIR_NUMBERS * VI_MOST_PAIRS, BEYOND_ROW = 4 };
static uint32_t numbers[MOST_ROW + BEYOND_ROW];

/* what the header promises of the sheet of n pairs */
static void put_sheet(uint8_t *sheet, const uint32_t *row, uint32_t n)
{
    memset(sheet, 0, VI_SHEET_SIZE(n));
    header(sheet, n, VI_HEADER_SIZE, VI_HEADER_SIZE + VI_PAIR_SIZE * n, VI_SHEET_SIZE(n));
    for (uint32_t i = 0; i < n; i++) {
        put32(sheet + VI_HEADER_SIZE + VI_PAIR_SIZE * i + VI_PAIR_U, row[PAIR_NUMBERS * i]);
        put32(sheet + VI_HEADER_SIZE + VI_PAIR_SIZE * i + VI_PAIR_Y, row[PAIR_NUMBERS * i + 1]);
    }
}

/* the call's number, at each alignment; the sheet of the row, or every byte as it was */
static void writing_is(const uint32_t *row, size_t count, size_t length, uint32_t number)
{
    for (unsigned step = 0; step < STEPS; step++) {
        const size_t size = GUARD + step + length + GUARD;
        uint8_t *buffer = room + GUARD + step;
        fill(room, size);
        memcpy(kept, room, size);
        const uint32_t got = vi_write_sheet(row, count, buffer, length);
        check(got == number, "the number of a writing", got, number);
        if (number == VI_WRITTEN)
            put_sheet(kept + GUARD + step, row, (uint32_t)(count / PAIR_NUMBERS));
        check(memcmp(room, kept, size) == 0, "the buffer of a writing and the bytes beside it", length, number);
    }
}

/* written, worked, and printed here as numbers */
static void named_writing(void)
{
    static const uint32_t oils[] = {73300, 8860, 22830, 5050, 20000, 1999}, methods[] = {VI_METHOD_A, VI_METHOD_B_SETTLED, VI_METHOD_REFUSED};
    static const uint32_t answers[] = {VI_ANSWERED, VI_ANSWERED, VI_Y_BELOW_LEAST}, indices[] = {92, 156, 0};
    uint8_t sheet[VI_SHEET_SIZE(3)];
    check(sizeof sheet == 88 && VI_SHEET_SIZE(0) == 16 && VI_SHEET_SIZE(1 + 1) == 64, "the sizes of sheets", sizeof sheet, 88);
    check(VI_SHEET_SIZE(VI_MOST_PAIRS) == 48016, "the size of the longest sheet", VI_SHEET_SIZE(VI_MOST_PAIRS), 48016);
    fill(sheet, sizeof sheet);
    check(vi_write_sheet(oils, 6, sheet, sizeof sheet) == VI_WRITTEN, "a written sheet", 1, VI_WRITTEN);
    check(vi_sheet(sheet, sizeof sheet) == VI_ACCEPTED, "a written sheet is accepted", 1, VI_ACCEPTED);
    for (size_t i = 0; i < 3; i++) {
        const uint8_t *pair = sheet + VI_HEADER_SIZE + VI_PAIR_SIZE * i, *record = sheet + get32(sheet + VI_HEADER_RESULTS) + VI_RECORD_SIZE * i;
        check(get32(pair + VI_PAIR_U) == oils[2 * i] && get32(pair + VI_PAIR_Y) == oils[2 * i + 1], "a pair read back", get32(pair), oils[2 * i]);
        check(record[VI_RECORD_NUMBER] == answers[i], "the number of a written pair", record[VI_RECORD_NUMBER], answers[i]);
        check(record[VI_RECORD_METHOD] == methods[i], "the method of a written pair", record[VI_RECORD_METHOD], methods[i]);
        check(get32(record + VI_RECORD_INDEX) == indices[i], "the index of a written pair", get32(record + VI_RECORD_INDEX), indices[i]);
    }
}

/* both sides of every question, and which of several that fail gives its number */
static void writing_edges(void)
{
    fill((uint8_t *)numbers, sizeof numbers);
    const size_t longest = VI_SHEET_SIZE(VI_MOST_PAIRS), pair = VI_PAIR_SIZE + VI_RECORD_SIZE;
    writing_is(numbers, MOST_ROW, longest, VI_WRITTEN);
    writing_is(numbers, MOST_ROW, longest - 1, VI_BUFFER_NOT_SHEET);
    writing_is(numbers, MOST_ROW, longest + 1, VI_BUFFER_NOT_SHEET);
    writing_is(numbers, MOST_ROW, longest - pair, VI_BUFFER_NOT_SHEET);
    writing_is(numbers, MOST_ROW, longest + pair, VI_BUFFER_NOT_SHEET);
    writing_is(numbers, MOST_ROW - 1, longest, VI_ROW_ODD);
    writing_is(numbers, MOST_ROW + 1, longest, VI_ROW_ODD);
    writing_is(numbers, MOST_ROW + 1, longest + pair / 2, VI_ROW_ODD);
    writing_is(numbers, MOST_ROW + 2, longest + pair, VI_ROW_TOO_LONG);
    writing_is(numbers, MOST_ROW + 2, longest, VI_ROW_TOO_LONG);
    writing_is(numbers, MOST_ROW + 3, longest + pair, VI_ROW_ODD);
    writing_is(numbers, MOST_ROW + 3, 0, VI_ROW_ODD);
    writing_is(numbers, MOST_ROW + 4, longest + 2 * pair, VI_ROW_TOO_LONG);
    for (size_t count = 0; count < 10; count++)
        for (size_t length = 0; length <= VI_SHEET_SIZE(5); length++) {
            const uint32_t sized = length == VI_SHEET_SIZE(count / 2) ? VI_WRITTEN : VI_BUFFER_NOT_SHEET;
            writing_is(numbers, count, length, count % 2 ? VI_ROW_ODD : sized);
        }
}

/* where a count or a length is 0, there may be no place */
static void writing_of_nothing(void)
{
    writing_is(NULL, 0, VI_SHEET_SIZE(0), VI_WRITTEN);
    writing_is(NULL, 0, VI_SHEET_SIZE(0) - 1, VI_BUFFER_NOT_SHEET);
    writing_is(NULL, 0, VI_SHEET_SIZE(1), VI_BUFFER_NOT_SHEET);
    check(vi_write_sheet(NULL, 0, NULL, 0) == VI_BUFFER_NOT_SHEET, "no row and no buffer", 0, VI_BUFFER_NOT_SHEET);
    check(vi_write_sheet(numbers, 1, NULL, 0) == VI_ROW_ODD, "half a pair and no buffer", 0, VI_ROW_ODD);
    check(vi_write_sheet(numbers, 2, NULL, 0) == VI_BUFFER_NOT_SHEET, "a pair and no buffer", 0, VI_BUFFER_NOT_SHEET);
    check(vi_write_sheet(numbers, MOST_ROW + 2, NULL, 0) == VI_ROW_TOO_LONG, "2,001 pairs and no buffer", 0, VI_ROW_TOO_LONG);
}

/* rows in memory that cannot be written, and that ends where they end */
static void rows_only_read(void)
{
    const size_t page = (size_t)sysconf(_SC_PAGESIZE), size = (sizeof numbers + page - 1) / page * page;
    uint8_t *memory = (uint8_t *)mmap(NULL, size + page, PROT_READ | PROT_WRITE, MAP_PRIVATE | MAP_ANONYMOUS, -1, 0);
    if (memory == MAP_FAILED || mprotect(memory + size, page, PROT_NONE) != 0)
        exit(2);
    fill(memory, size);
    check(mprotect(memory, size, PROT_READ) == 0, "memory that cannot be written", 1, 0);
    const uint32_t *end = (const uint32_t *)(const void *)(memory + size);
    for (size_t count = 0; count <= MOST_ROW; count += count < 20 ? 1 : 199)
        writing_is(end - count, count, VI_SHEET_SIZE(count / 2), count % 2 ? VI_ROW_ODD : VI_WRITTEN);
    munmap(memory, size + page);
}

/* any pairs, written over what was there; what is worked is the sheet where it stands */
static void written_and_worked(void)
{
    static const uint32_t counts[] = {0, 1, 2, 3, 17, 100, VI_MOST_PAIRS};
    for (size_t c = 0; c < sizeof counts / sizeof *counts; c++)
        for (unsigned step = 0; step < STEPS; step++) {
            const uint32_t n = counts[c];
            uint8_t *buffer = room + GUARD + step;
            for (uint32_t i = 0; i < n; i++)
                any_pair(i, &numbers[PAIR_NUMBERS * i], &numbers[PAIR_NUMBERS * i + 1]);
            fill(room, sizeof room);
            const uint32_t got = vi_write_sheet(numbers, PAIR_NUMBERS * (size_t)n, buffer, VI_SHEET_SIZE(n));
            check(got == VI_WRITTEN && get32(buffer + VI_HEADER_COUNT) == n, "a sheet to work", got, VI_WRITTEN);
            is_worked(buffer);
        }
}

/* the same bytes from the same list, whatever the buffer held; others where one bit of one number is another */
static void written_twice(void)
{
    uint8_t first[VI_SHEET_SIZE(3)], other[sizeof first];
    for (unsigned bit = 0; bit < 6 * 32; bit++) {
        fill((uint8_t *)numbers, 6 * sizeof *numbers);
        fill(first, sizeof first);
        fill(other, sizeof other);
        const uint32_t numbers_of_calls = vi_write_sheet(numbers, 6, first, sizeof first) + vi_write_sheet(numbers, 6, other, sizeof other);
        check(numbers_of_calls == VI_WRITTEN && memcmp(first, other, sizeof first) == 0, "two sheets of one list", bit, 0);
        numbers[bit / 32] ^= UINT32_C(1) << bit % 32;
        check(vi_write_sheet(numbers, 6, other, sizeof other) == VI_WRITTEN && memcmp(first, other, sizeof first) != 0, "a sheet of another list", bit, 1);
    }
}

int main(void)
{
    pair_edges();
    record_lengths();
    sheet_edges();
    shapes();
    order(2000, 2001, 3);
    order(5000, 20000, 11);
    order(70000, 70001, 1999);
    order(70001, 70002, 1999);
    order(500000, 500001, 400000);
    constants_at_40();
    constants_at_100();
    row_counts(vi_constant_40);
    row_counts(vi_constant_100);
    make_pages();
    tray_from_empty_to_full();
    tray_numbers();
    tray_stored();
    tray_keeps();
    tray_places_not_read();
    tray_sizes();
    damaged_trays();
    named_spans();
    span_edges();
    span_row_counts();
    named_writing();
    writing_edges();
    writing_of_nothing();
    rows_only_read();
    written_and_worked();
    written_twice();
    if (failures != 0) {
        printf("C calls: %u of %u checks failed\n", failures, checks);
        return 1;
    }
    printf("C calls: %u checks of the pairs, the sheets, the constants, the trays, the spans and the writings\n", checks);
    return 0;
}
