/* The stack that each C call uses, measured: a block is filled, the stack pointer is set to a place in it, and the function is called from
   there. The bytes are counted from that place, where the stack pointer stands just before the call instruction, down to the lowest that was changed:
   the return address, every frame, and what is written below the stack pointer. Each call is made with two fills, so that no byte passes for
   unchanged because it was written with the fill. The most of many calls is printed. For x86-64. */
#include <stdio.h>
#include <stdlib.h>
#include <string.h>

#include "viscosity_index.h"

enum { BELOW = 64 * 1024, ABOVE = 1024, MOST = VI_MOST_PAIRS, DRAWN = 20000 };

static _Alignas(16) unsigned char block[BELOW + ABOVE];
static uint8_t record[VI_RECORD_SIZE], sheet[VI_SHEET_SIZE(MOST)];
static uint32_t pairs_row[2 * (MOST + 1)];
static int32_t row[3], span_row[VI_SPAN_SIZE];
static uint32_t tray[VI_TRAY_SIZE], before[VI_TRAY_SIZE], sample[VI_SAMPLE_PAIR_SIZE]; /* before each call the tray is `before` */
static int64_t summary[VI_SUMMARY_SIZE];
static long most_pair, most_sheet, most_40, most_100, most_put, most_take, most_summary, calls_pair, calls_sheet, calls_constant, calls_tray;
static long most_span, calls_span, most_write, calls_write;

/* refused pairs, a pair by A, B settled, B near, an index above the thresholds, y above Table 1 */
static const uint32_t named[][2] = {{20000, 1999}, {900000, 500001}, {1000000001, 2000}, {2000, 2000}, {73300, 8860}, {22830, 5050},
                                    {198274, 48398}, {69133, 49390}, {2001, 2000}, {500001, 500000}, {1400000, 150000}};
enum { NAMED = sizeof named / sizeof *named };

/* refused limits by every number, spans by A, by B and across H, across the end of Table 1, indices above the thresholds, and the widest limits of all */
static const uint32_t named_spans[][4] = {
    {73300, 73299, 8860, 8860},       {73300, 73300, 8861, 8860},     {73300, 73300, 8660, 8861},       {20000, 20000, 1999, 2000},
    {900000, 900000, 499900, 500001}, {20000, 1000000001, 2000, 2000}, {2100, 73300, 2000, 2100},       {73300, 73300, 8860, 8860},
    {73300, 73557, 8860, 9060},       {22830, 22910, 5050, 5250},     {60000, 60210, 8860, 9060},       {30000000, 30000000, 69900, 70100},
    {1400000, 1404900, 69801, 70001}, {69133, 69375, 49190, 49390},   {1400000, 1404900, 150000, 150200}, {500001, 501751, 499800, 500000},
    {2201, 2201, 2000, 2200},         {2201, 1000000000, 2000, 2200},
};
enum { NAMED_SPANS = sizeof named_spans / sizeof *named_spans };

static uint64_t address(const void *memory)
{
    return (uint64_t)(uintptr_t)memory;
}

/* Calls `function` with six arguments in registers, the stack pointer at block + BELOW. */
static void call_there(const void *function, const uint64_t *six)
{
    uint64_t answer, a = six[0], b = six[1], c = six[2], d = six[3];
    register uint64_t e __asm__("r8") = six[4];
    register uint64_t f __asm__("r9") = six[5];
    __asm__ volatile("mov %%rsp, %%rbx\n\t"
                     "mov %[top], %%rsp\n\t"
                     "call *%[function]\n\t"
                     "mov %%rbx, %%rsp"
                     : "=a"(answer), "+D"(a), "+S"(b), "+d"(c), "+c"(d), "+r"(e), "+r"(f)
                     : [top] "r"(block + BELOW), [function] "r"(function)
                     : "rbx", "r10", "r11", "xmm0", "xmm1", "xmm2", "xmm3", "xmm4", "xmm5", "xmm6", "xmm7", "xmm8", "xmm9",
                       "xmm10", "xmm11", "xmm12", "xmm13", "xmm14", "xmm15", "memory", "cc");
    (void)answer;
}

/* The bytes that one call uses. A seventh argument stands where the stack pointer does; it is the caller's, but the function may change it. */
static long used(const void *function, const uint64_t *six, const uint64_t *seventh)
{
    static const unsigned char fills[] = {0xA5, 0x5A};
    long most = 0;
    for (size_t i = 0; i < sizeof fills; i++) {
        long low = 0, high = BELOW;
        memset(block, fills[i], sizeof block);
        memcpy(tray, before, sizeof tray);
        if (seventh) {
            memcpy(block + BELOW, seventh, sizeof *seventh);
            high += sizeof *seventh;
        }
        call_there(function, six);
        while (low < BELOW && block[low] == fills[i])
            low++;
        while (high < BELOW + ABOVE && block[high] == fills[i])
            high++;
        if (low == 0 || high < BELOW + ABOVE) {
            printf("stack: FAILED, a call wrote past the block or above its caller's stack pointer\n");
            exit(1);
        }
        if (BELOW - low > most)
            most = BELOW - low;
    }
    return most;
}

static void pair(uint32_t u, uint32_t y, size_t length)
{
    long bytes = used((const void *)vi_pair, (uint64_t[6]){u, y, address(record), length}, NULL);
    if (bytes > most_pair)
        most_pair = bytes;
    calls_pair++;
}

/* A sheet of the pairs that stand in it already; its total says `total`. */
static void one_sheet(uint32_t pairs, uint32_t total)
{
    uint32_t header[] = {pairs, VI_HEADER_SIZE, VI_HEADER_SIZE + VI_PAIR_SIZE * pairs, total};
    uint32_t length = VI_SHEET_SIZE(pairs);
    memcpy(sheet, header, sizeof header);
    long bytes = used((const void *)vi_sheet, (uint64_t[6]){address(sheet), length}, NULL);
    if (bytes > most_sheet)
        most_sheet = bytes;
    calls_sheet++;
}

static void writing(size_t count, size_t length)
{
    long bytes = used((const void *)vi_write_sheet, (uint64_t[6]){address(pairs_row), count, address(sheet), length}, NULL);
    most_write = bytes > most_write ? bytes : most_write;
    calls_write++;
}

/* every count of pairs, in its size and refused by 51 and 53, and one pair more than the most, refused by 52 */
static void writings(void)
{
    for (size_t pairs = 0; pairs <= MOST; pairs++) {
        writing(2 * pairs, VI_SHEET_SIZE(pairs));
        writing(2 * pairs + 1, VI_SHEET_SIZE(pairs));
        writing(2 * pairs, VI_SHEET_SIZE(pairs) - 1);
    }
    writing(2 * (MOST + 1), sizeof sheet);
}

static void put(uint32_t place, uint32_t u, uint32_t y)
{
    memcpy(sheet + VI_HEADER_SIZE + VI_PAIR_SIZE * place, &u, sizeof u);
    memcpy(sheet + VI_HEADER_SIZE + VI_PAIR_SIZE * place + VI_PAIR_Y, &y, sizeof y);
}

static uint32_t drawn(uint32_t least, uint32_t most) /* from least to most */
{
    static uint64_t state = 88172645463325252ull;
    state ^= state << 13;
    state ^= state >> 7;
    state ^= state << 17;
    return least + (uint32_t)(state % (most - least + 1u));
}

static void constant(uint32_t viscosity, uint32_t density, size_t count)
{
    long at_40 = used((const void *)vi_constant_40, (uint64_t[6]){viscosity, density, address(row), count}, NULL);
    long at_100 = used((const void *)vi_constant_100, (uint64_t[6]){viscosity, density, address(row), count}, NULL);
    most_40 = at_40 > most_40 ? at_40 : most_40;
    most_100 = at_100 > most_100 ? at_100 : most_100;
    calls_constant += 2;
}

/* limits, refused ones, a row that is not three numbers, and constants of every size */
static void constants(void)
{
    static const uint32_t viscosities[] = {0, 800, 801, 1800, 5500, 5501, 6500, 500000, 500001, 1000000000, 1000000001, UINT32_MAX};
    static const uint32_t densities[] = {0, 4999, 5000, 8700, 15000, 15001, UINT32_MAX};
    for (size_t i = 0; i < sizeof viscosities / sizeof *viscosities; i++)
        for (size_t j = 0; j < sizeof densities / sizeof *densities; j++)
            constant(viscosities[i], densities[j], sizeof row / sizeof *row);
    constant(9500, 8700, 0);
    for (int i = 0; i < DRAWN; i++)
        constant(drawn(801, i % 2 == 0 ? 200000 : 1000000000), drawn(5000, 15000), sizeof row / sizeof *row);
}

/* The i-th pair that is drawn; none of them is refused. */
static void draw_pair(int i, uint32_t *u, uint32_t *y)
{
    *y = i % 2 == 0 ? drawn(VI_Y_LEAST, 70000) : drawn(VI_Y_LEAST, VI_Y_GREATEST);
    *u = drawn(*y + 1, (i % 3 + 1) * 8 * *y);
}

static void span(uint32_t u1, uint32_t u2, uint32_t y1, uint32_t y2, size_t count)
{
    long bytes = used((const void *)vi_span, (uint64_t[6]){u1, u2, y1, y2, address(span_row), count}, NULL);
    most_span = bytes > most_span ? bytes : most_span;
    calls_span++;
}

/* the named ones, a row that is not two numbers, spans of any width round drawn pairs, and the dearest: u1 just above y2 at the lowest y, where hardly any
   stretch of y is passed over */
static void spans(void)
{
    for (size_t i = 0; i < NAMED_SPANS; i++)
        span(named_spans[i][0], named_spans[i][1], named_spans[i][2], named_spans[i][3], VI_SPAN_SIZE);
    span(73300, 73557, 8860, 9060, 0);
    for (int i = 0; i < DRAWN; i++) {
        uint32_t u, y, width = i % 4 == 0 ? drawn(0, VI_SPAN_WIDEST) : VI_SPAN_WIDEST;
        draw_pair(i, &u, &y);
        y = y > VI_Y_GREATEST - width ? VI_Y_GREATEST - width : y;
        u = u > y + width ? u : y + width + 1;
        span(u, u + drawn(0, u / 200), y, y + width, VI_SPAN_SIZE);
    }
    for (uint32_t y = VI_Y_LEAST; y <= 2600; y++)
        for (uint32_t width = 0; width <= VI_SPAN_WIDEST; width += 50)
            span(y + width + 1, y + width + 1 + drawn(0, 10), y, y + width, VI_SPAN_SIZE);
}

/* A summary, a take and a put of the tray `before`, which stays as it is; `tray` is as the put leaves it. */
static void tray_calls(uint32_t number, uint32_t u, uint32_t y, size_t count, size_t length)
{
    uint64_t seventh = length;
    long of_summary = used((const void *)vi_tray_summary, (uint64_t[6]){address(tray), count, address(summary), VI_SUMMARY_SIZE}, NULL);
    long of_take = used((const void *)vi_tray_take, (uint64_t[6]){address(tray), count, number, address(sample), VI_SAMPLE_PAIR_SIZE, address(record)},
        &seventh);
    long of_put = used((const void *)vi_tray_put, (uint64_t[6]){address(tray), count, number, u, y, address(record)}, &seventh);
    most_summary = of_summary > most_summary ? of_summary : most_summary;
    most_take = of_take > most_take ? of_take : most_take;
    most_put = of_put > most_put ? of_put : most_put;
    calls_tray++;
}

/* the named pairs, under a number that is held and one that is not, and memories that have not their size */
static void tray_with_named(uint32_t held, uint32_t not_held)
{
    for (size_t i = 0; i < NAMED; i++) {
        tray_calls(held, named[i][0], named[i][1], VI_TRAY_SIZE, VI_RECORD_SIZE);
        tray_calls(not_held, named[i][0], named[i][1], VI_TRAY_SIZE, VI_RECORD_SIZE);
    }
    tray_calls(not_held, 73300, 8860, 0, VI_RECORD_SIZE);
    tray_calls(not_held, 73300, 8860, VI_TRAY_SIZE, 0);
}

enum { APART = 16843009 }; /* the numbers of samples, from 0 to 4,294,967,295 where i is from 0 to 255 */

static uint32_t wide(uint32_t i)
{
    return (uint32_t)APART * i;
}

/* a tray of any numbers; what it keeps is any too, or every other time so small that one sample more may be added */
static void draw_tray(int which)
{
    for (uint32_t j = 0; j < VI_TRAY_KEPT; j++)
        before[j] = j % VI_PLACE_SIZE == VI_PLACE_NUMBER ? wide(drawn(0, 300)) : drawn(0, j % VI_PLACE_SIZE == VI_PLACE_METHOD ? 4 : UINT32_MAX - 1);
    for (uint32_t j = 0; j < VI_KEPT_SIZE; j++)
        before[VI_TRAY_KEPT + j] = which % 2 == 0 ? drawn(0, UINT32_MAX - 1) : j < VI_KEPT_A && j % 2 == 1 ? 0 : drawn(0, 64);
}

/* from the empty tray to the full one, drawn samples that come and go, and trays of any numbers */
static void trays(void)
{
    for (uint32_t held = 0; held <= VI_TRAY_PLACES; held++) {
        if (held <= 1 || held >= VI_TRAY_PLACES - 1)
            tray_with_named(wide(held), wide(255));
        tray_calls(wide(held + 1), named[4 + held % 4][0], named[4 + held % 4][1], VI_TRAY_SIZE, VI_RECORD_SIZE);
        memcpy(before, tray, sizeof before);
    }
    for (int i = 0; i < DRAWN; i++) {
        uint32_t u, y;
        draw_pair(i, &u, &y);
        tray_calls(wide(drawn(0, 99)), u, y, VI_TRAY_SIZE, VI_RECORD_SIZE);
        vi_tray_take(tray, VI_TRAY_SIZE, wide(drawn(0, 199)), sample, VI_SAMPLE_PAIR_SIZE, record, VI_RECORD_SIZE);
        memcpy(before, tray, sizeof before);
    }
    for (int i = 0; i < 20; i++) {
        draw_tray(i);
        tray_with_named(wide(drawn(0, 127)), wide(drawn(128, 255)));
    }
}

int main(void)
{
    for (size_t i = 0; i < NAMED; i++) {
        pair(named[i][0], named[i][1], VI_RECORD_SIZE);
        put(0, named[i][0], named[i][1]);
        one_sheet(1, VI_SHEET_SIZE(1));
    }
    pair(73300, 8860, 0);
    for (int i = 0; i < DRAWN; i++) {
        uint32_t u, y;
        draw_pair(i, &u, &y);
        pair(u, y, VI_RECORD_SIZE);
        put((uint32_t)(i % MOST), u, y);
        if (i % MOST == MOST - 1) {
            one_sheet(MOST, sizeof sheet);
            one_sheet(60, VI_SHEET_SIZE(60));
        }
    }
    one_sheet(0, VI_HEADER_SIZE);
    one_sheet(1, 0);
    writings();
    constants();
    trays();
    spans();
    printf("stack: vi_pair %ld bytes, vi_sheet %ld bytes, the most of %ld and of %ld calls\n", most_pair, most_sheet, calls_pair, calls_sheet);
    printf("stack: vi_write_sheet %ld bytes, the most of %ld calls\n", most_write, calls_write);
    printf("stack: vi_constant_40 %ld bytes, vi_constant_100 %ld bytes, the most of %ld calls\n", most_40, most_100, calls_constant);
    printf("stack: vi_span %ld bytes, the most of %ld calls\n", most_span, calls_span);
    printf("stack: vi_tray_put %ld bytes, vi_tray_take %ld bytes, vi_tray_summary %ld bytes, the most of %ld calls of each\n", most_put, most_take,
        most_summary, calls_tray);
    return 0;
}
