/* The cost of writing a sheet: vi_write_sheet beside plain C, on the same rows in one run.

   write time                  ns a pair and ratios, several repetitions
   write list                  the cases, each with the pairs of a pass
   write run WHAT CASE TIMES   one of them alone, for an instruction count: WHAT is bare, shifts, optimized, bytes, copy, call, work or both

   shifts     C as one writes it for any processor: a loop over the row that stores each number by four shifts, least significant first, and a loop of
              zeros. By gcc -O2, as all of this file; it makes one store of the four, and of the loop of zeros a call of memset.
   optimized  the same by gcc -O3
   bytes      the same with the four bytes of a number stored in a loop, which gcc -O2 leaves a loop
   copy       memcpy of the row and memset of the results, which is right only where the processor stores numbers least significant first
   call       vi_write_sheet
   work       vi_sheet alone, on the sheets that are written
   both       vi_write_sheet, then vi_sheet
   bare       a call that does nothing: what the loop of calls costs, which is in all of the others too

   All that write ask the same three questions and store the same header, pairs and zeros. Where the sheets stand in memory, beside the row and beside
   lines of the cache, decides up to a tenth of the time: each repetition has another place, the same for all. */
#include <math.h>
#include <stdint.h>
#include <stdio.h>
#include <stdlib.h>
#include <string.h>

#include "measure.h"
#include "plain.h"
#include "viscosity_index.h"

enum { PAIRS = VI_MOST_PAIRS, WRITES = 2000, WORKS = 60, STEPS = 4000, BEYOND = 4 };
enum { PAGE = 4096, APART = 464 }; /* nine places of multiples of 16, as malloc lends, all over a page */

static const struct situation {
    const char *name, *label;
    size_t size;  /* pairs of a sheet */
    size_t again; /* whether one sheet is written again and again; otherwise as many as the pairs fill, one behind the other */
    size_t past;  /* bytes past a multiple of 16 */
} situations[] = {
    {"1", "sheets of 1", 1, 0, 0},
    {"60", "sheets of 60", 60, 0, 0},
    {"60-again", "one sheet of 60 again and again", 60, 1, 0},
    {"2000", "a sheet of 2,000", PAIRS, 0, 0},
    {"2000-odd", "a sheet of 2,000 at an odd address", PAIRS, 0, 1},
};
enum { SITUATIONS = sizeof situations / sizeof *situations };

static _Alignas(PAGE) uint32_t row[2 * PAIRS];
static _Alignas(PAGE) uint8_t memory[PAIRS * VI_SHEET_SIZE(1) + PAGE + 1]; /* room for a sheet of each pair, or for fewer larger ones, at each place */
static uint8_t *sheets = memory;

/* ---- plain C */

LAID_OUT uint32_t questions(size_t count, size_t length)
{
    if (count % 2 != 0)
        return VI_ROW_ODD;
    if (count / 2 > VI_MOST_PAIRS)
        return VI_ROW_TOO_LONG;
    if (length != VI_SHEET_SIZE(count / 2))
        return VI_BUFFER_NOT_SHEET;
    return VI_WRITTEN;
}

LAID_OUT void put_by_shifts(uint8_t *at, uint32_t x)
{
    at[0] = (uint8_t)x;
    at[1] = (uint8_t)(x >> 8);
    at[2] = (uint8_t)(x >> 16);
    at[3] = (uint8_t)(x >> 24);
}

LAID_OUT void put_by_bytes(uint8_t *at, uint32_t x)
{
    for (int i = 0; i < 4; i++)
        at[i] = (uint8_t)(x >> (8 * i));
}

LAID_OUT void put_header(uint8_t *sheet, size_t count, size_t length)
{
    put_by_shifts(sheet + VI_HEADER_COUNT, (uint32_t)(count / 2));
    put_by_shifts(sheet + VI_HEADER_PAIRS, VI_HEADER_SIZE);
    put_by_shifts(sheet + VI_HEADER_RESULTS, (uint32_t)(VI_HEADER_SIZE + 4 * count));
    put_by_shifts(sheet + VI_HEADER_TOTAL, (uint32_t)length);
}

LAID_OUT uint32_t in_loops(void (*put)(uint8_t *at, uint32_t x), const uint32_t *numbers, size_t count, uint8_t *buffer, size_t length)
{
    uint32_t number = questions(count, length);
    if (number != VI_WRITTEN)
        return number;
    put_header(buffer, count, length);
    for (size_t i = 0; i < count; i++)
        put(buffer + VI_HEADER_SIZE + 4 * i, numbers[i]);
    for (size_t i = VI_HEADER_SIZE + 4 * count; i < length; i++)
        buffer[i] = 0;
    return VI_WRITTEN;
}

static CALLED uint32_t by_shifts(const uint32_t *numbers, size_t count, uint8_t *buffer, size_t length)
{
    return in_loops(put_by_shifts, numbers, count, buffer, length);
}

/* the machine code is that of a file compiled with -O3 */
static CALLED __attribute__((optimize("O3"))) uint32_t by_shifts_optimized(const uint32_t *numbers, size_t count, uint8_t *buffer, size_t length)
{
    return in_loops(put_by_shifts, numbers, count, buffer, length);
}

static CALLED uint32_t by_bytes(const uint32_t *numbers, size_t count, uint8_t *buffer, size_t length)
{
    return in_loops(put_by_bytes, numbers, count, buffer, length);
}

static CALLED uint32_t by_copy(const uint32_t *numbers, size_t count, uint8_t *buffer, size_t length)
{
    uint32_t number = questions(count, length);
    if (number != VI_WRITTEN)
        return number;
    put_header(buffer, count, length);
    memcpy(buffer + VI_HEADER_SIZE, numbers, 4 * count);
    memset(buffer + VI_HEADER_SIZE + 4 * count, 0, length - VI_HEADER_SIZE - 4 * count);
    return VI_WRITTEN;
}

/* ---- what else is measured */

static CALLED uint32_t nothing(const uint32_t *numbers, size_t count, uint8_t *buffer, size_t length)
{
    (void)numbers, (void)count, (void)buffer, (void)length;
    return VI_WRITTEN;
}

static CALLED uint32_t work(const uint32_t *numbers, size_t count, uint8_t *buffer, size_t length)
{
    (void)numbers, (void)count;
    return vi_sheet(buffer, length);
}

static CALLED uint32_t write_and_work(const uint32_t *numbers, size_t count, uint8_t *buffer, size_t length)
{
    uint32_t number = vi_write_sheet(numbers, count, buffer, length);
    return number != VI_WRITTEN ? number : vi_sheet(buffer, length);
}

enum { SHIFTS, OPTIMIZED, BYTES, COPY, CALL, WORK, BOTH, BARE, KINDS, PLAIN = CALL };

static const struct kind {
    const char *name, *label;
    uint32_t (*called)(const uint32_t *numbers, size_t count, uint8_t *buffer, size_t length);
    int passes;
} kinds[KINDS] = {
    [SHIFTS] = {"shifts", "plain C by shifts", by_shifts, WRITES},
    [OPTIMIZED] = {"optimized", "plain C by shifts, -O3", by_shifts_optimized, WRITES},
    [BYTES] = {"bytes", "plain C by bytes", by_bytes, WRITES},
    [COPY] = {"copy", "memcpy and memset", by_copy, WRITES},
    [CALL] = {"call", "vi_write_sheet", vi_write_sheet, WRITES},
    [WORK] = {"work", "vi_sheet", work, WORKS},
    [BOTH] = {"both", "vi_write_sheet, then vi_sheet", write_and_work, WORKS},
    [BARE] = {"bare", "a call that does nothing", nothing, WRITES},
};

static void fail(const char *what, const char *kind, const char *where, int step)
{
    fprintf(stderr, "write: %s: %s: %s %d\n", kind, what, where, step);
    exit(1);
}

/* ---- one pass over the pairs of a planner's mix; those that do not fill a sheet are left out */

static void draw(void)
{
    for (int i = 0; i < PAIRS; i++)
        draw_of_mix(&row[2 * i], &row[2 * i + 1]);
}

static void pass(const struct kind *k, const struct situation *s)
{
    size_t count = 2 * s->size, length = VI_SHEET_SIZE(s->size), next = !s->again;
    uint32_t refused = 0;
    for (size_t left = PAIRS / s->size, at = 0; left > 0; left--, at += next)
        refused |= k->called(row + count * at, count, sheets + length * at, length);
    if (refused)
        fail("a sheet is refused", k->name, s->name, 0);
}

static void place(const struct situation *s, int repetition)
{
    sheets = memory + APART * repetition % PAGE + s->past;
}

/* ---- the comparison */

static uint32_t below(double end)
{
    return (uint32_t)(end * random_unit());
}

/* Plain C answers any count and length as vi_write_sheet does, and leaves the same bytes, written or refused, in the buffer and behind it. */
static void compare(void)
{
    static uint32_t any[2 * (PAIRS + BEYOND)];
    static uint8_t ours[VI_SHEET_SIZE(PAIRS + BEYOND)], plain[sizeof ours];
    int answers[VI_BUFFER_NOT_SHEET + 1] = {0};
    for (int i = 0; i < STEPS; i++) {
        size_t count = i % 4 == 0 ? 2 * PAIRS - 2 + below(8) : below(i % 4 == 1 ? 2 * PAIRS : 9);
        size_t length = VI_SHEET_SIZE(count / 2);
        if (below(4) == 0)
            length = length + below(5) - 2;
        for (size_t j = 0; j < count; j++)
            any[j] = below(4294967296);
        memset(ours, 0xaa, sizeof ours);
        uint32_t answer = vi_write_sheet(any, count, ours, length);
        for (int k = 0; k < PLAIN; k++) {
            memset(plain, 0xaa, sizeof plain);
            if (kinds[k].called(any, count, plain, length) != answer || memcmp(plain, ours, sizeof ours) != 0)
                fail("vi_write_sheet differs", kinds[k].name, "step", i);
        }
        answers[answer]++;
    }
    printf("%d rows of any numbers, plain C and the library write the same: %d written, %d refused by 51, %d by 52, %d by 53\n", STEPS, answers[VI_WRITTEN],
        answers[VI_ROW_ODD], answers[VI_ROW_TOO_LONG], answers[VI_BUFFER_NOT_SHEET]);
}

/* The sheets that are timed are the same too. */
static void compare_sheets(const struct situation *s, int repetition)
{
    static uint8_t ours[sizeof memory];
    memset(memory, 0xaa, sizeof memory);
    pass(&kinds[CALL], s);
    memcpy(ours, memory, sizeof ours);
    for (int k = 0; k < PLAIN; k++) {
        memset(memory, 0xaa, sizeof memory);
        pass(&kinds[k], s);
        if (memcmp(memory, ours, sizeof ours) != 0)
            fail("vi_write_sheet differs", kinds[k].name, s->name, repetition);
    }
}

/* ---- measuring */

static double ns_a_pair(const struct kind *k, const struct situation *s)
{
    double start = now();
    for (int i = 0; i < k->passes; i++)
        pass(k, s);
    return (now() - start) / k->passes / (double)(PAIRS / s->size * s->size);
}

static void time_all(const struct situation *s)
{
    double ns[KINDS][REPEATS], to_plain[PLAIN][REPEATS], share[REPEATS];
    char label[64];
    for (int r = 0; r < REPEATS; r++) {
        place(s, r);
        compare_sheets(s, r);
        for (int k = 0; k < KINDS; k++)
            ns[k][r] = ns_a_pair(&kinds[k], s);
        for (int k = 0; k < PLAIN; k++)
            to_plain[k][r] = ns[CALL][r] / ns[k][r];
        share[r] = ns[CALL][r] / ns[BOTH][r];
    }
    printf("%s: ns a pair, median of %d repetitions (least to greatest)\n", s->label, REPEATS);
    for (int k = 0; k < KINDS; k++)
        report(kinds[k].label, ns[k]);
    for (int k = 0; k < PLAIN; k++) {
        snprintf(label, sizeof label, "call / %s", kinds[k].label);
        report(label, to_plain[k]);
    }
    report_to(3, "vi_write_sheet / both", share);
}

int main(int count, char **words)
{
    int timed = count == 2 && strcmp(words[1], "time") == 0, listed = count == 2 && strcmp(words[1], "list") == 0, known = 0;
    draw();
    if (timed)
        compare();
    for (int i = 0; i < SITUATIONS; i++) {
        const struct situation *s = &situations[i];
        if (timed)
            time_all(s);
        if (listed)
            printf("%s %zu\n", s->name, PAIRS / s->size * s->size);
        for (int k = 0; k < KINDS; k++) {
            if (count != 5 || strcmp(words[1], "run") != 0 || strcmp(words[2], kinds[k].name) != 0 || strcmp(words[3], s->name) != 0)
                continue;
            known = 1;
            place(s, 0);
            pass(&kinds[CALL], s);
            for (int t = atoi(words[4]); t > 0; t--)
                pass(&kinds[k], s);
        }
    }
    if (known || timed || listed)
        return 0;
    fprintf(stderr, "write time | write list | write run WHAT CASE TIMES\n");
    return 2;
}
