/* The sheets: a model of document 01's sheet operation, and buffers of every
   kind that are worked by the library and compared with it byte for byte. */
#include "compare.h"
#include "sheets.h"

#include <string.h>

/* ---- the model ---- */

uint32_t sheet_question(const uint8_t *s, uint64_t length)
{
    if (length < HEADER)
        return 11;
    uint64_t n = get(s + AT_COUNT), pairs = get(s + AT_PAIRS), results = get(s + AT_RESULTS);
    uint64_t total = get(s + AT_TOTAL);
    if (total != length)
        return 12;
    if (n > COUNT_GREATEST)
        return 13;
    if (pairs < HEADER || pairs + PAIR * n > total)
        return 14;
    if (results < HEADER || results + RECORD * n > total)
        return 15;
    bool apart = n == 0 || pairs + PAIR * n <= results || results + RECORD * n <= pairs;
    return apart ? 0 : 16;
}

void work_sheet(uint8_t *s)
{
    uint32_t n = get(s + AT_COUNT), pairs = get(s + AT_PAIRS), results = get(s + AT_RESULTS);
    for (uint32_t i = 0; i < n; i++) {
        uint32_t u = get(s + pairs + PAIR * i), y = get(s + pairs + PAIR * i + 4);
        struct record r = check_pair(u, y);
        bytes_of_record(&r, s + results + RECORD * i);
    }
}

/* ---- one sheet through the library ---- */

enum { BEFORE = 32 };           /* bytes in front of the sheet that must stay */

static void compare_bytes(const uint8_t *found, const uint8_t *wanted, size_t length, bool accepted)
{
    if (memcmp(found, wanted, length) == 0)
        return;
    if (!accepted)
        fail("a refused sheet changed", NULL);
    size_t i = 0;
    while (found[i] == wanted[i])
        i++;
    uint64_t pairs = get(wanted + AT_PAIRS), results = get(wanted + AT_RESULTS), n = get(wanted + AT_COUNT);
    if (i < results || i >= results + RECORD * n)
        fail("a byte outside the result block changed", NULL);
    uint64_t at = (i - results) / RECORD;
    now_pair(get(wanted + pairs + PAIR * at), get(wanted + pairs + PAIR * at + 4));
    fail("a record of the sheet is not what the pair call gives", found + results + RECORD * at);
}

enum { ROOM = 250000 };

static void check_sheet(const uint8_t *sheet, size_t length)
{
    static uint8_t model[ROOM];
    memcpy(model, sheet, length);
    uint32_t number = sheet_question(sheet, length);
    now_sheet(tally.sheets, sheet, length);
    if (number == 0)
        work_sheet(model);
    uint8_t *frame = last_bytes(BEFORE + length);
    memset(frame, 0x5a, BEFORE);
    memcpy(frame + BEFORE, sheet, length);
    now_sheet(tally.sheets, sheet, length);
    if (vi_sheet(frame + BEFORE, length) != number)
        fail("the sheet's number", NULL);
    for (int i = 0; i < BEFORE; i++)
        if (frame[i] != 0x5a)
            fail("a byte in front of the sheet changed", NULL);
    compare_bytes(frame + BEFORE, model, length, number == 0);
    tally.sheets++;
    tally.sheet_refused[number]++;
    tally.accepted += number == 0;
    tally.records += number == 0 ? get(sheet + AT_COUNT) : 0;
}

/* ---- sheets of every kind ---- */

enum { GAP_GREATEST = 66000 };  /* three gaps, 2,000 pairs and results fit in ROOM */
static uint8_t buffer[ROOM];

static void fill(size_t length)
{
    for (size_t i = 0; i < length; i++)
        buffer[i] = (uint8_t)random64();
}

static uint32_t pick_count(void)
{
    int64_t kind = random_in(0, 999);
    if (kind == 0)
        return (uint32_t)random_in(COUNT_GREATEST - 1, COUNT_GREATEST);
    if (kind < 10)
        return (uint32_t)random_in(50, 300);
    return (uint32_t)random_in(0, 8);
}

/* Most sheets hold pairs of one kind after another; in some all have one y, so
   that the records differ by u alone, and in some all pairs are the same. */
static void put_pairs(uint32_t at, uint32_t n)
{
    int64_t kind = random_in(0, 9);
    uint32_t u, y, y_kept = (uint32_t)random_in(Y_LEAST, Y_GREATEST);
    pick_pair(&u, &y);
    for (uint32_t i = 0; i < n; i++) {
        if (kind < 8)
            pick_pair(&u, &y);
        else if (kind == 8)
            u = (uint32_t)random_log(y = y_kept, U_GREATEST);
        put(buffer + at + PAIR * i, u);
        put(buffer + at + PAIR * i + 4, y);
    }
}

/* Other bytes before, between or after the blocks: mostly none or a few, now
   and then so many that offsets and total need more than 16 bits. */
static uint32_t pick_gap(void)
{
    int64_t kind = random_in(0, 299);
    if (kind == 0)
        return (uint32_t)random_in(0, GAP_GREATEST);
    return kind < 100 ? (uint32_t)random_in(0, 40) : 0;
}

/* A sheet that is accepted, in the buffer: either order, gaps, garbage. */
static size_t valid_sheet(void)
{
    uint32_t n = pick_count();
    uint32_t gap[3] = { pick_gap(), pick_gap(), pick_gap() };
    bool pairs_first = random_in(0, 1);
    uint32_t pairs, results, total;
    if (pairs_first) {
        pairs = HEADER + gap[0];
        results = pairs + PAIR * n + gap[1];
        total = results + RECORD * n + gap[2];
    } else {
        results = HEADER + gap[0];
        pairs = results + RECORD * n + gap[1];
        total = pairs + PAIR * n + gap[2];
    }
    fill(total);
    put(buffer + AT_COUNT, n);
    put(buffer + AT_PAIRS, pairs);
    put(buffer + AT_RESULTS, results);
    put(buffer + AT_TOTAL, total);
    put_pairs(pairs, n);
    return total;
}

/* A number near the edges of what the header's questions let pass. */
static uint32_t edge(size_t length)
{
    uint32_t n = get(buffer + AT_COUNT), pairs = get(buffer + AT_PAIRS), results = get(buffer + AT_RESULTS);
    const uint32_t at[] = { 0, 15, 16, 17, 2000, 2001, (uint32_t)length, (uint32_t)length - PAIR * n,
        (uint32_t)length - RECORD * n, pairs + PAIR * n, results + RECORD * n, pairs - RECORD * n,
        results - PAIR * n, pairs, results, 0x7fffffff, 0x80000000, 0xffffffff,
        (uint32_t)(0 - (uint64_t)PAIR * n), (uint32_t)(0 - (uint64_t)RECORD * n), (uint32_t)random64() };
    int64_t which = random_in(0, (int64_t)(sizeof at / sizeof *at) - 1);
    return at[which] + (uint32_t)random_in(-1, 1);
}

/* A valid sheet with one to three header fields changed, or cut or grown. */
static size_t damaged_sheet(void)
{
    size_t length = valid_sheet();
    int64_t times = random_in(1, 3);
    for (int64_t i = 0; i < times; i++) {
        /* The total is damaged more seldom: it would hide the other damage. */
        uint8_t *field = buffer + 4 * random_in(0, random_in(0, 5) == 0 ? 3 : 2);
        put(field, edge(length));
    }
    if (random_in(0, 7) == 0)
        length = (size_t)random_in(0, (int64_t)length + 20);
    if (random_in(0, 7) == 0 && length >= HEADER)
        put(buffer + AT_TOTAL, (uint32_t)length);
    return length;
}

static size_t random_sheet(void)
{
    size_t length = (size_t)random_in(0, 300);
    fill(length);
    return length;
}

/* A short buffer whose total is right and whose other fields are small. */
static size_t short_sheet(size_t length)
{
    fill(length);
    if (length < HEADER)
        return length;
    put(buffer + AT_COUNT, (uint32_t)random_in(0, 3));
    put(buffer + AT_PAIRS, (uint32_t)random_in(14, (int64_t)length + 2));
    put(buffer + AT_RESULTS, (uint32_t)random_in(14, (int64_t)length + 2));
    put(buffer + AT_TOTAL, (uint32_t)length);
    return length;
}

/* The empty sheets that document 01 names, held to the numbers it prints. */
static void printed_sheets(void)
{
    static const uint32_t printed[][3] = { { 16, 16, 0 }, { 17, 16, 14 }, { 16, 17, 15 } };
    for (size_t i = 0; i < 3; i++) {
        put(buffer + AT_COUNT, 0);
        put(buffer + AT_PAIRS, printed[i][0]);
        put(buffer + AT_RESULTS, printed[i][1]);
        put(buffer + AT_TOTAL, HEADER);
        if (sheet_question(buffer, HEADER) != printed[i][2])
            fail("the model against document 01", NULL);
        check_sheet(buffer, HEADER);
    }
}

/* Every length from 0 to 64, each many times. */
static void short_lengths(uint64_t wanted)
{
    uint64_t times = wanted / 500 + 2;
    for (size_t length = 0; length <= 64; length++)
        for (uint64_t i = 0; i < times; i++) {
            if (i % 4 == 0)
                fill(length);
            else
                short_sheet(length);
            check_sheet(buffer, length);
        }
}

void compare_sheets(uint64_t wanted)
{
    printed_sheets();
    short_lengths(wanted);
    while (tally.sheets < wanted) {
        int64_t kind = random_in(0, 9);
        size_t length = kind < 5 ? valid_sheet() : kind < 9 ? damaged_sheet() : random_sheet();
        check_sheet(buffer, length);
        progress("sheets", tally.sheets, wanted);
    }
}
