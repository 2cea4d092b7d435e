/* Writers that are wrong on purpose (change request #108), put before the library as
   those of wrong.c are; -DWRONG=n chooses the fault. The comparison must notice each
   one. The last number is the writer that all faults start from; it is right and must
   pass. */
#include "library.h"

#include <stdbool.h>
#include <string.h>

uint32_t __wrap_vi_write_sheet(const uint32_t *row, size_t count, uint8_t *buffer, size_t length);

enum {
    /* the questions */
    LONG_BEFORE_ODD = 1, SIZE_BEFORE_ODD, SIZE_BEFORE_LONG, ODD_ANSWERED, ODD_TAKEN, PAIRS_2001_TAKEN,
    PAIRS_2000_REFUSED, NO_PAIRS_REFUSED, SHORTER_TAKEN, LONGER_TAKEN, ROW_16_BITS, ROW_32_BITS, SIZE_16_BITS,
    SIZE_32_BITS, NO_OIL_REFUSED,
    /* what a refused writing does */
    REFUSED_HEADER, REFUSED_LONGER_WRITTEN, REFUSED_CLEARED, READS_BEYOND_ODD, READS_FIRST,
    /* the header */
    NUMBERS_COUNTED, TOTAL_ONE_LESS, RESULTS_FIRST, PAIRS_AT_0, MOST_SIGNIFICANT_FIRST,
    /* the pairs */
    Y_FIRST, FIRST_FOR_ALL, LAST_LEFT_OUT, LAST_FIRST, EQUAL_ONCE, CUT_TO_31_BITS, CUT_AT_MOST_U,
    /* the results */
    RESULTS_LEFT, LAST_BYTE_LEFT, RESULTS_WORKED,
    /* memory */
    BYTE_BEFORE, BYTE_BEHIND, ALIGNED_ONLY, ROW_CLEARED, SHEET_BEFORE,
    /* right */
    OWN_WRITER
};

enum { HEADER = 16, PAIR = 8, RECORD = 16, PAIRS_GREATEST = 2000, U_GREATEST = 1000000000 };

/* ---- the questions ---- */

static bool is_odd(size_t count)
{
    return count % 2 != 0 && WRONG != ODD_TAKEN;
}

static bool is_long(size_t count)
{
    size_t most = WRONG == PAIRS_2001_TAKEN ? PAIRS_GREATEST + 1 : WRONG == PAIRS_2000_REFUSED ? PAIRS_GREATEST - 1
                                                                                              : PAIRS_GREATEST;
    return count / 2 > most;
}

static bool is_other_size(size_t count, size_t length)
{
    size_t size = HEADER + (PAIR + RECORD) * (count / 2);
    if ((WRONG == SHORTER_TAKEN && count > 0 && length + 1 == size) || (WRONG == LONGER_TAKEN && length == size + 1))
        return false;
    if (WRONG == SIZE_16_BITS)
        return (uint16_t)length != (uint16_t)size;
    if (WRONG == SIZE_32_BITS)
        return (uint32_t)length != (uint32_t)size;
    return length != size || (WRONG == NO_PAIRS_REFUSED && count == 0);
}

/* Some pair whose u no oil has. */
static bool has_no_oil(const uint32_t *row, size_t count)
{
    for (size_t i = 0; i < count; i += 2)
        if (row[i] > U_GREATEST)
            return true;
    return false;
}

static uint32_t wrong_number(const uint32_t *row, size_t count, size_t length)
{
    if (WRONG == LONG_BEFORE_ODD && is_long(count))
        return 52;
    if (WRONG == SIZE_BEFORE_ODD && is_other_size(count, length))
        return 53;
    if (is_odd(count))
        return 51;
    if (WRONG == SIZE_BEFORE_LONG && is_other_size(count, length))
        return 53;
    if (is_long(count))
        return 52;
    if (is_other_size(count, length))
        return 53;
    return WRONG == NO_OIL_REFUSED && has_no_oil(row, count) ? 53 : 0;
}

/* ---- the sheet ---- */

static void put(uint8_t *at, uint32_t x)
{
    for (int i = 0; i < 4; i++)
        at[i] = (uint8_t)(x >> 8 * (WRONG == MOST_SIGNIFICANT_FIRST ? 3 - i : i));
}

static uint32_t wrong_pair_number(uint32_t x)
{
    if (WRONG == CUT_TO_31_BITS)
        return x & 0x7fffffff;
    return WRONG == CUT_AT_MOST_U && x > U_GREATEST ? U_GREATEST + 1 : x;
}

static void put_pair(const uint32_t *row, size_t n, size_t i, uint8_t *at)
{
    size_t from = WRONG == FIRST_FOR_ALL ? 0 : WRONG == LAST_FIRST ? n - 1 - i : i;
    if (WRONG == LAST_LEFT_OUT && i + 1 == n)
        return;
    if (WRONG == EQUAL_ONCE && i > 0 && memcmp(row + 2 * i, row + 2 * i - 2, PAIR) == 0)
        return;
    put(at, wrong_pair_number(row[2 * from + (WRONG == Y_FIRST)]));
    put(at + 4, wrong_pair_number(row[2 * from + (WRONG != Y_FIRST)]));
}

static void put_header(uint8_t *s, size_t n, size_t pairs, size_t results)
{
    size_t total = HEADER + (PAIR + RECORD) * n;
    put(s, (uint32_t)(WRONG == NUMBERS_COUNTED ? 2 * n : n));
    put(s + 4, (uint32_t)(WRONG == PAIRS_AT_0 ? 0 : pairs));
    put(s + 8, (uint32_t)results);
    put(s + 12, (uint32_t)(WRONG == TOTAL_ONE_LESS ? total - 1 : total));
}

/* A record of the pair call in place of each. */
static void work(const uint32_t *row, size_t n, uint8_t *results)
{
    for (size_t i = 0; i < n; i++)
        vi_pair(row[2 * i], row[2 * i + 1], results + RECORD * i, RECORD);
}

/* The sheet written before takes the place of this one where both have one pair. */
static void exchange_with_before(uint8_t *s)
{
    static uint8_t before[HEADER + PAIR + RECORD];
    uint8_t now[sizeof before];
    memcpy(now, s, sizeof now);
    if (before[0] != 0)
        memcpy(s, before, sizeof before);
    memcpy(before, now, sizeof now);
}

static void write_sheet(const uint32_t *row, size_t n, uint8_t *s, size_t length)
{
    bool results_first = WRONG == RESULTS_FIRST;
    size_t pairs = results_first ? HEADER + RECORD * n : HEADER, results = results_first ? HEADER : HEADER + PAIR * n;
    size_t cleared = WRONG == RESULTS_LEFT ? 0 : RECORD * n - (WRONG == LAST_BYTE_LEFT && n > 0);
    if (results + cleared > length)
        cleared = length - results;
    put_header(s, n, pairs, results);
    for (size_t i = 0; i < n; i++)
        put_pair(row, n, i, s + pairs + PAIR * i);
    memset(s + results, 0, cleared);
    if (WRONG == RESULTS_WORKED)
        work(row, n, s + results);
    if (WRONG == SHEET_BEFORE && n == 1)
        exchange_with_before(s);
}

/* ---- the call ---- */

/* What a refused writing does all the same. */
static void refuse(const uint32_t *row, size_t count, uint8_t *buffer, size_t length, uint32_t number)
{
    size_t n = count / 2, size = HEADER + (PAIR + RECORD) * n;
    if (WRONG == REFUSED_HEADER && length >= HEADER)
        put_header(buffer, n, HEADER, HEADER + PAIR * n);
    if (WRONG == REFUSED_LONGER_WRITTEN && number == 53 && length == size + 1)
        write_sheet(row, n, buffer, length);
    if (WRONG == REFUSED_CLEARED && number == 53)
        memset(buffer, 0, length);
}

static void touch(const volatile uint32_t *number)
{
    (void)*number;
}

/* What is done beside the writing. */
static void also(const uint32_t *row, size_t count, uint8_t *buffer, size_t length)
{
    if (WRONG == BYTE_BEFORE)
        buffer[-1] = 0;
    if (WRONG == BYTE_BEHIND)
        buffer[length] = 0;
    if (WRONG == ROW_CLEARED)
        memset((uint32_t *)(uintptr_t)row, 0, count * sizeof *row);
}

uint32_t __wrap_vi_write_sheet(const uint32_t *row, size_t count, uint8_t *buffer, size_t length)
{
    if (WRONG == ROW_16_BITS || WRONG == ROW_32_BITS)
        count = WRONG == ROW_16_BITS ? (uint16_t)count : (uint32_t)count;
    if (WRONG == READS_FIRST || (WRONG == READS_BEYOND_ODD && count % 2 != 0))
        touch(row + (WRONG == READS_FIRST ? 0 : count));
    uint32_t number = wrong_number(row, count, length);
    if (number != 0) {
        refuse(row, count, buffer, length, number);
        return WRONG == ODD_ANSWERED && number == 51 ? 0 : number;
    }
    if (WRONG == ALIGNED_ONLY && (uintptr_t)buffer % sizeof(uint32_t) != 0)
        return 53;
    write_sheet(row, count / 2, buffer, length);
    also(row, count, buffer, length);
    return 0;
}
