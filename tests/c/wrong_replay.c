/*
 * Trays that are wrong on purpose, put before the library by the linker's --wrap; -DWRONG=n chooses the fault. What tests/c/replay.c prints with each of
 * them must differ from the record.
 */
#include "viscosity_index.h"

#include <string.h>

uint32_t __real_vi_tray_put(uint32_t *tray, size_t tray_count, uint32_t number, uint32_t u, uint32_t y, uint8_t *record, size_t length);
uint32_t __wrap_vi_tray_put(uint32_t *tray, size_t tray_count, uint32_t number, uint32_t u, uint32_t y, uint8_t *record, size_t length);
uint32_t __real_vi_tray_take(uint32_t *tray, size_t tray_count, uint32_t number, uint32_t *pair, size_t pair_count, uint8_t *record, size_t length);
uint32_t __wrap_vi_tray_take(uint32_t *tray, size_t tray_count, uint32_t number, uint32_t *pair, size_t pair_count, uint8_t *record, size_t length);
uint32_t __real_vi_tray_summary(const uint32_t *tray, size_t tray_count, int64_t *row, size_t row_count);
uint32_t __wrap_vi_tray_summary(const uint32_t *tray, size_t tray_count, int64_t *row, size_t row_count);

enum {
    SEVEN_BITS = 1, NUMBER_0_NOT_HELD, NUMBER_255_NOT_HELD, FULL_AT_63, HELD_RECORD, TAKEN_AGAIN, REFUSED_PAIR, LENGTH_NOT_ASKED, SUM_32_BITS,
    REFUSED_STORED, BEHIND_RECORD
};

static uint32_t read_as(uint32_t number)
{
    return WRONG == SEVEN_BITS ? number % 128 : number;
}

uint32_t __wrap_vi_tray_put(uint32_t *tray, size_t tray_count, uint32_t number, uint32_t u, uint32_t y, uint8_t *record, size_t length)
{
    int64_t row[VI_SUMMARY_SIZE];
    const size_t lent = WRONG == LENGTH_NOT_ASKED && length > VI_RECORD_SIZE ? VI_RECORD_SIZE : length;
    const uint32_t answer = __real_vi_tray_put(tray, tray_count, read_as(number), u, y, record, lent);
    if (WRONG == HELD_RECORD && answer == VI_NUMBER_HELD)
        vi_pair(u, y, record, length);
    if (WRONG == BEHIND_RECORD && answer == VI_ANSWERED)
        record[length] = 0;
    if (WRONG == REFUSED_STORED && answer == VI_U_NOT_ABOVE_Y)
        __real_vi_tray_put(tray, tray_count, number, y + 1, y, record, length);
    if (WRONG != FULL_AT_63 || answer != VI_ANSWERED)
        return answer;
    __real_vi_tray_summary(tray, tray_count, row, VI_SUMMARY_SIZE);
    if (row[VI_SUMMARY_HELD] < VI_TRAY_PLACES)
        return answer;
    uint32_t pair[VI_SAMPLE_PAIR_SIZE];
    __real_vi_tray_take(tray, tray_count, number, pair, VI_SAMPLE_PAIR_SIZE, record, length);
    return VI_TRAY_FULL;
}

uint32_t __wrap_vi_tray_take(uint32_t *tray, size_t tray_count, uint32_t number, uint32_t *pair, size_t pair_count, uint8_t *record, size_t length)
{
    uint32_t before[VI_TRAY_SIZE];
    memcpy(before, tray, sizeof before);
    if ((WRONG == NUMBER_0_NOT_HELD && number == 0) || (WRONG == NUMBER_255_NOT_HELD && number == 255))
        return VI_NUMBER_NOT_HELD;
    const uint32_t answer = __real_vi_tray_take(tray, tray_count, read_as(number), pair, pair_count, record, length);
    if (WRONG == REFUSED_PAIR && answer == VI_NUMBER_NOT_HELD)
        memset(pair, 0, VI_SAMPLE_PAIR_SIZE * sizeof *pair);
    if (WRONG == TAKEN_AGAIN && answer == VI_ANSWERED)
        memcpy(tray, before, sizeof before);
    return answer;
}

uint32_t __wrap_vi_tray_summary(const uint32_t *tray, size_t tray_count, int64_t *row, size_t row_count)
{
    const uint32_t answer = __real_vi_tray_summary(tray, tray_count, row, row_count);
    if (WRONG == SUM_32_BITS && answer == VI_ANSWERED)
        row[VI_SUMMARY_SUM] = (int32_t)(uint32_t)row[VI_SUMMARY_SUM];
    return answer;
}
