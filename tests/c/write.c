/*
 * Writes the sheet of a row: numbers of 32 bits from standard input, u then y of each pair, least significant byte first, and the sheet to standard
 * output. Of a refused writing there is no sheet, and its number is the exit code. Rows of up to 2,000 pairs, for tests/printer.py.
 */
#include "viscosity_index.h"

#include <stdio.h>
#include <string.h>

enum { MOST_NUMBERS = 2 * VI_MOST_PAIRS, NUMBER_SIZE = 4, OLD_BYTE = 0xA5 };

int main(void)
{
    static uint8_t bytes[NUMBER_SIZE * MOST_NUMBERS], sheet[VI_SHEET_SIZE(VI_MOST_PAIRS)];
    static uint32_t row[MOST_NUMBERS];
    const size_t count = fread(bytes, NUMBER_SIZE, MOST_NUMBERS, stdin), length = VI_SHEET_SIZE(count / 2);
    for (size_t i = 0; i < count; i++) {
        const uint8_t *at = bytes + NUMBER_SIZE * i;
        row[i] = at[0] | (uint32_t)at[1] << 8 | (uint32_t)at[2] << 16 | (uint32_t)at[3] << 24;
    }
    memset(sheet, OLD_BYTE, sizeof sheet);
    const uint32_t number = vi_write_sheet(row, count, sheet, length);
    if (number != VI_WRITTEN)
        return (int)number;
    return fwrite(sheet, 1, length, stdout) == length && fflush(stdout) == 0 ? 0 : 1;
}
