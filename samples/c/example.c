/* Writes a sheet of three pairs, works it, and reads the results: a call each to write and to work. Compiles as C and as C++. */
#include "viscosity_index.h"

#include <stdio.h>

enum { PAIRS = 3, NUMBERS = 2 * PAIRS };

static uint32_t get32(const uint8_t *at)
{
    return at[0] | (uint32_t)at[1] << 8 | (uint32_t)at[2] << 16 | (uint32_t)at[3] << 24;
}

static void print_viscosity(uint32_t thousandths)
{
    printf("%u.%03u ", (unsigned)(thousandths / 1000), (unsigned)(thousandths % 1000));
}

int main(void)
{
    static const uint32_t oils[NUMBERS] = {73300, 8860, 22830, 5050, 20000, 1999}; /* u, then y, of each */
    static const char *const methods[] = {"refused", "A", "B", "B~"};
    uint8_t sheet[VI_SHEET_SIZE(PAIRS)];

    uint32_t number = vi_write_sheet(oils, NUMBERS, sheet, sizeof sheet);
    if (number != VI_WRITTEN) {
        printf("not written %u\n", (unsigned)number);
        return 1;
    }
    number = vi_sheet(sheet, sizeof sheet);
    if (number != VI_ACCEPTED) {
        printf("sheet refused %u\n", (unsigned)number);
        return 1;
    }
    const uint8_t *results = sheet + get32(sheet + VI_HEADER_RESULTS);
    printf("pairs %u\n", (unsigned)get32(sheet + VI_HEADER_COUNT));
    for (uint32_t i = 0; i < PAIRS; i++) {
        const uint8_t *record = results + i * VI_RECORD_SIZE;
        print_viscosity(oils[2 * i]);
        print_viscosity(oils[2 * i + 1]);
        const int refused = record[VI_RECORD_METHOD] == VI_METHOD_REFUSED;
        const int value = refused ? record[VI_RECORD_NUMBER] : (int32_t)get32(record + VI_RECORD_INDEX);
        printf("%s %d\n", methods[record[VI_RECORD_METHOD]], value);
    }
    return 0;
}
