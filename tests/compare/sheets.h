/* A sheet as document 01 lays it out, and the model of its operation. */
#ifndef SHEETS_H
#define SHEETS_H

#include <stdint.h>

enum { HEADER = 16, PAIR = 8, COUNT_GREATEST = 2000 };
enum { AT_COUNT = 0, AT_PAIRS = 4, AT_RESULTS = 8, AT_TOTAL = 12 };

static inline uint32_t get(const uint8_t *b)
{
    return (uint32_t)b[0] + 256u * b[1] + 65536u * b[2] + 16777216u * b[3];
}

static inline void put(uint8_t *b, uint32_t v)
{
    b[0] = v % 256;
    b[1] = v / 256 % 256;
    b[2] = v / 65536 % 256;
    b[3] = (uint8_t)(v / 16777216);
}

/* The number of the first question that the sheet fails, 0 if none. */
uint32_t sheet_question(const uint8_t *s, uint64_t length);

/* The accepted sheet as it must be after the call: s is changed to it. The records
   are those of the pair call, each of them checked. */
void work_sheet(uint8_t *s);

#endif
