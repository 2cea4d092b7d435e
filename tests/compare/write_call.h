/* One call that writes a sheet (change request #108), and all that is checked of it. */
#ifndef WRITE_CALL_H
#define WRITE_CALL_H

#include "compare.h"
#include "sheets.h"

enum {
    MOST_NUMBERS = 2 * COUNT_GREATEST,
    LONGEST_SHEET = HEADER + (PAIR + RECORD) * COUNT_GREATEST,
    PAST_16_BITS = 65536,
    /* what there is memory for: a few numbers more than 2,000 pairs have in 16 bits, and
       a buffer that is right if each number were a pair */
    LONGEST_ROW = PAST_16_BITS + MOST_NUMBERS + 2,
    LONGEST_BUFFER = HEADER + (PAIR + RECORD) * LONGEST_ROW + 1
};
/* What 32 bits cannot count any more, as numbers and as bytes. */
#define PAST_32_BITS (UINT64_C(1) << 32)

struct writing {
    const uint32_t *row;                /* "u then y" */
    size_t count, length;               /* of the row's numbers, of the buffer's bytes */
    size_t bare_numbers, bare_bytes;    /* the last ones, of which there are addresses alone */
};

/* What has to be met: of written sheets, of refused writings, and of two sheets
   written one after the other, how their lists differ. */
enum write_kind {
    NO_PAIRS, NO_ROW, ONE_PAIR, PAIRS_2000, NUMBER_0, NUMBER_2_31, NUMBER_GREATEST,
    PAIRS_2001, HALF_A_PAIR, A_BYTE_SHORT, A_BYTE_LONG, A_PAIR_SHORT, A_PAIR_LONG, NO_BUFFER, ROW_PAST_16,
    ROW_PAST_32, BUFFER_PAST_32,
    SAME_LIST, ONE_BIT, ONE_NUMBER, TWO_NUMBERS, ONE_PAIR_LESS
};

/* "16 + 24n bytes" */
uint64_t sheet_size(uint64_t n);

/* To be called once. */
void make_write_rooms(void);

/* Calls the library with these sizes and, before it writes, any bytes in the buffer.
   The number, which is checked, as is everything that has to stay. */
uint32_t call_writing(const struct writing *w);

/* The sheet that the last call has written. */
const uint8_t *written_sheet(void);

/* Of the last call, which has written: the list that is read from the sheet, each of
   its bytes, and both again when it has been worked where it stands. */
void check_written(const struct writing *w);

/* Ends the run unless there was each kind, each question that refuses alone and each
   two that refuse the same writing, each count with each size, each place of the
   buffer, and of the worked pairs each method and each number. */
void check_writings_met(void);

#endif
