/* The C calls, declared here again so that nothing of the library's own header is
   included: from document 01 and change requests #101, #107 and #108, and those of the
   tray (#102, #104 for the numbers of samples, #105 for the kept summary) from what the
   header says. How a tray is laid out the header alone says; tray.h has it again. */
#ifndef LIBRARY_H
#define LIBRARY_H

#include <stddef.h>
#include <stdint.h>

/* Fills the record as one result of a sheet and answers the pair's number, 0 if
   answered; 5, with the record untouched, unless length is 16. */
uint32_t vi_pair(uint32_t u, uint32_t y, uint8_t *record, size_t length);

/* Works the sheet. Answers 11 to 16 for a refused one, 0 for an accepted one. */
uint32_t vi_sheet(uint8_t *sheet, size_t length);

/* The viscosity-gravity constant by the viscosity at 40 and at 100 degrees.
   Answers 0 with the row k, lower and upper numerator; 21 or 22 if refused, 5
   unless count is 3, both with the row untouched. */
uint32_t vi_constant_40(uint32_t viscosity, uint32_t density, int32_t *row, size_t count);
uint32_t vi_constant_100(uint32_t viscosity, uint32_t density, int32_t *row, size_t count);

/* The span of the index, u from u1 to u2 and y from y1 to y2. Answers 0 with the row
   the least and the greatest index; 41, 42 or 1 to 4 if refused, 5 unless count is
   2, both with the row untouched. */
uint32_t vi_span(uint32_t u1, uint32_t u2, uint32_t y1, uint32_t y2, int32_t *row, size_t count);

/* Writes the sheet of a row of pairs, u then y. Answers 51 to 53 for a refused writing,
   with the buffer untouched, 0 for one that is made. */
uint32_t vi_write_sheet(const uint32_t *row, size_t count, uint8_t *buffer, size_t length);

/* A tray is 521 numbers. Put answers 0 with the record as vi_pair fills it; 1 to 4,
   31 or 32 if refused. Take answers 0 with u and y and the record; 33 if refused.
   The summary answers 0 with a row of seven. All answer 5 unless each count is the
   right one; a refused call leaves everything. */
uint32_t vi_tray_put(uint32_t *tray, size_t tray_count, uint32_t number, uint32_t u, uint32_t y,
    uint8_t *record, size_t length);
uint32_t vi_tray_take(uint32_t *tray, size_t tray_count, uint32_t number, uint32_t *pair, size_t pair_count,
    uint8_t *record, size_t length);
uint32_t vi_tray_summary(const uint32_t *tray, size_t tray_count, int64_t *row, size_t row_count);

#endif
