/* The numbers of samples (change request #104): those that the calls of a list draw
   from, and lists of calls with numbers that a narrower comparison takes for each
   other. */
#ifndef TRAY_NUMBERS_H
#define TRAY_NUMBERS_H

#include "tray_call.h"

enum { SPREAD_GREATEST = 256 };

/* base + step * i in 32 bits, i below spread; of each the bits of the mask, or all
   of them mixed. No two of them are equal. */
struct numbers {
    uint32_t base, step, mask;
    bool mixed;
    int spread;
};

/* Numbers of one of several kinds. */
void pick_numbers(struct numbers *n);
/* i may be spread or more: then they begin again. */
uint32_t number_at(const struct numbers *n, int64_t i);

/* The lists whose numbers are named. */
void compare_numbers(void);

#endif
