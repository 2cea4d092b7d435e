/* Document 01's calculation, written again from its text for comparison.

   A pair is u and y in thousandths of a mm2/s; L, H and U are whole numbers of
   units of 10^-10 mm2/s. Procedure A is exact in whole numbers. Procedure B is
   decided by enclosures: long double with a wide margin first, MPFR where that
   does not decide, and a test by whole powers where two sides are equal. */
#ifndef OIL_H
#define OIL_H

#include <stdbool.h>
#include <stddef.h>
#include <stdint.h>

enum {
    Y_LEAST = 2000,             /* "y from 2,000 to 500,000" */
    Y_GREATEST = 500000,
    U_GREATEST = 1000000000,    /* "u from 0 to 1,000,000,000" */
    TABLE_END = 70000,          /* "y up to 70,000: the straight line" */
    ROWS = 311,
    Q = 16777216,               /* "Put Q = 16,777,216" */
    INDEX_AT_H = 100,
    INDEX_GREATEST = 10000,     /* "Every index is at most 10,000" */
    RECORD = 16                 /* "A result is 16 bytes" */
};
#define UNITS INT64_C(10000000) /* units in a thousandth of a mm2/s */

enum method { REFUSED = 0, BY_A = 1, B_SETTLED = 2, B_NEAR = 3 };

struct row { int32_t y, l, h; };
extern const struct row table[ROWS];

struct oil {
    uint32_t u, y;
    int64_t U, L, H;
};

struct record {
    uint8_t number, method, zero[2];
    int32_t index;
    uint32_t p, P;
};

/* The number of the first question that the pair fails, 0 if none. */
uint32_t question(uint32_t u, uint32_t y);

/* L and H of a y that passes the questions; rows stands for the table. */
void basis(const struct row *rows, uint32_t y, int64_t *l, int64_t *h);
struct oil oil_of(uint32_t u, uint32_t y);
bool below_h(const struct oil *o);

/* Procedure A: the index, exactly a half to the even number. */
int64_t index_a(const struct oil *o);

/* Procedure B in long double: Q*N, and the index as the standard writes it. */
long double qn_estimate(const struct oil *o);
long double index_b_estimate(const struct oil *o);

/* The sign of whole - Q*N, exact. */
int compare_with_qn(const struct oil *o, uint64_t whole);

/* The least whole number that is at least Q*log10(c(r)/10^7), and the greatest
   that is at most that, for r in hundredths; r from 9,900 to 1,000,100. */
int64_t power_ceiling(int64_t r);
int64_t power_floor(int64_t r);

/* Document 01's two claims. */
bool shows_at_least(const struct oil *o, int64_t r, uint32_t p);
bool shows_at_most(const struct oil *o, int64_t r, uint32_t P);

/* The sign of the exact index minus r hundredths, for an oil below H, by MPFR;
   0 only where the two are equal to 4,000 bits. */
int compare_index(const struct oil *o, int64_t r);
/* |exact index - half|, the half nearest to it, as a double for printing. */
double distance_to_half(const struct oil *o, int64_t *below);

struct record record_of_bytes(const uint8_t *bytes);
void bytes_of_record(const struct record *r, uint8_t *bytes);

/* What is wrong with the record as an answer to this pair, NULL if nothing. */
const char *fault(uint32_t u, uint32_t y, const uint8_t *bytes);

/* Answers of our own, for wrong libraries made on purpose: of an oil whose L and
   H are given, and of a pair with the table given. */
struct record own_record(const struct oil *o);
struct record own_answer(const struct row *rows, uint32_t u, uint32_t y);

/* The least and the greatest index that a right answer to the oil may have. They are
   two where the exact one is at most a hundredth below a half: near is then allowed. */
struct choice { int64_t lower, upper; };
struct choice index_choices(const struct oil *o);

#endif
