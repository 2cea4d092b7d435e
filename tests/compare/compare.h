/* What the parts of the comparison share. */
#ifndef COMPARE_H
#define COMPARE_H

#include "constant.h"
#include "library.h"
#include "oil.h"

/* "first asks whether the record is just 16 bytes (no: 5)"; likewise a row of
   another count than 3 or, of a span, 2, and any memory lent to a call with a tray */
enum { WRONG_LENGTH = 5 };

/* To be called once, before anything else: one seed for all random numbers, so
   that a failure can be repeated. */
void begin(uint64_t seed);
/* Random numbers of a part's own: what the parts before it have drawn does not
   change them. */
void begin_part(uint64_t part);
uint64_t random64(void);
/* A whole number from low to high, both included. */
int64_t random_in(int64_t low, int64_t high);
/* The same, but each power of two as likely as the next. */
int64_t random_log(int64_t low, int64_t high);

/* Between which u and y of an oil are known. */
struct limits { uint32_t u1, u2, y1, y2; };

/* What is being called, for the line that a failure prints. */
void now_pair(uint32_t u, uint32_t y);
void now_sheet(uint64_t which, const uint8_t *bytes, size_t length);
void now_constant(int degrees, uint32_t viscosity, uint32_t density, const int32_t *row);
void now_tray(const char *call, uint32_t number, int held, uint64_t list);
void now_span(const struct limits *s, const int32_t *row);
void now_writing(const uint32_t *row, size_t count, size_t length);
_Noreturn void fail(const char *what, const uint8_t *record);
void progress(const char *name, uint64_t done, uint64_t of);

/* Bytes that end where the memory ends: one past them is a fault. */
uint8_t *last_bytes(size_t length);
int32_t *last_numbers(size_t count);

/* The questions to a span, and the kinds of answered spans that have to be met. */
enum { SPAN_QUESTIONS = 6, SPAN_KINDS = 20 };
/* Likewise of writings, and for each count of numbers up to two more than 2,000 pairs
   have: the right size of the buffer, a byte short and a byte long. */
enum { WRITE_QUESTIONS = 3, WRITE_KINDS = 22, SWEPT_COUNTS = 4003, SWEPT_SIZES = 3, ALIGNMENTS = 16 };

struct tally {
    uint64_t pairs, refused[5], a, settled, near, sheets, accepted, sheet_refused[17], records;
    int64_t index_least, index_greatest;
    uint32_t widest;            /* the greatest P - p */
    uint64_t constants, at_40, constant_refused[24], k_below_zero, log_below_zero;
    int64_t k_least, k_greatest, widest_row;    /* the last: upper - lower */
    uint64_t tray_calls, tray_lists, damaged_calls, stored, tray_refused[34], taken_out;
    uint64_t put_in[4];                         /* by method */
    uint64_t summaries, summaries_at[65];       /* the latter: by samples held */
    /* a pair refused with its number held, with 64 held; 31 with 64 held */
    uint64_t pair_before_held, pair_before_full, held_before_full;
    int64_t sum_least, sum_greatest;
    /* by the numbers of samples: 0, 4,294,967,295, above 255, above 65,535, above
       2,147,483,647; not held, though one that is held has the same lowest bytes,
       so many of them */
    uint64_t number_0, number_greatest, above_one_byte, above_two_bytes, above_31_bits, alike[4];
    /* of kept summaries: summaries beside the list's own, one after each call; of
       undamaged trays the samples that left: the last, one between the lowest and the
       highest, one of these where no other or where another has its index; of damaged
       ones: answers that are not the walk's, and puts and takes where what is kept is
       beyond all bounds, or within them and not the walk's; calls with 512 numbers */
    uint64_t refreshes, last_left, between_left, lowest_left[2], highest_left[2];
    uint64_t not_the_walk, kept_beyond, kept_otherwise, before_105;
    /* of spans: by the number answered; by the question, a thousandth beyond its limit;
       by two questions that refuse them both; answered ones by kind; pairs asked */
    uint64_t spans, span_refused[43], just_beyond[SPAN_QUESTIONS], both_refuse[SPAN_QUESTIONS][SPAN_QUESTIONS];
    uint64_t of_kind[SPAN_KINDS], inside;
    int64_t span_least, span_greatest;
    /* of writings: by the number answered; by the only question that refuses, by each
       two that do; by kind; by count, each with its sizes; by the alignment of the
       written buffer; pairs of written sheets that are worked, by method and by number */
    uint64_t writes, write_refused[54], alone_refuses[WRITE_QUESTIONS], two_refuse[WRITE_QUESTIONS * WRITE_QUESTIONS];
    uint64_t of_write_kind[WRITE_KINDS], swept[SWEPT_COUNTS * SWEPT_SIZES], written_at[ALIGNMENTS];
    uint64_t worked_by[4], worked_refused[5];
};
extern struct tally tally;

/* Calls the library for one pair and checks everything about the answer. */
struct record check_pair(uint32_t u, uint32_t y);
/* A pair of one of many kinds, refused ones among them. */
void pick_pair(uint32_t *u, uint32_t *y);
/* An oil such as benches see: y to 100 mm2/s, index from 0 to 250. */
void pick_oil(uint32_t *u, uint32_t *y);
/* The u at or below the place where procedure B passes k + 1/2. */
int64_t half_by_b(const struct oil *o, int64_t k);

void compare_pairs(uint64_t wanted);
/* The pairs on, beside and above one row; those of the quadratics, every
   step-th y. Both are parts of compare_pairs. */
void compare_row(int row);
void compare_heavy(uint32_t step);
void compare_sheets(uint64_t wanted);
/* Of the named ones, the first by_powers by whole powers too. */
void compare_constants(uint64_t wanted, uint64_t by_powers);
/* Those beside the places where k changes, every step-th of each density; a part
   of compare_constants. */
void compare_formula(const struct formula *f, int64_t step);
/* So many calls with trays, in lists. */
void compare_trays(uint64_t wanted);
/* So many spans, the same ones whatever the other parts ask. */
void compare_spans(uint64_t wanted);
/* What the kinds of spans are called. */
extern const char *const span_kinds[SPAN_KINDS];
/* So many calls that write a sheet, likewise; of none asked for, none is made. */
void compare_writes(uint64_t wanted);
extern const char *const write_kinds[WRITE_KINDS];

#endif
