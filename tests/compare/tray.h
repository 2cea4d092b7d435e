/* The tray of change requests #102, #104 and #105, written again for comparison,
   twice.

   `struct tray` is the tray of the requests: the samples held and their numbers,
   from the least number to the greatest. It has no places and keeps no summary: its
   summary is a walk over the samples. The other is the tray of the library's header,
   521 numbers: 64 places, and the summary that is kept behind them. Any numbers are
   such a tray, so that it also says what becomes of a damaged one. Neither shares
   anything with the library. */
#ifndef TRAY_H
#define TRAY_H

#include "oil.h"

enum {
    ONE_BYTE = 256,             /* the numbers there were before #104 */
    HELD_GREATEST = 64,         /* "A tray holds up to 64 samples" */
    NUMBER_HELD = 31, TRAY_FULL = 32, NOT_HELD = 33,
    SAMPLE_PAIR = 2,            /* numbers: u and y */
    SUMMARY_ROW = 7             /* numbers, in the order of struct summary */
};

struct sample {
    uint32_t u, y;
    struct record r;
};

/* "the lowest and highest index, the sum of indices and the count for each of A,
   B settled and B near; an empty tray says so": by held, with zeros behind it. */
struct summary {
    int64_t held, lowest, highest, sum, a, settled, near;
};

bool same_summary(const struct summary *a, const struct summary *b);

/* ---- the requests' tray ---- */

/* "The tray takes numbers up to 4,294,967,295": all that 32 bits can be. */
struct tray {
    int count;
    uint32_t number[HELD_GREATEST];
    struct sample samples[HELD_GREATEST];
};

/* The number of the first question that the call fails, 0 if none. */
uint32_t put_question(const struct tray *t, uint32_t number, uint32_t u, uint32_t y);
uint32_t take_question(const struct tray *t, uint32_t number);

/* Of calls that pass their questions. */
void put_sample(struct tray *t, uint32_t number, const struct sample *s);
struct sample take_sample(struct tray *t, uint32_t number);
/* "what a walk over the held samples would give" */
struct summary summary_of(const struct tray *t);

/* ---- the header's tray ---- */

/* The kept summary stands behind the places. */
enum { PLACES = 64, PLACE = 8, KEPT = PLACES * PLACE, KEPT_SIZE = 9, TRAY = KEPT + KEPT_SIZE };
enum { AT_METHOD, AT_NUMBER, AT_U, AT_Y, AT_INDEX, AT_LOWER, AT_UPPER, AT_REST };
enum {
    KEPT_LOWEST = KEPT, KEPT_HIGHEST = KEPT + 2, KEPT_SUM = KEPT + 4,   /* of two numbers each */
    KEPT_A = KEPT + 6, KEPT_SETTLED, KEPT_NEAR
};

/* What is kept is found anew where it is beyond these, or a count is. */
#define INDEX_KEPT_LEAST INT64_C(-4294967297)
#define INDEX_KEPT_GREATEST INT64_C(4294967296)
#define SUM_KEPT_LEAST INT64_C(-281474976710657)
#define SUM_KEPT_GREATEST INT64_C(281474976710656)
enum { COUNT_KEPT_GREATEST = 65536 };

/* The same of the 521 numbers, whatever they are. */
uint32_t places_put_question(const uint32_t *numbers, uint32_t number, uint32_t u, uint32_t y);
uint32_t places_take_question(const uint32_t *numbers, uint32_t number);
void places_put(uint32_t *numbers, uint32_t number, const struct sample *s);
struct sample places_take(uint32_t *numbers, uint32_t number);
int places_held(const uint32_t *numbers);
/* By a walk over the places. */
struct summary places_summary(const uint32_t *numbers);

/* Of the nine numbers behind the places. Stored with none held they are zeros. */
struct summary kept_summary(const uint32_t *numbers);
void keep_summary(uint32_t *numbers, const struct summary *s);
int64_t kept_wide(const uint32_t *numbers, int at);
void keep_wide(uint32_t *numbers, int at, int64_t value);
bool kept_within(const struct summary *s);

/* The first place that holds this number, and the first that is free; PLACES if
   there is none. The index of a place that is not free. */
int first_with(const uint32_t *numbers, uint32_t number);
int first_free(const uint32_t *numbers);
int64_t index_at(const uint32_t *numbers, int place);

/* What is wrong with the numbers as a tray that holds just what t holds, in any
   places, and keeps its summary; NULL if nothing. */
const char *tray_fault(const struct tray *t, const uint32_t *numbers);

#endif
