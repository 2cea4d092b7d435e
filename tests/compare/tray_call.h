/* One call with a tray: made through the library, and everything about it
   compared with tray.c; then the refresh of a screen, likewise. */
#ifndef TRAY_CALL_H
#define TRAY_CALL_H

#include "tray.h"

/* A tray that calls are made with, all zeros for an empty one. Its numbers are the
   library's too: they are compared after each call. */
struct tested {
    struct tray model;          /* by the request, unless damaged */
    uint32_t numbers[TRAY];     /* by the header */
    bool damaged;
    bool in_place;              /* lent where it was lent before */
    uint64_t put_in, taken_out;
};

enum kind { PUT, TAKE, SUMMARY };

/* In numbers, that of the record in bytes. */
struct sizes { size_t tray, record, pair, row; };
extern const struct sizes right_sizes;

struct call {
    enum kind kind;
    uint32_t number;
    uint32_t u, y;
    struct sizes sizes;
};

/* To be called once, before any call. */
void make_tray_rooms(void);
/* The next call lends the tray from another place, where it was in place too. */
void move_tray(void);

/* The call, and unless it is an answered summary one more that is. */
void make_call(struct tested *t, const struct call *c);
/* The same with the right sizes. */
void put(struct tested *t, uint32_t number, uint32_t u, uint32_t y);
void take(struct tested *t, uint32_t number);
void summary(struct tested *t);
/* The row that the last call left. */
const int64_t *last_row(void);

#endif
