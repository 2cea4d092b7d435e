/* Memory as it is lent to a call: a part of a room, with bytes beside it that must
   stay. A touch outside the room is a fault, on either side. */
#ifndef LENT_H
#define LENT_H

#include <stddef.h>
#include <stdint.h>

struct lent {
    const char *name;
    uint8_t *room, *bytes, *from;       /* from: where the bytes beside begin */
    size_t room_size, size, length;     /* of the bytes, and with those beside */
    uint8_t *wanted;                    /* what must be there after the call */
};

/* To be called once for each: a room to lend up to so many bytes of. Behind it there
   are at least so many addresses without memory, where a touch is a fault as well. */
void make_room(struct lent *m, const char *name, size_t most, size_t behind);

/* Lends size bytes at one of the room's ends or at a step between them, and fills
   them and the bytes beside with random ones. */
void lend(struct lent *m, size_t size, size_t step);
/* The same at the room's end: what is lent may go on behind it. */
void lend_last(struct lent *m, size_t size);

/* Where it is; of no bytes there may be no place. */
void *lent_place(const struct lent *m);

/* What the caller puts into it before the call, and what must be in it after. */
void put_lent(struct lent *m, const void *bytes, size_t size);
void want_lent(struct lent *m, const void *bytes, size_t size);

/* What is there now must stay, where the same memory is lent again. */
void keep_lent(struct lent *m);

/* From the first on a write to the room is a fault, until the second. */
void lock_lent(const struct lent *m);
void unlock_lent(const struct lent *m);

/* Ends the run where a byte beside has changed; where one inside has, with what
   as the reason. */
void check_beside(const struct lent *m);
void check_lent(const struct lent *m, const char *what);

#endif
