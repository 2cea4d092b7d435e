/* Spans that are wrong on purpose (change request #107), put before the library as
   those of wrong.c are; -DWRONG=n chooses the fault. The comparison must notice each
   one. The last number is the walk over the pair calls that all faults start from; it
   is right and must pass. */
#include "library.h"
#include "oil.h"

#include <string.h>

uint32_t __real_vi_span(uint32_t u1, uint32_t u2, uint32_t y1, uint32_t y2, int32_t *row, size_t count);
uint32_t __wrap_vi_span(uint32_t u1, uint32_t u2, uint32_t y1, uint32_t y2, int32_t *row, size_t count);

enum {
    /* which pairs are looked at */
    LEAST_AT_U1 = 1, GREATEST_AT_U2, MIDDLE_U, ENDS, ENDS_ACROSS_70, ENDS_OF_PARTS, ENDS_AND_MIDDLE, LAST_LEFT_OUT,
    FIRST_LEFT_OUT, EVERY_SECOND, FIRST_HALF,
    /* the questions */
    REFUSED_AT_200, ANSWERED_AT_201, WIDTH_FIRST, WIDTH_AFTER_1, WIDTH_8_BITS, WIDTH_16_BITS, ORDER_OF_U_ONLY,
    ORDER_OF_Y_ONLY, ORDER_WITH_SIGN, U2_AGAINST_Y2, U1_AGAINST_Y1, Y2_AT_LEAST, Y1_AT_MOST, U1_AT_MOST,
    /* the row */
    EXCHANGED, LEFT_AS_FOUND, REFUSED_CHANGED, BESIDE_ROW, COUNT_NOT_ASKED, LONGER_ROW, SPAN_BEFORE,
    /* the indices */
    A_IN_16_BITS, B_IN_8_BITS, WITHOUT_SIGN, NEAR_ONE_LOWER, NEAR_UNLIKE_PAIR, QUADRATIC_AT_70,
    /* right */
    BY_WALK
};

enum { SPAN_ROW = 2, WIDEST = 200 };

struct limits { uint32_t u1, u2, y1, y2; };

/* ---- the indices ---- */

/* Near wherever that is allowed: a hundredth below a half the pair is settled. */
static int32_t index_if_near(uint32_t u, uint32_t y)
{
    struct oil o = oil_of(u, y);
    return (int32_t)index_choices(&o).upper;
}

static int32_t index_by_quadratics(uint32_t u, uint32_t y)
{
    struct oil o = oil_of(u, y);
    o.L = 8353 * (int64_t)y * y + 146700000 * (int64_t)y - INT64_C(2160000000000);
    o.H = 1684 * (int64_t)y * y + 118500000 * (int64_t)y - INT64_C(970000000000);
    return own_record(&o).index;
}

static int32_t index_at(uint32_t u, uint32_t y)
{
    uint8_t record[RECORD];
    vi_pair(u, y, record, RECORD);
    struct record r = record_of_bytes(record);
    switch (WRONG) {
    case A_IN_16_BITS:
        return r.method == BY_A ? (int16_t)r.index : r.index;
    case B_IN_8_BITS:
        return r.method == BY_A ? r.index : (uint8_t)r.index;
    case WITHOUT_SIGN:
        return r.index < 0 ? -r.index : r.index;
    case NEAR_ONE_LOWER:
        return r.method == B_NEAR ? r.index - 1 : r.index;
    case NEAR_UNLIKE_PAIR:
        return index_if_near(u, y);
    case QUADRATIC_AT_70:
        return y == TABLE_END ? index_by_quadratics(u, y) : r.index;
    default:
        return r.index;
    }
}

/* ---- the pairs looked at ---- */

static bool is_looked_at(const struct limits *s, uint32_t y, bool least)
{
    bool end = y == s->y1 || y == s->y2;
    switch (WRONG) {
    case ENDS:
        return end;
    case ENDS_ACROSS_70:
        return end || s->y2 <= TABLE_END || s->y1 > TABLE_END;
    case ENDS_OF_PARTS:
        return end || y == TABLE_END || y == TABLE_END + 1;
    case ENDS_AND_MIDDLE:
        return end || y == s->y1 + (s->y2 - s->y1) / 2;
    case LAST_LEFT_OUT:
        return y != s->y2 || s->y1 == s->y2;
    case FIRST_LEFT_OUT:
        return y != s->y1 || s->y1 == s->y2;
    case EVERY_SECOND:
        return (y - s->y1) % 2 == 0;
    case FIRST_HALF:
        return !least || y <= s->y1 + (s->y2 - s->y1) / 2;
    default:
        return true;
    }
}

/* The least index at this u, or the greatest. */
static int32_t over_y(const struct limits *s, uint32_t u, bool least)
{
    int32_t found = least ? INT32_MAX : INT32_MIN;
    for (uint32_t y = s->y1; y <= s->y2; y++) {
        int32_t index = index_at(u, y);
        if ((least ? index < found : index > found) && is_looked_at(s, y, least))
            found = index;
    }
    return found;
}

static uint32_t u_of(const struct limits *s, bool least)
{
    if (WRONG == MIDDLE_U)
        return s->u1 + (s->u2 - s->u1) / 2;
    if (least)
        return WRONG == LEAST_AT_U1 ? s->u1 : s->u2;
    return WRONG == GREATEST_AT_U2 ? s->u2 : s->u1;
}

/* ---- the questions ---- */

static bool in_order(uint32_t lower, uint32_t upper)
{
    return WRONG == ORDER_WITH_SIGN ? (int32_t)lower <= (int32_t)upper : lower <= upper;
}

static bool is_too_wide(const struct limits *s)
{
    uint32_t apart = s->y2 - s->y1;
    apart = WRONG == WIDTH_8_BITS ? (uint8_t)apart : WRONG == WIDTH_16_BITS ? (uint16_t)apart : apart;
    return apart > (WRONG == REFUSED_AT_200 ? WIDEST - 1 : WRONG == ANSWERED_AT_201 ? WIDEST + 1 : WIDEST);
}

static uint32_t wrong_number(const struct limits *s)
{
    bool u_in_order = WRONG == ORDER_OF_Y_ONLY || in_order(s->u1, s->u2);
    bool y_in_order = WRONG == ORDER_OF_U_ONLY || in_order(s->y1, s->y2);
    if (WRONG == WIDTH_FIRST && is_too_wide(s))
        return 42;
    if (!u_in_order || !y_in_order)
        return 41;
    if (is_too_wide(s) && !(WRONG == WIDTH_AFTER_1 && s->y1 < Y_LEAST))
        return 42;
    if ((WRONG == Y2_AT_LEAST ? s->y2 : s->y1) < Y_LEAST)
        return 1;
    if ((WRONG == Y1_AT_MOST ? s->y1 : s->y2) > Y_GREATEST)
        return 2;
    if ((WRONG == U1_AT_MOST ? s->u1 : s->u2) > U_GREATEST)
        return 3;
    return (WRONG == U2_AGAINST_Y2 ? s->u2 : s->u1) <= (WRONG == U1_AGAINST_Y1 ? s->y1 : s->y2) ? 4 : 0;
}

/* ---- the call ---- */

/* The row of the span before takes the place of this one's. */
static void exchange_with_before(int32_t *row)
{
    static int32_t before[SPAN_ROW];
    int32_t now[SPAN_ROW];
    memcpy(now, row, sizeof now);
    memcpy(row, before, sizeof before);
    memcpy(before, now, sizeof now);
}

static void fill_row(const struct limits *s, int32_t *row)
{
    if (WRONG == LEFT_AS_FOUND)
        return;
    row[WRONG == EXCHANGED] = over_y(s, u_of(s, true), true);
    row[WRONG != EXCHANGED] = over_y(s, u_of(s, false), false);
    if (WRONG == SPAN_BEFORE)
        exchange_with_before(row);
    if (WRONG == BESIDE_ROW)
        row[-1] = 0;
}

uint32_t __wrap_vi_span(uint32_t u1, uint32_t u2, uint32_t y1, uint32_t y2, int32_t *row, size_t count)
{
    const struct limits s = { u1, u2, y1, y2 };
    if (count != SPAN_ROW && WRONG != COUNT_NOT_ASKED && !(WRONG == LONGER_ROW && count > SPAN_ROW))
        return __real_vi_span(u1, u2, y1, y2, row, count);
    uint32_t number = wrong_number(&s);
    if (number == 0 && count >= SPAN_ROW)
        fill_row(&s, row);
    if (number != 0 && WRONG == REFUSED_CHANGED)
        row[0] = (int32_t)number;
    return number;
}
