#include "span_call.h"

#include <stdio.h>

enum {
    FRAME = 8,                  /* numbers on each side that must stay */
    PAIRS_TO_WALK = 100         /* with so many pairs inside, each is asked */
};

/* ---- the questions ---- */

/* "Refused: 41 .., 42 ..; in that order", and 1 to 4 "after the new ones". */
static const uint32_t numbers[SPAN_QUESTIONS] = { 41, 42, 1, 2, 3, 4 };

/* By how much limits are beyond what this question allows, whatever the others do:
   above 0 it refuses them. */
static int64_t beyond(uint32_t number, const struct limits *s)
{
    int64_t u1 = s->u1, u2 = s->u2, y1 = s->y1, y2 = s->y2;
    switch (number) {
    case 41:                    /* "a lower limit above its upper" */
        return u1 - u2 > y1 - y2 ? u1 - u2 : y1 - y2;
    case 42:                    /* "y2 - y1 above 200" */
        return y2 - y1 - WIDEST;
    /* "Questions 1 to 4 are put to y1, y2, u2, and u1 against y2" */
    case 1:
        return Y_LEAST - y1;
    case 2:
        return y2 - Y_GREATEST;
    case 3:
        return u2 - U_GREATEST;
    default:
        return y2 + 1 - u1;
    }
}

static uint32_t span_question(const struct limits *s)
{
    for (int i = 0; i < SPAN_QUESTIONS; i++)
        if (beyond(numbers[i], s) > 0)
            return numbers[i];
    return 0;
}

/* ---- all y at one u ---- */

/* The least or the greatest index over some y: what oil.c allows, and the pair
   calls', of which the first is at y. Is each pair that has it near? */
struct extreme {
    struct choice allowed;
    int64_t index;
    uint32_t y;
    bool near;
};

struct found {
    struct extreme least, greatest;
    int64_t first, last;        /* the indices at y1 and y2 */
    uint64_t near;              /* pairs marked near */
};

enum { LOWER = -1, HIGHER = 1 };

/* One more pair; way is that in which the extreme is sought. */
static void take(struct extreme *e, int way, const struct choice *c, const struct record *r, uint32_t y)
{
    if (way * c->lower > way * e->allowed.lower)
        e->allowed.lower = c->lower;
    if (way * c->upper > way * e->allowed.upper)
        e->allowed.upper = c->upper;
    if (way * r->index > way * e->index) {
        e->index = r->index;
        e->y = y;
        e->near = true;
    }
    if (r->index == e->index)
        e->near = e->near && r->method == B_NEAR;
}

static struct record pair_inside(uint32_t u, uint32_t y, const struct choice *c)
{
    uint8_t record[RECORD];
    now_pair(u, y);
    if (question(u, y) != 0 || vi_pair(u, y, record, RECORD) != 0)
        fail("a pair inside is refused", NULL);
    struct record r = record_of_bytes(record);
    if (r.index < c->lower || r.index > c->upper)
        fail("the index of a pair inside", NULL);
    tally.inside++;
    return r;
}

static struct found find(uint32_t u, uint32_t y1, uint32_t y2)
{
    const int64_t far = INT64_C(1) << 40;
    struct found f = { .least = { { far, far }, far, 0, false }, .greatest = { { -far, -far }, -far, 0, false } };
    for (uint32_t y = y1; y <= y2; y++) {
        struct oil o = oil_of(u, y);
        struct choice c = index_choices(&o);
        struct record r = pair_inside(u, y, &c);
        take(&f.least, LOWER, &c, &r, y);
        take(&f.greatest, HIGHER, &c, &r, y);
        f.near += r.method == B_NEAR;
        f.first = y == y1 ? r.index : f.first;
        f.last = r.index;
    }
    now_pair(0, 0);
    return f;
}

/* ---- what is met ---- */

enum {
    ONE_PAIR, ONE_Y, ONE_U, WIDE_199, WIDE_200, FROM_Y_LEAST, TO_Y_GREATEST, TO_U_GREATEST, JUST_ABOVE_Y,
    FROM_A_TO_B, ACROSS_70_BY_A, ACROSS_70_BY_B, ACROSS_70_AND_H, LEAST_BETWEEN, GREATEST_BETWEEN, BETWEEN_IN_TABLE,
    NEAR, NEAR_ALONE, FREE, WALKED
};

const char *const span_kinds[SPAN_KINDS] = {
    [ONE_PAIR] = "one pair",
    [ONE_Y] = "one y",
    [ONE_U] = "one u",
    [WIDE_199] = "y2 - y1 199",
    [WIDE_200] = "y2 - y1 200",
    [FROM_Y_LEAST] = "y1 2,000",
    [TO_Y_GREATEST] = "y2 500,000",
    [TO_U_GREATEST] = "u2 1,000,000,000",
    [JUST_ABOVE_Y] = "u1 just above y2",
    [FROM_A_TO_B] = "the least by A, the greatest by B",
    [ACROSS_70_BY_A] = "across 70,000 by A",
    [ACROSS_70_BY_B] = "across 70,000 by B",
    [ACROSS_70_AND_H] = "across 70,000 by A and B",
    [LEAST_BETWEEN] = "the least between y1 and y2",
    [GREATEST_BETWEEN] = "the greatest between y1 and y2",
    [BETWEEN_IN_TABLE] = "one of these two with y2 to 70,000",
    [NEAR] = "near pairs at u1 or u2",
    [NEAR_ALONE] = "the least or the greatest of near pairs alone",
    [FREE] = "two answers allowed",
    [WALKED] = "each pair inside asked"
};
_Static_assert(WALKED + 1 == SPAN_KINDS, "each kind has a name");

static uint64_t pairs_inside(const struct limits *s)
{
    return (uint64_t)(s->u2 - s->u1 + 1) * (s->y2 - s->y1 + 1);
}

static bool is_free(const struct extreme *e)
{
    return e->allowed.lower != e->allowed.upper;
}

static void count_kinds(const struct limits *s, const struct found *at_u1, const struct found *at_u2)
{
    uint32_t apart = s->y2 - s->y1;
    bool one_u = s->u1 == s->u2, across_70 = s->y1 <= TABLE_END && TABLE_END < s->y2;
    const struct extreme *least = &at_u2->least, *greatest = &at_u1->greatest;
    bool a = least->index < INDEX_AT_H, b = greatest->index > INDEX_AT_H;
    bool least_between = least->index < at_u2->first && least->index < at_u2->last;
    bool greatest_between = greatest->index > at_u1->first && greatest->index > at_u1->last;
    const bool met[SPAN_KINDS] = {
        [ONE_PAIR] = one_u && apart == 0,
        [ONE_Y] = apart == 0,
        [ONE_U] = one_u,
        [WIDE_199] = apart == WIDEST - 1,
        [WIDE_200] = apart == WIDEST,
        [FROM_Y_LEAST] = s->y1 == Y_LEAST,
        [TO_Y_GREATEST] = s->y2 == Y_GREATEST,
        [TO_U_GREATEST] = s->u2 == U_GREATEST,
        [JUST_ABOVE_Y] = s->u1 == s->y2 + 1,
        [FROM_A_TO_B] = a && b,
        [ACROSS_70_BY_A] = across_70 && a && !b,
        [ACROSS_70_BY_B] = across_70 && !a && b,
        [ACROSS_70_AND_H] = across_70 && a && b,
        [LEAST_BETWEEN] = least_between,
        [GREATEST_BETWEEN] = greatest_between,
        [BETWEEN_IN_TABLE] = (least_between || greatest_between) && s->y2 <= TABLE_END,
        [NEAR] = at_u1->near + at_u2->near > 0,
        [NEAR_ALONE] = least->near || greatest->near,
        [FREE] = is_free(least) || is_free(greatest),
        [WALKED] = pairs_inside(s) <= PAIRS_TO_WALK
    };
    for (int i = 0; i < SPAN_KINDS; i++)
        tally.of_kind[i] += met[i];
}

static void count_number(const struct limits *s, uint32_t number)
{
    tally.spans++;
    tally.span_refused[number]++;
    for (int i = 0; i < SPAN_QUESTIONS; i++) {
        tally.just_beyond[i] += number == numbers[i] && beyond(number, s) == 1;
        for (int j = i + 1; j < SPAN_QUESTIONS && beyond(numbers[i], s) > 0; j++)
            tally.both_refuse[i][j] += beyond(numbers[j], s) > 0;
    }
}

void check_spans_met(void)
{
    static char text[100];
    for (int i = 0; i < SPAN_KINDS; i++) {
        snprintf(text, sizeof text, "no answered span is of this kind: %s", span_kinds[i]);
        if (tally.of_kind[i] == 0)
            fail(text, NULL);
    }
    for (int i = 0; i < SPAN_QUESTIONS; i++) {
        snprintf(text, sizeof text, "no limits are refused just beyond those of question %d", (int)numbers[i]);
        if (tally.just_beyond[i] == 0)
            fail(text, NULL);
        for (int j = i + 1; j < SPAN_QUESTIONS; j++)
            if (tally.both_refuse[i][j] == 0)
                fail("two questions that never refuse together", NULL);
    }
}

/* ---- one span ---- */

/* "No pair inside has an index beyond these": of the library's pairs none, near or
   not; by oil.c none that is beyond whichever index is allowed. */
static void check_inside(uint32_t u, const struct found *f, const int32_t *row)
{
    now_pair(u, f->least.y);
    if (f->least.index < row[0])
        fail("a pair inside has a lower index than the least", NULL);
    now_pair(u, f->greatest.y);
    if (f->greatest.index > row[1])
        fail("a pair inside has a higher index than the greatest", NULL);
    if (f->least.allowed.upper < row[0] || f->greatest.allowed.lower > row[1])
        fail("an index inside that is beyond the span by oil.c", NULL);
    now_pair(0, 0);
}

/* Each u between the limits where there are few pairs; else one pair anywhere. */
static void check_between(const struct limits *s, const int32_t *row)
{
    if (pairs_inside(s) > PAIRS_TO_WALK) {
        uint32_t u = (uint32_t)random_in(s->u1, s->u2), y = (uint32_t)random_in(s->y1, s->y2);
        struct found f = find(u, y, y);
        check_inside(u, &f, row);
        return;
    }
    for (uint32_t u = s->u1 + 1; u < s->u2; u++) {
        struct found f = find(u, s->y1, s->y2);
        check_inside(u, &f, row);
    }
}

/* "the answer is the least index over all y at u2 and the greatest over all y at
   u1", one of those that oil.c allows, and the pair calls'. */
static void check_row(const struct limits *s, const int32_t *row)
{
    struct found at_u2 = find(s->u2, s->y1, s->y2);
    struct found at_u1 = s->u1 == s->u2 ? at_u2 : find(s->u1, s->y1, s->y2);
    if (row[0] < at_u2.least.allowed.lower || row[0] > at_u2.least.allowed.upper)
        fail("the least index over all y at u2", NULL);
    if (row[1] < at_u1.greatest.allowed.lower || row[1] > at_u1.greatest.allowed.upper)
        fail("the greatest index over all y at u1", NULL);
    if (row[0] != at_u2.least.index)
        fail("the least index of the pair calls at u2", NULL);
    if (row[1] != at_u1.greatest.index)
        fail("the greatest index of the pair calls at u1", NULL);
    check_inside(s->u1, &at_u1, row);
    check_inside(s->u2, &at_u2, row);
    check_between(s, row);
    count_kinds(s, &at_u1, &at_u2);
    if (row[0] < tally.span_least)
        tally.span_least = row[0];
    if (row[1] > tally.span_greatest)
        tally.span_greatest = row[1];
}

struct span ask_span(const struct limits *s)
{
    /* Half of the rows end at the end of the memory; what they held varies. */
    uint64_t chosen = random64();
    int32_t filled = (int32_t)chosen;
    size_t length = FRAME + SPAN_ROW + (chosen >> 63 ? chosen >> 32 & (FRAME - 1) : 0);
    int32_t *frame = last_numbers(length), *row = frame + FRAME;
    for (size_t i = 0; i < length; i++)
        frame[i] = filled;
    uint32_t number = span_question(s);
    now_span(s, row);
    if (vi_span(s->u1, s->u2, s->y1, s->y2, row, SPAN_ROW) != number)
        fail("the span's number", NULL);
    for (size_t i = 0; i < length; i++)
        if (frame[i] != filled && (number != 0 || frame + i < row || frame + i >= row + SPAN_ROW))
            fail(number != 0 ? "a refused row changed" : "numbers beside the row changed", NULL);
    count_number(s, number);
    if (number != 0)
        return (struct span){ 0, 0 };
    check_row(s, row);
    return (struct span){ row[0], row[1] };
}
