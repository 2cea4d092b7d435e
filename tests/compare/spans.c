/* The spans: which limits are asked. span_call.c checks each answer. */
#include "span_call.h"

static void ask(uint32_t u1, uint32_t u2, uint32_t y1, uint32_t y2)
{
    ask_span(&(struct limits){ u1, u2, y1, y2 });
}

/* ---- named ones and edges ---- */

/* Worked out apart with sixty digits; none is beside a half. Of the last but two,
   neither index is that of y1 or y2. */
static void named_spans(void)
{
    static const struct { struct limits s; struct span span; } named[] = {
        { { 73300, 73300, 8860, 8860 }, { 92, 92 } },
        { { 72567, 74033, 8851, 8869 }, { 91, 94 } },       /* 1 % and 0.1 % */
        { { 22602, 23058, 5045, 5055 }, { 153, 160 } },
        { { 28489, 28490, 5000, 5000 }, { 100, 100 } },
        { { 30000000, 30000000, 69999, 70001 }, { -750, -749 } },
        { { 2172, 2172, 2000, 2134 }, { 5000, 5012 } },
        { { 2001, 2001, 2000, 2000 }, { 6593, 6593 } },
        { { 1000000000, 1000000000, 2000, 2000 }, { -62499500, -62499500 } },
    };
    for (size_t i = 0; i < sizeof named / sizeof *named; i++) {
        struct span r = ask_span(&named[i].s);
        if (r.least != named[i].span.least || r.greatest != named[i].span.greatest)
            fail("a span worked out apart", NULL);
    }
}

/* A row of another count answers 5 and keeps every number. It ends where the
   memory ends, or other numbers follow it. */
static void wrong_count(size_t count, size_t room)
{
    int32_t *row = last_numbers(room), before[16];
    for (size_t i = 0; i < room; i++)
        before[i] = row[i] = (int32_t)random64();
    /* Answered with a row of 2, and refused by each question. */
    static const struct limits asked[] = { { 73300, 73300, 8860, 8860 }, { 73301, 73300, 8860, 8860 },
        { 73300, 73300, 8860, 9061 }, { 73300, 73300, 1999, 2000 }, { 900000, 900000, 500000, 500001 },
        { 73300, 1000000001, 8860, 8860 }, { 8860, 8860, 8860, 8860 }, { 4294967295u, 0, 4294967295u, 0 } };
    for (size_t i = 0; i < sizeof asked / sizeof *asked; i++) {
        now_span(&asked[i], NULL);
        if (vi_span(asked[i].u1, asked[i].u2, asked[i].y1, asked[i].y2, row, count) != WRONG_LENGTH)
            fail("a row of another count is not answered by 5", NULL);
        for (size_t j = 0; j < room; j++)
            if (row[j] != before[j])
                fail("a row of another count changed", NULL);
        tally.spans++;
        tally.span_refused[WRONG_LENGTH]++;
    }
}

static void wrong_counts(void)
{
    for (size_t count = 0; count <= 16; count++) {
        if (count == SPAN_ROW)
            continue;
        wrong_count(count, 16);
        wrong_count(count, count);
    }
}

/* Each limit of each question with both sides, every two u with every two y: where
   several questions refuse, the first gives the number. */
static void edges_of_the_questions(void)
{
    static const uint32_t us[] = { 0, 1999, 2000, 2001, 2200, 2201, 2202, 500000, 500001, 500002, 999999999, 1000000000,
        1000000001, 2147483647, 2147483648u, 4294967295u };
    /* 2,457 is 2,001 and 456, which is 200 in its last 8 bits; 67,736 is 2,000 and
       65,736, likewise in its last 16. */
    static const uint32_t ys[] = { 0, 1, 1999, 2000, 2001, 2199, 2200, 2201, 2202, 2457, 67736, 499799, 499800, 499801,
        500000, 500001, 2147483647, 2147483648u, 4294967295u };
    enum { US = sizeof us / sizeof *us, YS = sizeof ys / sizeof *ys };
    for (size_t i = 0; i < US * US; i++)
        for (size_t j = 0; j < YS * YS; j++)
            ask(us[i / US], us[i % US], ys[j / YS], ys[j % YS]);
}

/* Both sides of H at y1 and at y2, each with each. */
static void across_h(uint32_t y1, uint32_t y2)
{
    struct oil low = oil_of(y1 + 1, y1), high = oil_of(y2 + 1, y2);
    uint32_t h1 = (uint32_t)(low.H / UNITS), h2 = (uint32_t)(high.H / UNITS);
    const uint32_t us[] = { h1 - 1, h1, h1 + 1, h2 - 1, h2, h2 + 1 };
    for (int i = 0; i < 36; i++)
        ask(us[i / 6], us[i % 6], y1, y2);
}

static void both_sides_of_h(void)
{
    static const uint32_t ys[] = { 2000, 2050, 2099, 2100, 5000, 8860, 19999, 20000, 29900, 30000, 30100, 69900, 69999,
        70000, 70001, 70100, 200000, 499900, 499992 };
    for (size_t i = 0; i < sizeof ys / sizeof *ys; i++)
        for (uint32_t apart = 0; apart <= 8; apart += apart < 2 ? 1 : 6)
            across_h(ys[i], ys[i] + apart);
}

/* The table's last row is 70,000; the quadratics that follow do not meet it. */
static void across_70(uint32_t y1, uint32_t y2)
{
    struct oil o = oil_of(TABLE_END + 1, TABLE_END);
    const uint32_t us[] = { y2 + 1, 200000, (uint32_t)(o.H / UNITS) - 10, (uint32_t)(o.H / UNITS) + 50000,
        (uint32_t)(o.L / UNITS), (uint32_t)(o.L / UNITS) + 50000, 30000000, 188675273, 634102642, U_GREATEST };
    for (size_t i = 0; i < sizeof us / sizeof *us; i++) {
        ask(us[i], us[i], y1, y2);
        ask(us[i] - us[i] / 10, us[i], y1, y2);
    }
}

static void both_sides_of_the_table_end(void)
{
    static const uint32_t below[] = { 69800, 69801, 69950, 69999, 70000 };
    static const uint32_t above[] = { 70000, 70001, 70002, 70050, 70199, 70200 };
    for (size_t i = 0; i < sizeof below / sizeof *below; i++)
        for (size_t j = 0; j < sizeof above / sizeof *above; j++)
            across_70(below[i], above[j]);
}

/* The thinnest oils, u just above y2: the index is in the thousands, and often
   neither lowest nor highest at y1 or y2. */
static void thin_oils(void)
{
    for (uint32_t y1 = Y_LEAST; y1 <= Y_LEAST + 40; y1 += 8)
        for (uint32_t apart = 33; apart <= WIDEST; apart += 33)
            for (uint32_t above = 1; above <= 120; above += 7)
                ask(y1 + apart + above, y1 + apart + above, y1, y1 + apart);
}

/* Limits of these widths with the pair between them. */
static struct limits around(uint32_t u, uint32_t y, uint32_t u_width, uint32_t y_width)
{
    uint32_t u1 = u - (uint32_t)random_in(0, u_width), y1 = y - (uint32_t)random_in(0, y_width);
    return (struct limits){ u1, u1 + u_width, y1, y1 + y_width };
}

/* Where a thousandth of u changes the index by little, many pairs are near. */
static struct limits beside_a_half(uint32_t u_width, uint32_t y_width)
{
    uint32_t y = (uint32_t)random_in(200000, Y_GREATEST - WIDEST);
    struct oil o = oil_of(y + 1, y);
    uint32_t u = (uint32_t)half_by_b(&o, random_in(100, 300));
    return around(u + (uint32_t)random_in(0, 1), y, u_width, y_width);
}

static void near_pairs(void)
{
    /* 144,936 is near 125; the u before it has 125, the one after it 124. */
    for (uint32_t i = 0; i < 16; i++)
        ask(144935 + i % 2, 144936 + i / 2 % 2, 16776 - i / 4 % 2, 16776 + i / 8);
    for (uint32_t i = 0; i < 400; i++) {
        struct limits s = beside_a_half(i % 4, i / 4 % 4);
        ask_span(&s);
    }
}

/* ---- the spreads ---- */

/* Most are narrow; one of 150 is as wide as it may be, or a thousandth off. */
static uint32_t pick_y_width(void)
{
    int64_t kind = random_in(0, 149);
    if (kind == 0)
        return WIDEST + (uint32_t)random_in(-1, 1);
    if (kind <= 3)
        return (uint32_t)random_in(0, WIDEST);
    return kind <= 40 ? 0 : (uint32_t)random_log(1, 16);
}

static uint32_t pick_u_width(uint32_t u)
{
    switch (random_in(0, 3)) {
    case 0:
        return 0;
    case 1:
        return (uint32_t)random_in(1, 10);
    default:
        return (uint32_t)random_log(1, u / 8 + 1);
    }
}

/* An oil as a planner has it: u to at most 2 %, y to at most 0.05 %. */
static struct limits around_oil(void)
{
    uint32_t u, y;
    pick_oil(&u, &y);
    uint32_t u_part = (uint32_t)(u * (uint64_t)random_in(0, 20) / 1000);
    uint32_t y_part = (uint32_t)(y * (uint64_t)random_in(0, 10) / 20000);
    return (struct limits){ u - u_part, u + u_part, y - y_part, y + y_part };
}

/* As in thin_oils; one of eight is wide. */
static struct limits thin_oil(void)
{
    uint32_t y1 = (uint32_t)random_in(Y_LEAST, Y_LEAST + 60);
    uint32_t y2 = y1 + (random_in(0, 7) == 0 ? (uint32_t)random_in(30, WIDEST) : pick_y_width());
    uint32_t u1 = y2 + (uint32_t)random_in(1, 120);
    return (struct limits){ u1, u1 + (uint32_t)random_in(0, 9), y1, y2 };
}

static struct limits any_numbers(void)
{
    struct limits s;
    s.u1 = (uint32_t)random64();
    s.u2 = (uint32_t)random64();
    s.y1 = (uint32_t)random64();
    s.y2 = (uint32_t)random64();
    return s;
}

/* A pair anywhere, beside 70,000 or beside H. */
static void pick_place(int64_t kind, uint32_t *u, uint32_t *y)
{
    if (kind == 0) {
        *y = (uint32_t)random_in(TABLE_END - 15, TABLE_END + 16);
        *u = (uint32_t)random_log(*y, U_GREATEST);
    } else if (kind == 1) {
        *y = (uint32_t)random_in(Y_LEAST, Y_GREATEST);
        struct oil o = oil_of(*y + 1, *y);
        *u = (uint32_t)(o.H / UNITS + random_in(-10, 10));
    } else {
        pick_pair(u, y);
    }
}

static struct limits pick_limits(void)
{
    int64_t kind = random_in(0, 15);
    if (kind == 0)
        return any_numbers();
    if (kind == 1)
        return thin_oil();
    if (kind <= 6)
        return around_oil();
    uint32_t u, y, y_width = pick_y_width();
    if (kind == 7)
        return beside_a_half((uint32_t)random_in(0, 9), y_width);
    pick_place(kind - 8, &u, &y);
    return around(u, y, pick_u_width(u), y_width);
}

static void exchange(uint32_t *one, uint32_t *other)
{
    uint32_t kept = *one;
    *one = *other;
    *other = kept;
}

/* Exchanges two limits, moves some to one of the questions' own limits or a
   thousandth beyond it, or gives one any number. */
static void damage(struct limits *s)
{
    uint32_t *const all[] = { &s->u1, &s->u2, &s->y1, &s->y2 }, apart = s->y2 - s->y1;
    switch (random_in(0, 7)) {
    case 0:
        exchange(&s->u1, &s->u2);
        break;
    case 1:
        exchange(&s->y1, &s->y2);
        break;
    case 2:
        s->y2 = s->y1 + WIDEST + (uint32_t)random_in(-1, 1);
        break;
    case 3:
        s->y1 = Y_LEAST - (uint32_t)random_in(0, 1);
        s->y2 = s->y1 + apart;
        break;
    case 4:
        s->y2 = Y_GREATEST + (uint32_t)random_in(0, 1);
        s->y1 = s->y2 - apart;
        break;
    case 5:
        s->u2 = U_GREATEST + (uint32_t)random_in(0, 1);
        break;
    case 6:
        s->u1 = s->y2 + (uint32_t)random_in(0, 1);
        break;
    default:
        *all[random_in(0, 3)] = (uint32_t)random64();
    }
}

/* A quarter are damaged, half of these twice. */
static void ask_any(void)
{
    struct limits s = pick_limits();
    for (int64_t times = random_in(-5, 2); times > 0; times--)
        damage(&s);
    ask_span(&s);
}

/* ---- the run ---- */

enum { SPANS_PART = 1 };

void compare_spans(uint64_t wanted)
{
    begin_part(SPANS_PART);
    named_spans();
    wrong_counts();
    edges_of_the_questions();
    both_sides_of_h();
    both_sides_of_the_table_end();
    thin_oils();
    near_pairs();
    while (tally.spans < wanted) {
        ask_any();
        progress("spans", tally.spans, wanted);
    }
    check_spans_met();
}
