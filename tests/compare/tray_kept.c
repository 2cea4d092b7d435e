#include "tray_kept.h"
#include "compare.h"
#include "tray_numbers.h"

#include <string.h>

/* Some have the same index by another method: 100 by A and by B, 125 by B settled
   and by B near. */
static const struct pair { uint32_t u, y; } oils[] = {
    { 73300, 8860 },            /* 92 by A */
    { 28490, 5000 },            /* 100 by A */
    { 28489, 5000 },            /* 100 by B */
    { 144936, 16776 },          /* 125 by B, near */
    { 144935, 16776 },          /* 125 by B */
    { 144937, 16776 },          /* 124 by B */
    { 22830, 5050 },            /* 156 by B */
    { 8018, 2000 },             /* -2 by A, exactly a half */
    { 8019, 2000 },             /* -2 by A */
    { 2001, 2000 },             /* 6,593 by B */
    { 1000000000, 2000 },       /* -62,499,500 by A */
    { 1000000000, 2001 }        /* -62,442,521 by A */
};
enum { OILS = sizeof oils / sizeof *oils, LOW = 0, MIDDLE = 2, HIGH = 3, LEAST = 10, NEXT = 11 };

static const struct pair refused[] = { { 3000, 1999 }, { 600000, 500001 }, { 1000000001, 2000 }, { 2000, 2000 } };

static void begin_empty(struct tested *t)
{
    memset(t, 0, sizeof *t);
    move_tray();
    tally.tray_lists++;
}

static void put_oil(struct tested *t, uint32_t number, int oil)
{
    put(t, number, oils[oil].u, oils[oil].y);
}

/* ---- named lists ---- */

/* The samples 0, 1, 2.., each of the oil that stands there, go in; they leave in
   this order. */
static void in_and_out(const int *oil, const int *order, int samples)
{
    static struct tested t;
    begin_empty(&t);
    for (int i = 0; i < samples; i++)
        put_oil(&t, (uint32_t)i, oil[i]);
    for (int i = 0; i < samples; i++)
        take(&t, (uint32_t)order[i]);
}

enum { SAMPLES_GREATEST = 4 };

/* The which-th order of so many samples: each of the factorial's. */
static void order_of(int which, int *order, int samples)
{
    for (int i = 0; i < samples; i++) {
        int at = which % (i + 1);
        which /= i + 1;
        order[i] = order[at];
        order[at] = i;
    }
}

/* Every choice from the first so many oils, and every order of leaving. */
static void every_order(int samples, int choices)
{
    int lists = 1, orders = 1, oil[SAMPLES_GREATEST], order[SAMPLES_GREATEST] = { 0 };
    for (int i = 0; i < samples; i++) {
        lists *= choices;
        orders *= i + 1;
    }
    for (int list = 0; list < lists; list++) {
        for (int i = 0, rest = list; i < samples; i++, rest /= choices)
            oil[i] = rest % choices;
        for (int which = 0; which < orders; which++) {
            order_of(which, order, samples);
            in_and_out(oil, order, samples);
        }
    }
}

/* A full tray of two oils. Each sample leaves and comes again, refused calls
   between; then those of one oil leave, one by one, and the others. */
static void two_oils(int one, int other)
{
    static struct tested t;
    begin_empty(&t);
    for (int i = 0; i < HELD_GREATEST; i++)
        put_oil(&t, (uint32_t)i, i % 2 ? one : other);
    for (int i = 0; i < HELD_GREATEST; i++) {
        put_oil(&t, HELD_GREATEST, one);                                /* full */
        take(&t, (uint32_t)i);
        put_oil(&t, (uint32_t)(i + 1) % HELD_GREATEST, other);          /* held */
        put(&t, (uint32_t)i, refused[i % 4].u, refused[i % 4].y);
        take(&t, (uint32_t)i);                                          /* not held */
        put_oil(&t, (uint32_t)i, i % 2 ? one : other);
    }
    for (int i = 1; i < HELD_GREATEST; i += 2)
        take(&t, (uint32_t)i);
    for (int i = 0; i < HELD_GREATEST; i += 2)
        take(&t, (uint32_t)i);
}

/* Between the lowest and the highest, of which there is one each, 62 come and 61 of
   them leave, at first while the sum needs more than 32 bits; then the lowest leaves,
   the highest, and the last. */
static void low_between(void)
{
    static struct tested t;
    begin_empty(&t);
    put_oil(&t, 0, LEAST);
    put_oil(&t, 1, HIGH);
    for (uint32_t number = 2; number < HELD_GREATEST; number++)
        put_oil(&t, number, NEXT);
    for (uint32_t number = 2; number < HELD_GREATEST - 1; number++)
        take(&t, number);
    take(&t, 0);
    take(&t, 1);
    take(&t, HELD_GREATEST - 1);
    summary(&t);
}

/* One sample comes and leaves, and comes again, beside others and alone. */
static void same_again(void)
{
    static struct tested t;
    begin_empty(&t);
    for (int held = 0; held <= 3; held++) {
        for (int oil = 0; oil < OILS; oil++)
            for (int times = 0; times < 3; times++) {
                put_oil(&t, 1000, oil);
                take(&t, 1000);
            }
        put_oil(&t, (uint32_t)held, 1 + held);
    }
}

/* ---- named lists of other hands' numbers ---- */

/* The six parts of what is kept. */
enum { WIDE = 3, PARTS = 6 };
static const int part_at[PARTS] = { KEPT_LOWEST, KEPT_HIGHEST, KEPT_SUM, KEPT_A, KEPT_SETTLED, KEPT_NEAR };

/* Beside the bounds, and beside 92, 100, 125 and 156, which the oils have. */
static const int64_t indices[] = { INDEX_KEPT_LEAST - 1, INDEX_KEPT_LEAST, INDEX_KEPT_LEAST + 1,
    INDEX_KEPT_GREATEST - 1, INDEX_KEPT_GREATEST, INDEX_KEPT_GREATEST + 1, INT64_MIN, INT64_MAX,
    INT64_C(-1) - INT32_MAX, UINT32_MAX, -1, 0, 91, 92, 93, 99, 100, 101, 124, 125, 126, 155, 156, 157 };
static const int64_t sums[] = { SUM_KEPT_LEAST - 1, SUM_KEPT_LEAST, SUM_KEPT_LEAST + 1, SUM_KEPT_GREATEST - 1,
    SUM_KEPT_GREATEST, SUM_KEPT_GREATEST + 1, INT64_MIN, INT64_MAX, UINT32_MAX, INT64_C(1) << 32, -1, 0, 1 };
static const int64_t counts[] = { 0, 1, 2, 3, COUNT_KEPT_GREATEST - 1, COUNT_KEPT_GREATEST, COUNT_KEPT_GREATEST + 1,
    INT32_MAX, INT64_C(1) << 31, UINT32_MAX };
enum {
    INDICES = sizeof indices / sizeof *indices, SUMS = sizeof sums / sizeof *sums,
    COUNTS = sizeof counts / sizeof *counts
};

static int values_of(int part)
{
    return part < 2 ? INDICES : part < WIDE ? SUMS : COUNTS;
}

static void set_part(struct tested *t, int part, int value)
{
    if (part < 2)
        keep_wide(t->numbers, part_at[part], indices[value]);
    else if (part < WIDE)
        keep_wide(t->numbers, part_at[part], sums[value]);
    else
        t->numbers[part_at[part]] = (uint32_t)counts[value];
}

/* After this the tray is judged by the header alone. */
static void by_other_hands(struct tested *t)
{
    t->damaged = true;
    move_tray();
    tally.tray_lists++;
}

/* Samples 0 to 4: 92 and 100 by A, 100 by B, 125 near and 156. What is kept is
   right but for one part. First one of them leaves, or a sixth comes; then both. */
static void every_bound(void)
{
    static struct tested right, t;
    begin_empty(&right);
    for (int i = 0; i < 4; i++)
        put_oil(&right, (uint32_t)i, i);
    put_oil(&right, 4, 6);
    for (int part = 0; part < PARTS; part++)
        for (int value = 0; value < values_of(part); value++)
            for (uint32_t first = 0; first <= 5; first++) {
                t = right;
                set_part(&t, part, value);
                by_other_hands(&t);
                if (first < 5)
                    take(&t, first);
                put_oil(&t, 5, MIDDLE);
                take(&t, (first + 2) % 5);
            }
}

/* The counts are 0, and the other six are not; or one is not, and all else is. */
static void every_zero(void)
{
    static struct tested t;
    for (int held = 0; held <= 3; held++)
        for (int one = -1; one < KEPT_SIZE; one++) {
            begin_empty(&t);
            for (int i = 0; i < held; i++)
                put_oil(&t, (uint32_t)i, 1 + i);
            memset(t.numbers + KEPT, one < 0 ? 0xA5 : 0, KEPT_SIZE * sizeof *t.numbers);
            if (one < 0)
                memset(t.numbers + KEPT_A, 0, 3 * sizeof *t.numbers);
            else
                t.numbers[KEPT + one] = 1;
            by_other_hands(&t);
            summary(&t);
            take(&t, 0);
            put_oil(&t, 9, LOW);
        }
}

void compare_kept(void)
{
    every_order(3, 5);
    every_order(SAMPLES_GREATEST, 3);
    two_oils(LOW, HIGH);
    two_oils(LEAST, NEXT);
    two_oils(1, 2);
    two_oils(HIGH, HIGH);
    low_between();
    same_again();
    every_bound();
    every_zero();
}

/* ---- long lists of few oils ---- */

enum { FEW = 4 };

struct few {
    struct tested t;
    struct numbers numbers;
    int oil[FEW], count;
    uint32_t last_number, last_u, last_y;       /* the sample that left last */
};

static int any_oil(const struct few *f)
{
    return f->oil[random_in(0, f->count - 1)];
}

static uint32_t any_number(const struct few *f)
{
    return number_at(&f->numbers, random_in(0, f->numbers.spread - 1));
}

static uint32_t number_not_held(const struct few *f)
{
    uint32_t number = any_number(f);
    while (places_take_question(f->t.numbers, number) == 0)
        number = any_number(f);
    return number;
}

/* The number of a sample with the lowest index, with the highest, or of any; which
   of several is drawn. The tray holds one. */
static uint32_t number_to_leave(const struct few *f)
{
    const struct tray *t = &f->t.model;
    int kind = (int)random_in(0, 3), first = (int)random_in(0, t->count - 1), best = first;
    for (int i = 0; i < t->count && kind < 2; i++) {
        int at = (first + i) % t->count;
        int64_t index = t->samples[at].r.index, by_now = t->samples[best].r.index;
        if (kind == 0 ? index < by_now : index > by_now)
            best = at;
    }
    return t->number[best];
}

static void take_one(struct few *f)
{
    f->last_number = number_to_leave(f);
    const uint32_t *place = f->t.numbers + PLACE * first_with(f->t.numbers, f->last_number);
    f->last_u = place[AT_U];
    f->last_y = place[AT_Y];
    take(&f->t, f->last_number);
}

/* The one that left last, as it was, or another. */
static void put_one(struct few *f)
{
    if (random_in(0, 3) == 0 && places_take_question(f->t.numbers, f->last_number) != 0)
        put(&f->t, f->last_number, f->last_u, f->last_y);
    else
        put_oil(&f->t, number_not_held(f), any_oil(f));
}

/* A call that is refused, but for a put where the tray is not full. */
static void refused_call(struct few *f)
{
    int kind = (int)random_in(0, 4);
    const struct pair *p = &refused[random_in(0, 3)];
    if (kind == 0)
        put(&f->t, any_number(f), p->u, p->y);
    else if (kind == 1 && f->t.model.count > 0)
        put_oil(&f->t, number_to_leave(f), any_oil(f));
    else if (kind == 2 && f->t.model.count == HELD_GREATEST)
        put_oil(&f->t, number_not_held(f), any_oil(f));
    else if (kind == 3)
        make_call(&f->t, &(struct call){ (enum kind)random_in(PUT, TAKE), any_number(f), oils[LOW].u, oils[LOW].y,
            { KEPT, RECORD, SAMPLE_PAIR, SUMMARY_ROW } });
    else
        take(&f->t, number_not_held(f));
}

static int pick_level(void)
{
    static const int levels[] = { 0, 0, 1, 2, 3, 62, 63, 64, 64, 64 };
    int64_t kind = random_in(0, 13);
    return kind < 10 ? levels[kind] : (int)random_in(0, HELD_GREATEST);
}

/* To that many samples, and there to and fro for a while. */
static void go_to(struct few *f, int level)
{
    for (int64_t stay = random_in(0, 40); stay >= 0;) {
        int held = f->t.model.count;
        if (random_in(0, 7) == 0)
            refused_call(f);
        else if (held < level || (held == level && random64() & 1 && held < HELD_GREATEST) || held == 0)
            put_one(f);
        else
            take_one(f);
        stay -= held >= level - 1 && held <= level + 1;
    }
}

static void begin_few(struct few *f)
{
    memset(f, 0, sizeof *f);
    begin_empty(&f->t);
    pick_numbers(&f->numbers);
    f->numbers.spread = SPREAD_GREATEST;
    f->count = (int)random_in(1, FEW);
    for (int i = 0; i < f->count; i++)
        f->oil[i] = (int)random_in(0, OILS - 1);
    f->last_u = oils[f->oil[0]].u;
    f->last_y = oils[f->oil[0]].y;
    f->t.in_place = random64() & 1;
}

void few_oils_list(void)
{
    static struct few f;
    begin_few(&f);
    for (int64_t turns = random_in(2, 10); turns > 0; turns--)
        go_to(&f, pick_level());
}

/* ---- other hands' numbers ---- */

/* An index of 32 bits at its edges, or beside those of the oils. */
static uint32_t any_index(void)
{
    static const uint32_t edges[] = { 0, 1, 92, 100, 101, 125, 0x7fffffff, 0x80000000u, 0x80000001u, 0xfffffffeu,
        0xffffffffu };
    int64_t which = random_in(0, 12);
    return which < 11 ? edges[which] : (uint32_t)random64();
}

/* The places of a right tray stay, or get other methods and indices. */
static void other_places(uint32_t *numbers)
{
    for (int i = 0; i < PLACES; i++)
        if (random64() & 1) {
            numbers[PLACE * i + AT_METHOD] = random_in(0, 7) == 0 ? (uint32_t)random64() : (uint32_t)random_in(0, 4);
            numbers[PLACE * i + AT_INDEX] = any_index();
        }
}

/* Beside the index of a place: on it, or one more or less. */
static int64_t beside_a_place(const uint32_t *numbers)
{
    return index_at(numbers, (int)random_in(0, PLACES - 1)) + random_in(-1, 1);
}

static void other_part(struct tested *t, int part)
{
    int64_t kind = random_in(0, 5);
    if (part < 2 && kind < 3)
        keep_wide(t->numbers, part_at[part], beside_a_place(t->numbers));
    else if (kind < 5)
        set_part(t, part, (int)random_in(0, values_of(part) - 1));
    else
        t->numbers[KEPT + random_in(0, KEPT_SIZE - 1)] = (uint32_t)random64();
}

/* One part or several; the nine numbers drawn; or the three counts 0. */
static void other_kept(struct tested *t)
{
    int64_t kind = random_in(0, 9);
    if (kind < 8)
        for (int64_t times = kind < 5 ? 1 : random_in(2, 6); times > 0; times--)
            other_part(t, (int)random_in(0, PARTS - 1));
    for (int i = KEPT; i < TRAY && kind == 8; i++)
        t->numbers[i] = (uint32_t)random64();
    if (kind == 9)
        memset(t->numbers + KEPT_A, 0, 3 * sizeof *t->numbers);
    move_tray();
}

/* All 521 numbers drawn, or a tray that calls have led to with other places. */
static void other_tray(struct few *f)
{
    int64_t kind = random_in(0, 3);
    f->t.damaged = true;
    for (int i = 0; i < TRAY && kind == 0; i++)
        f->t.numbers[i] = (uint32_t)random64();
    if (kind == 1)
        other_places(f->t.numbers);
    other_kept(&f->t);
}

static void call_with_other(struct few *f)
{
    int64_t kind = random_in(0, 9);
    uint32_t number = random_in(0, 3) == 0 ? any_number(f) : f->t.numbers[PLACE * random_in(0, PLACES - 1) + AT_NUMBER];
    if (kind < 4)
        put_oil(&f->t, any_number(f), any_oil(f));
    else if (kind < 9)
        take(&f->t, number);
    else
        summary(&f->t);
}

void foreign_list(void)
{
    static struct few f;
    begin_few(&f);
    for (int64_t samples = random_in(0, HELD_GREATEST); samples > 0; samples--)
        put_oil(&f.t, number_not_held(&f), any_oil(&f));
    other_tray(&f);
    summary(&f.t);
    for (int64_t calls = random_in(5, 80); calls > 0; calls--) {
        call_with_other(&f);
        if (random_in(0, 2) == 0)
            other_kept(&f.t);
    }
}
