/* The trays: lists of calls of every kind from an empty tray, and calls with
   damaged ones. tray_call.c compares each call. */
#include "compare.h"
#include "tray_kept.h"
#include "tray_numbers.h"

#include <stdio.h>
#include <stdlib.h>
#include <string.h>

/* A tray, and how the calls with it are drawn. */
struct list {
    struct tested t;
    struct numbers numbers;
    int pairs;                  /* the kind of pairs */
    uint32_t own_u, own_y;
};

/* ---- numbers and pairs ---- */

static bool is_held(const struct list *l, uint32_t number)
{
    return (l->t.damaged ? places_take_question(l->t.numbers, number) : take_question(&l->t.model, number)) == 0;
}

static uint32_t any_number(const struct list *l)
{
    return number_at(&l->numbers, random_in(0, l->numbers.spread - 1));
}

/* One that is held, or one that is not; any, if there is no such number. */
static uint32_t number_that_is(const struct list *l, bool held)
{
    int64_t first = random_in(0, l->numbers.spread - 1);
    for (int i = 0; i < l->numbers.spread; i++)
        if (is_held(l, number_at(&l->numbers, first + i)) == held)
            return number_at(&l->numbers, first + i);
    return any_number(l);
}

/* The kinds of a list's pairs. OWN is one pair for all samples; THICK has indices
   of which 35 leave 32 bits. */
enum { ANY, OILS, OWN, OWN_OR_OIL, THICK, BELOW_ZERO, ABOVE_ZERO, BESIDE_A_HALF, PAIR_KINDS };

static void pick_of(int kind, uint32_t *u, uint32_t *y)
{
    *y = (uint32_t)random_log(Y_LEAST, Y_GREATEST);
    struct oil o = oil_of(*y + 1, *y);
    switch (kind) {
    case OILS:
        pick_oil(u, y);
        break;
    case THICK:
        *y = (uint32_t)random_in(Y_LEAST, Y_LEAST + 2);
        *u = (uint32_t)random_in(U_GREATEST - 3000000, U_GREATEST);
        break;
    case BELOW_ZERO:
        *u = (uint32_t)random_log(o.L / UNITS + o.L / UNITS / 10, U_GREATEST);
        break;
    case ABOVE_ZERO:
        *u = (uint32_t)random_in(*y + 1, o.H / UNITS);
        break;
    case BESIDE_A_HALF:
        *y = (uint32_t)random_in(200000, Y_GREATEST);
        o = oil_of(*y + 1, *y);
        *u = (uint32_t)(half_by_b(&o, random_in(100, 300)) + random_in(0, 1));
        break;
    default:
        pick_pair(u, y);
    }
}

/* A pair that fails this question first. */
static void pick_refused(int question_of_it, uint32_t *u, uint32_t *y)
{
    *u = (uint32_t)random64();
    *y = (uint32_t)random_in(Y_LEAST, Y_GREATEST);
    switch (question_of_it) {
    case 1:
        *y = (uint32_t)random_in(0, Y_LEAST - 1);
        break;
    case 2:
        *y = (uint32_t)random_in(Y_GREATEST + 1, UINT32_MAX);
        break;
    case 3:
        *u = (uint32_t)random_in(U_GREATEST + 1, UINT32_MAX);
        break;
    default:
        *u = (uint32_t)random_in(0, *y);
    }
}

static void pick_for(const struct list *l, uint32_t *u, uint32_t *y)
{
    if (random_in(0, 11) == 0) {
        pick_refused((int)random_in(1, 4), u, y);
    } else if (l->pairs == OWN || (l->pairs == OWN_OR_OIL && random64() & 1)) {
        *u = l->own_u;
        *y = l->own_y;
    } else {
        pick_of(l->pairs, u, y);
    }
}

/* ---- calls of every kind ---- */

static void put_any(struct list *l, uint32_t number)
{
    uint32_t u, y;
    pick_for(l, &u, &y);
    put(&l->t, number, u, y);
}

static size_t other_size(size_t size, size_t most)
{
    size_t other = random_in(0, 3) == 0 ? size + (size_t)random_in(-1, 1) : (size_t)random_in(0, (int64_t)most);
    return other == size ? size + 1 : other;
}

/* One or more memories of another size; the question comes before all others. */
static void call_with_other_sizes(struct list *l)
{
    struct call c = { (enum kind)random_in(0, 2), any_number(l), 0, 0, right_sizes };
    pick_for(l, &c.u, &c.y);
    do {
        switch (random_in(0, 3)) {
        case 0:
            c.sizes.tray = random_in(0, 3) == 0 ? KEPT : other_size(TRAY, 2 * TRAY);   /* as before #105 */
            break;
        case 1:
            c.sizes.record = other_size(RECORD, 64);
            break;
        case 2:
            c.sizes.pair = other_size(SAMPLE_PAIR, 16);
            break;
        default:
            c.sizes.row = other_size(SUMMARY_ROW, 16);
        }
    } while (random_in(0, 2) == 0);
    make_call(&l->t, &c);
}

static void any_call(struct list *l)
{
    switch (random_in(0, 9)) {
    case 0:
    case 1:
    case 2:
        put_any(l, number_that_is(l, random64() & 1));
        break;
    case 3:
    case 4:
    case 5:
        take(&l->t, number_that_is(l, random64() & 1));
        break;
    case 6:
        call_with_other_sizes(l);
        break;
    default:
        summary(&l->t);
    }
}

/* ---- lists ---- */

static void begin_list(struct list *l)
{
    memset(l, 0, sizeof *l);
    pick_numbers(&l->numbers);
    l->pairs = (int)random_in(0, PAIR_KINDS - 1);
    pick_of(random64() & 1 ? OILS : BESIDE_A_HALF, &l->own_u, &l->own_y);
    move_tray();
    tally.tray_lists++;
}

/* Puts in or takes out until so many are held, other calls between. */
static void go_to(struct list *l, int level)
{
    for (int i = 0; i < 1000; i++) {
        int held = places_held(l->t.numbers);
        if (held == level)
            return;
        if (random_in(0, 7) == 0)
            any_call(l);
        else if (held < level)
            put_any(l, number_that_is(l, random_in(0, 15) == 0));
        else
            take(&l->t, number_that_is(l, random_in(0, 15) != 0));
    }
}

static int pick_level(const struct list *l)
{
    static const int levels[] = { 0, 0, 1, 2, 63, 64, 64, 64 };
    int most = l->numbers.spread < HELD_GREATEST ? l->numbers.spread : HELD_GREATEST;
    int64_t kind = random_in(0, 11);
    int level = kind < 8 ? levels[kind] : (int)random_in(0, most);
    return level < most ? level : most;
}

/* To a file and back. */
static void store_and_load(struct list *l)
{
    static FILE *file;
    if (file == NULL)
        file = tmpfile();
    if (file == NULL || fseek(file, 0, SEEK_SET) != 0 || fwrite(l->t.numbers, sizeof l->t.numbers, 1, file) != 1) {
        printf("compare: FAILED: a tray could not be stored\n");
        exit(1);
    }
    memset(l->t.numbers, 0, sizeof l->t.numbers);
    if (fseek(file, 0, SEEK_SET) != 0 || fread(l->t.numbers, sizeof l->t.numbers, 1, file) != 1) {
        printf("compare: FAILED: a tray could not be loaded\n");
        exit(1);
    }
    move_tray();
    tally.stored++;
}

/* One tray that stands where it is or is lent from other memory at each call, or
   two in turn. Now and then one is stored. */
static void random_list(void)
{
    static struct list lists[2];
    int trays = random_in(0, 3) == 0 ? 2 : 1;
    for (int i = 0; i < trays; i++)
        begin_list(&lists[i]);
    lists[0].t.in_place = trays == 1 && random64() & 1;
    int64_t turns = random_in(1, 6);
    for (int64_t i = 0; i < turns; i++) {
        struct list *l = &lists[random_in(0, trays - 1)];
        go_to(l, pick_level(l));
        for (int64_t calls = random_in(0, 20); calls > 0; calls--)
            any_call(&lists[random_in(0, trays - 1)]);
        if (random_in(0, 3) == 0)
            store_and_load(l);
    }
}

/* ---- damaged trays ---- */

static uint32_t edge(void)
{
    static const uint32_t edges[] = { 0, 0, 1, 2, 3, 4, 255, 256, 257, 511, 65535, 65536, 65537, 16777217, 0x7fffffff,
        0x80000000u, 0xffffff00u, 0xffffffffu };
    int64_t which = random_in(0, 19);
    return which < 18 ? edges[which] : (uint32_t)random64();
}

/* A tray that calls have led to. */
static void fill_well(struct list *l)
{
    l->numbers.spread = SPREAD_GREATEST;
    go_to(l, (int)random_in(0, HELD_GREATEST));
}

/* Kinds 0 to 2 are such a tray with one number changed, or several. */
static void damage(struct list *l)
{
    int64_t kind = random_in(0, 6), times = kind == 0 ? 1 : random_in(2, 40);
    uint32_t same = random64() & 1 ? 0xffffffffu : edge();
    if (kind <= 2)
        fill_well(l);
    for (int i = 0; i < TRAY; i++)
        switch (kind) {
        case 3:
            l->t.numbers[i] = (uint32_t)random64();
            break;
        case 4:                 /* half of them 0xffffffff; some all zeros */
            l->t.numbers[i] = same;
            break;
        case 5:                 /* every part at its edges; numbers twice */
            l->t.numbers[i] = i % PLACE == AT_NUMBER && random_in(0, 7) != 0 ? any_number(l) : edge();
            break;
        case 6:                 /* all free, whatever else they hold and is kept */
            l->t.numbers[i] = i < KEPT && i % PLACE == AT_METHOD ? 0 : edge();
            break;
        default:
            break;
        }
    if (kind <= 2)
        for (int64_t i = 0; i < times; i++)
            l->t.numbers[random_in(0, TRAY - 1)] = edge();
}

/* Half of the numbers asked for are those of places. */
static uint32_t number_of_damaged(const struct list *l)
{
    if (random64() & 1)
        return l->t.numbers[PLACE * random_in(0, PLACES - 1) + AT_NUMBER];
    return any_number(l);
}

static void damaged_list(void)
{
    static struct list l;
    begin_list(&l);
    damage(&l);
    l.t.damaged = true;
    l.numbers.spread = SPREAD_GREATEST;
    l.t.in_place = random64() & 1;
    move_tray();
    summary(&l.t);
    for (int64_t calls = random_in(5, 100); calls > 0; calls--) {
        int64_t kind = random_in(0, 9);
        if (kind < 4)
            put_any(&l, number_of_damaged(&l));
        else if (kind < 8)
            take(&l.t, number_of_damaged(&l));
        else if (kind < 9)
            summary(&l.t);
        else
            call_with_other_sizes(&l);
    }
}

/* ---- named lists ---- */

/* Five pairs that document 01 prints, and the summary by hand. */
static void printed_samples(void)
{
    static struct list l;
    begin_list(&l);
    summary(&l.t);
    put(&l.t, 7, 73300, 8860);    /* 92 by A */
    put(&l.t, 0, 22830, 5050);    /* 156 by B */
    put(&l.t, 255, 53470, 7080);  /* 87 by A */
    put(&l.t, 128, 28489, 5000);  /* 100 by B */
    put(&l.t, 8, 8018, 2000);     /* -2 by A */
    summary(&l.t);
    static const int64_t by_hand[SUMMARY_ROW] = { 5, -2, 156, 433, 3, 2, 0 };
    if (memcmp(last_row(), by_hand, sizeof by_hand) != 0)
        fail("the summary of five samples, worked by hand", NULL);
}

/* The lowest and the highest leave, where another has the same index and where
   none has. */
static void equal_indices(void)
{
    static struct list l;
    begin_list(&l);
    static const struct { uint32_t u, y; } oils[] = { { 8018, 2000 }, { 73300, 8860 }, { 22830, 5050 } };
    for (uint32_t number = 0; number < 9; number++)
        put(&l.t, number, oils[number % 3].u, oils[number % 3].y);
    static const uint32_t order[] = { 3, 5, 0, 8, 6, 2, 7, 1, 4 };
    for (size_t i = 0; i < sizeof order / sizeof *order; i++) {
        summary(&l.t);
        take(&l.t, order[i]);
    }
    summary(&l.t);
}

/* 64 samples of the least index, -62,499,500: the sum is -3,999,968,000. */
static void greatest_sum(void)
{
    static struct list l;
    begin_list(&l);
    for (int i = 0; i < HELD_GREATEST; i++) {
        put(&l.t, 3 * (uint32_t)i, 1000000000, 2000);
        summary(&l.t);
    }
}

/* At this fill: a summary, each question of the pair with a number that is held
   and with one that is not, 31, 32 if it is full, 33. */
static void every_question(struct list *l)
{
    summary(&l->t);
    for (int held = 0; held <= 1; held++) {
        uint32_t number = number_that_is(l, held);
        for (int i = 1; i <= 4; i++) {
            uint32_t u, y;
            pick_refused(i, &u, &y);
            put(&l->t, number, u, y);
        }
    }
    if (places_held(l->t.numbers) > 0)
        put(&l->t, number_that_is(l, true), 73300, 8860);
    if (places_held(l->t.numbers) == HELD_GREATEST)
        put(&l->t, number_that_is(l, false), 73300, 8860);
    take(&l->t, number_that_is(l, false));
}

static void every_fill(void)
{
    static struct list l;
    for (int times = 0; times < 4; times++) {
        begin_list(&l);
        l.numbers.spread = SPREAD_GREATEST;
        for (int held = 0; held < HELD_GREATEST; held++) {
            every_question(&l);
            uint32_t u, y;
            pick_of(times < 2 ? BESIDE_A_HALF : OILS, &u, &y);
            put(&l.t, number_that_is(&l, false), u, y);
        }
        every_question(&l);
        for (int held = HELD_GREATEST; held > 0; held--) {
            take(&l.t, number_that_is(&l, true));
            every_question(&l);
        }
    }
}

/* Each number of one byte alone, beside its neighbours, and 64 at a time. */
static void every_number(void)
{
    static struct list l;
    begin_list(&l);
    for (uint32_t number = 0; number < ONE_BYTE; number++) {
        put(&l.t, number, 22830, 5050);
        take(&l.t, number - 1);
        take(&l.t, number + 1);
        put(&l.t, number, 73300, 8860);
        take(&l.t, number);
        take(&l.t, number);
    }
    for (uint32_t first = 0; first < ONE_BYTE; first += HELD_GREATEST) {
        for (uint32_t i = 0; i < HELD_GREATEST; i++)
            put(&l.t, first + i, 73300 + i, 8860);
        for (uint32_t number = 0; number < ONE_BYTE; number++)
            put(&l.t, number, 22830, 5050);
        for (uint32_t number = ONE_BYTE; number > 0; number--)
            take(&l.t, number - 1);
    }
}

/* Each memory of other sizes, in turn, with calls that would be answered and
   calls that would be refused. */
static void with_size(struct list *l, struct sizes sizes)
{
    static const uint32_t asked[][2] = { { 73300, 8860 }, { 20000, 1999 } };
    for (int kind = PUT; kind <= SUMMARY; kind++)
        for (int i = 0; i < 2; i++)
            make_call(&l->t, &(struct call){ (enum kind)kind, number_that_is(l, i), asked[i][0], asked[i][1], sizes });
}

static void every_size(int level)
{
    static struct list l;
    begin_list(&l);
    l.numbers.spread = SPREAD_GREATEST;
    go_to(&l, level);
    /* 512 is the count before #105, 2,084 that of bytes. */
    static const size_t counts[] = { 0, 1, 7, 8, 9, 63, 64, 65, 255, 256, 504, 511, 512, 513, 514, 519, 520, 522, 523,
        529, 1024, 1042, 2048, 2084 };
    struct sizes s = right_sizes;
    for (size_t i = 0; i < sizeof counts / sizeof *counts; i++) {
        s.tray = counts[i];
        with_size(&l, s);
    }
    for (s = right_sizes, s.record = 0; s.record <= 64; s.record++)
        with_size(&l, s);
    for (s = right_sizes, s.pair = 0; s.pair <= 16; s.pair++)
        with_size(&l, s);
    for (s = right_sizes, s.row = 0; s.row <= 64; s.row++)
        with_size(&l, s);
}

void compare_trays(uint64_t wanted)
{
    make_tray_rooms();
    printed_samples();
    equal_indices();
    greatest_sum();
    every_fill();
    every_number();
    compare_numbers();
    compare_kept();
    every_size(0);
    every_size(7);
    every_size(HELD_GREATEST);
    while (tally.tray_calls < wanted) {
        switch (random_in(0, 7)) {
        case 0:
        case 1:
            damaged_list();
            break;
        case 2:
            foreign_list();
            break;
        case 3:
            few_oils_list();
            break;
        default:
            random_list();
        }
        progress("calls with trays", tally.tray_calls, wanted);
    }
}
