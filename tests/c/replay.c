/*
 * Makes a list of calls with one tray, empty before the first, and prints each call with its answer.
 *
 *   replay make    prints a list: one call a line, numbers up to 255
 *   replay         reads a list and prints its record: each call again, with its answer
 *
 * A record is a list too, since what stands behind a colon is not read: it comes out as it went in, unless an answer is another. The lines of a record:
 *
 *   put NUMBER U Y: ANSWER, record BYTES
 *   take NUMBER: ANSWER, pair U Y, record BYTES
 *   summary: ANSWER, row HELD LOWEST HIGHEST SUM A SETTLED NEAR
 *   end: what the calls have met; it must be the last line
 *
 * A call may have `sizes` behind it and the sizes that are lent, in the order of the function's parameters. The size of a tray is written as it was when the
 * lists were recorded, when 512 numbers were right: what is lent has as many more or fewer than are right now. All memory but the tray is filled before
 * each call; where it still is as it was filled, the line says so. A line that begins with # is printed as it is. How a tray is laid out shows nowhere.
 */
#include "viscosity_index.h"

#include <inttypes.h>
#include <stdio.h>
#include <stdlib.h>
#include <string.h>

enum { FILL = 0xAA, LINE = 400, NUMBERS = 256, MOST_TRAY = 1024, MOST = 64 };
enum { TRAY_WRITTEN = 512, TRAY_MORE = (int)VI_TRAY_SIZE - TRAY_WRITTEN }; /* the right size in a list, and how much more is lent */
enum { ANSWERS = VI_NUMBER_NOT_HELD + 1, METHODS = 4, REFUSED_PAIRS = 8 };
enum kind { PUT, TAKE, SUMMARY, KINDS };

static const struct form {
    const char *name;
    int words, sizes;  /* how many numbers follow the name, and how many memories are lent */
    uint32_t right[3]; /* their sizes as they are written, in the order of the function's parameters */
} forms[KINDS] = {
    {"put", 3, 2, {TRAY_WRITTEN, VI_RECORD_SIZE, 0}},
    {"take", 1, 3, {TRAY_WRITTEN, VI_SAMPLE_PAIR_SIZE, VI_RECORD_SIZE}},
    {"summary", 0, 2, {TRAY_WRITTEN, VI_SUMMARY_SIZE, 0}},
};

struct call {
    enum kind kind;
    uint32_t words[3]; /* the number, u and y */
    uint32_t sizes[3];
};

static const char with_sizes[] = " sizes";

static void print_call(const struct call *c)
{
    const struct form *f = &forms[c->kind];
    printf("%s", f->name);
    for (int i = 0; i < f->words; i++)
        printf(" %" PRIu32, c->words[i]);
    if (memcmp(c->sizes, f->right, sizeof c->sizes) == 0)
        return;
    printf("%s", with_sizes);
    for (int i = 0; i < f->sizes; i++)
        printf(" %" PRIu32, c->sizes[i]);
}

/* ---- reading a call ---- */

/* so many numbers, each behind a space; the place behind them, or NULL */
static const char *read_numbers(const char *at, int count, uint32_t *to)
{
    for (int i = 0; i < count; i++) {
        char *end;
        if (at[0] != ' ' || at[1] < '0' || at[1] > '9')
            return NULL;
        const unsigned long long found = strtoull(at + 1, &end, 10);
        if (found > UINT32_MAX)
            return NULL;
        to[i] = (uint32_t)found;
        at = end;
    }
    return at;
}

static int read_call(const char *line, struct call *c)
{
    for (int kind = 0; kind < KINDS; kind++) {
        const struct form *f = &forms[kind];
        const size_t length = strlen(f->name);
        if (strncmp(line, f->name, length) != 0)
            continue;
        memset(c, 0, sizeof *c);
        c->kind = (enum kind)kind;
        memcpy(c->sizes, f->right, sizeof c->sizes);
        const char *at = read_numbers(line + length, f->words, c->words);
        if (at != NULL && strncmp(at, with_sizes, strlen(with_sizes)) == 0)
            at = read_numbers(at + strlen(with_sizes), f->sizes, c->sizes);
        return at != NULL && (*at == ':' || *at == '\n') && c->words[0] < NUMBERS && c->sizes[0] <= MOST_TRAY && c->sizes[1] <= MOST &&
               c->sizes[2] <= MOST;
    }
    return 0;
}

/* ---- making it ---- */

static uint32_t tray[MOST_TRAY + TRAY_MORE], pair[MOST];
static uint8_t record[MOST];
static int64_t row[MOST];

/* what the calls have met, for the last line */
static struct {
    unsigned calls, answered[KINDS], by_method[METHODS], refused[ANSWERS], below_zero, numbers, held, most_held;
    uint8_t was_put_in[NUMBERS];
} met;

static uint32_t make(const struct call *c)
{
    const uint32_t *of = c->words, *size = c->sizes;
    const size_t tray_count = (size_t)size[0] + TRAY_MORE;
    memset(pair, FILL, sizeof pair);
    memset(record, FILL, sizeof record);
    memset(row, FILL, sizeof row);
    if (c->kind == PUT)
        return vi_tray_put(tray, tray_count, of[0], of[1], of[2], record, size[1]);
    if (c->kind == TAKE)
        return vi_tray_take(tray, tray_count, of[0], pair, size[1], record, size[2]);
    return vi_tray_summary(tray, tray_count, row, size[1]);
}

static void count(const struct call *c, uint32_t answer)
{
    met.calls++;
    if (answer != VI_ANSWERED) {
        met.refused[answer < ANSWERS ? answer : 0]++;
        return;
    }
    met.answered[c->kind]++;
    met.held -= c->kind == TAKE;
    if (c->kind != PUT)
        return;
    met.held++;
    met.most_held = met.held > met.most_held ? met.held : met.most_held;
    met.by_method[record[VI_RECORD_METHOD] % METHODS]++;
    met.below_zero += record[VI_RECORD_INDEX + 3] >= 0x80;
    met.numbers += !met.was_put_in[c->words[0]];
    met.was_put_in[c->words[0]] = 1;
}

/* ---- printing what it left ---- */

/* whether a byte of a memory, from one to before another, is not as it was filled */
static int changed(const void *memory, size_t from, size_t to)
{
    while (from < to && ((const uint8_t *)memory)[from] == FILL)
        from++;
    return from < to;
}

/* prints the name of a memory, and says so where a byte behind its right size is changed, and where none of it is; whether one is */
static int print_name(const char *name, const void *memory, size_t right, size_t size)
{
    const int behind = changed(memory, right, size), any = changed(memory, 0, size);
    printf(", %s%s", name, behind ? " and what is behind it" : any ? "" : " as it was");
    return any;
}

static void print_left(const struct call *c)
{
    if (c->kind == TAKE && print_name("pair", pair, VI_SAMPLE_PAIR_SIZE * sizeof *pair, sizeof pair))
        printf(" %" PRIu32 " %" PRIu32, pair[VI_SAMPLE_PAIR_U], pair[VI_SAMPLE_PAIR_Y]);
    if (c->kind != SUMMARY && print_name("record", record, VI_RECORD_SIZE, sizeof record))
        for (unsigned i = 0; i < VI_RECORD_SIZE; i++)
            printf("%s%02x", i % 4 == 0 ? " " : "", record[i]);
    if (c->kind == SUMMARY && print_name("row", row, VI_SUMMARY_SIZE * sizeof *row, sizeof row))
        for (unsigned i = 0; i < VI_SUMMARY_SIZE; i++)
            printf(" %" PRId64, row[i]);
}

static void replay(const struct call *c)
{
    uint32_t before[MOST_TRAY + TRAY_MORE];
    memcpy(before, tray, sizeof before);
    const uint32_t answer = make(c);
    count(c, answer);
    print_call(c);
    printf(": %" PRIu32, answer);
    print_left(c);
    if ((answer != VI_ANSWERED || c->kind == SUMMARY) && memcmp(before, tray, sizeof before) != 0)
        printf(", the tray changed");
    printf("\n");
}

static void print_end(void)
{
    printf("end: %u calls: put in %u by A, %u by B settled, %u by B near, taken out %u, summaries %u", met.calls, met.by_method[VI_METHOD_A],
           met.by_method[VI_METHOD_B_SETTLED], met.by_method[VI_METHOD_B_NEAR], met.answered[TAKE], met.answered[SUMMARY]);
    printf("; refused by");
    for (unsigned i = 1; i < ANSWERS; i++)
        if (i <= VI_TRAY_NOT_LENT || i >= VI_NUMBER_HELD)
            printf(" %u: %u%s", i, met.refused[i], i < VI_NUMBER_NOT_HELD ? "," : "");
    printf("; %u numbers, at most %u held, %u indices below zero\n", met.numbers, met.most_held, met.below_zero);
}

static int replay_all(void)
{
    char line[LINE];
    struct call c;
    unsigned lines = 0, ended = 0;
    while (fgets(line, sizeof line, stdin) != NULL) {
        lines++;
        const int of_calls = line[0] != '#', ends = of_calls && strncmp(line, "end", 3) == 0;
        if (strchr(line, '\n') == NULL || ended || (of_calls && !ends && !read_call(line, &c))) {
            fprintf(stderr, "replay: line %u is no call, or stands behind the end\n", lines);
            return 1;
        }
        ended = ends;
        if (!of_calls)
            fputs(line, stdout);
        else if (ends)
            print_end();
        else
            replay(&c);
    }
    if (!ended)
        fprintf(stderr, "replay: the list has no end\n");
    return !ended;
}

/* ---- the list ---- */

/* what the tray holds after the calls listed so far */
static uint8_t held[NUMBERS];
static unsigned count_held;

static uint32_t below(uint32_t most)
{
    static uint32_t state = 102;
    state = state * 1664525u + 1013904223u;
    return (uint32_t)((uint64_t)state * most >> 32);
}

static uint32_t number_that_is(int wanted)
{
    uint32_t number = below(NUMBERS);
    for (int i = 0; i < NUMBERS && held[number] != wanted; i++)
        number = (number + 1) % NUMBERS;
    return number;
}

static void list_call(enum kind kind, uint32_t number, uint32_t u, uint32_t y)
{
    struct call c = {kind, {number, u, y}, {0}};
    memcpy(c.sizes, forms[kind].right, sizeof c.sizes);
    print_call(&c);
    printf("\n");
}

/* a sample that is not refused by its pair */
static void list_put(uint32_t number, uint32_t u, uint32_t y)
{
    list_call(PUT, number, u, y);
    if (held[number] || count_held == VI_TRAY_PLACES)
        return;
    held[number] = 1;
    count_held++;
}

static void list_any_put(uint32_t number)
{
    /* document 01's, those beside a half by B, and the ends of the index: 6,593 and -62,499,500. By A none is exactly at a half: where that goes is
       no matter of the tray. */
    static const uint32_t oils[][2] = {{73300, 8860},  {22830, 5050},   {53470, 7080},   {28489, 5000},   {8019, 2000},   {144936, 16776},
                                       {85024, 11025}, {89691, 14189},  {159716, 18157}, {164756, 18062}, {63061, 8725},  {111171, 18037},
                                       {6403, 2000},   {342864, 32826}, {712915, 44198}, {2001, 2000},    {500001, 500000}, {1000000000, 2000}};
    const uint32_t y = VI_Y_LEAST + below(below(2) ? 20000 : VI_Y_GREATEST - VI_Y_LEAST + 1), *oil = oils[below(sizeof oils / sizeof *oils)];
    if (below(2))
        list_put(number, oil[0], oil[1]);
    else
        list_put(number, y + 1 + below((below(2) ? 6 : 20) * y), y);
}

static void list_take(uint32_t number)
{
    list_call(TAKE, number, 0, 0);
    count_held -= held[number];
    held[number] = 0;
}

/* a call of each kind with one memory of another size */
static void list_other_sizes(void)
{
    static const uint32_t others[] = {0, 1, 3, 6, 8, 15, 17, 64};
    for (int kind = 0; kind < KINDS; kind++) {
        struct call c = {(enum kind)kind, {number_that_is(kind == TAKE), 73300, 8860}, {0}};
        memcpy(c.sizes, forms[kind].right, sizeof c.sizes);
        const uint32_t which = below((uint32_t)forms[kind].sizes);
        c.sizes[which] = which == 0 ? TRAY_WRITTEN - 1 + 2 * below(2) : others[below(8)];
        print_call(&c);
        printf("\n");
    }
}

static void list_refused_pair(uint32_t number, unsigned which)
{
    static const uint32_t pairs[REFUSED_PAIRS][2] = {{3000, 1999}, {600000, 500001}, {1000000001, 2000}, {2000, 2000},
                                        {0, 0}, {UINT32_MAX, UINT32_MAX}, {UINT32_MAX, 500000}, {0, 500000}};
    list_call(PUT, number, pairs[which % REFUSED_PAIRS][0], pairs[which % REFUSED_PAIRS][1]);
}

/* with the tray as it is: every question with a number that is held, if there is one, and with one that is not; a summary */
static void list_questions(void)
{
    for (unsigned i = 0; i < REFUSED_PAIRS; i++)
        list_refused_pair(number_that_is(i % 2), i);
    if (count_held > 0)
        list_any_put(number_that_is(1));
    if (count_held == VI_TRAY_PLACES)
        list_any_put(number_that_is(0));
    list_take(number_that_is(0));
    list_other_sizes();
    list_call(SUMMARY, 0, 0, 0);
}

/* 64 of the 256 numbers, in and out, a summary after every eighth; where `least` is set, all of them with the least index */
static void list_64(uint32_t first, int least)
{
    for (uint32_t i = 0; i < VI_TRAY_PLACES; i++) {
        const uint32_t number = 37 * (first + i) % NUMBERS;
        if (least)
            list_put(number, VI_U_GREATEST, VI_Y_LEAST);
        else
            list_any_put(number);
        if (i % 8 == 7)
            list_call(SUMMARY, 0, 0, 0);
    }
    list_questions();
    for (uint32_t i = 0; i < VI_TRAY_PLACES; i++) {
        list_take(37 * (first + 29 * i % VI_TRAY_PLACES) % NUMBERS);
        if (i % 8 == 7)
            list_call(SUMMARY, 0, 0, 0);
    }
}

/* calls of every kind, as they come; for 150 calls mostly puts, for 150 mostly takes */
static void list_any(unsigned calls)
{
    for (unsigned i = 0; i < calls; i++) {
        const uint32_t kind = below(24), number = below(NUMBERS), as_usual = below(8) != 0;
        if (kind < 3)
            list_call(SUMMARY, 0, 0, 0);
        else if (kind == 3)
            list_refused_pair(number, below(REFUSED_PAIRS));
        else if (kind == 4)
            list_other_sizes();
        else if (below(10) < (i / 150 % 2 == 0 ? 8u : 2u))
            list_any_put(number_that_is(!as_usual));
        else
            list_take(number_that_is(as_usual));
    }
}

static void list_all(void)
{
    list_questions();
    for (uint32_t first = 0; first < NUMBERS; first += VI_TRAY_PLACES)
        list_64(first, 0);
    list_64(0, 1);
    list_any(1200);
    for (int number = NUMBERS - 1; number >= 0; number--)
        if (held[number])
            list_take((uint32_t)number);
    list_questions();
    printf("end\n");
}

int main(int words, char **word)
{
    if (words == 1)
        return replay_all();
    if (words == 2 && strcmp(word[1], "make") == 0) {
        list_all();
        return 0;
    }
    fprintf(stderr, "usage: replay make | replay <LIST\n");
    return 2;
}
