/* The cost of a tray's calls: the library beside plain C with the same tray, in one run.

   tray time                      ns a call and ratios, several repetitions
   tray list                      the cases, each with the oils it is measured with
   tray run WHAT CASE OIL TIMES   one of them alone, for an instruction count: WHAT is plain, call, pair or bare; OIL is A or B

   plain   C as a firmware author would write it, on the same layout; not verified. The answer that a put stores comes from vi_pair. It keeps the summary
           too: a put adds to it, a take takes off from it and walks over the places only where the lowest or the highest leaves, a refresh copies it.
   call    vi_tray_put, vi_tray_take or vi_tray_summary
   pair    vi_pair alone: what a put costs beyond it is the tray's own share
   bare    the loop with no call in it

   A put and a take change the tray, and the loop changes it back: by one store the first number of the place, which is free where that is 0, whatever
   else it holds; and by one copy of 36 bytes what the tray keeps, which is what the library left there when the tray was filled. The loop does both after
   every call, on both sides and also where nothing has changed. The trays take turns, so that no call reads what was stored just before. What the bare
   loop costs, store, copy and all, is subtracted from the others. */
#include <stdint.h>
#include <stdio.h>
#include <stdlib.h>
#include <string.h>

#include "measure.h"
#include "viscosity_index.h"

enum { TRAYS = 4, CALLS = 2000, PASSES = 100, STEPS = 100000 };
enum { NUMBERS = 256, APART = 16843009 }; /* the numbers of samples, from 0 to 4,294,967,295 */
enum { DRAWN = 20000, LOWER = 40000 };    /* by A: how much thicker than its oil a drawn sample is at most, and the one with the lowest index */
enum operation { PUT, TAKE, SUMMARY };

static const struct oil {
    const char *name;
    uint32_t u, y;
    uint8_t method;
} oils[] = {{"A", 73300, 8860, VI_METHOD_A}, {"B", 22830, 5050, VI_METHOD_B_SETTLED}};

static const struct situation {
    const char *name, *label;
    enum operation operation;
    uint32_t held;  /* samples before the call */
    int asked_held; /* whether the number that is asked for is held; then it is in the last place that is not free */
    uint32_t answer;
    int oils;       /* how many of the oils it is measured with */
    int lowest;     /* whether the last sample has the lowest index, with no other; otherwise it is between, where there are others */
} situations[] = {
    {"put-first", "put, none held", PUT, 0, 0, VI_ANSWERED, 2, 0},
    {"put-last", "put, 63 held", PUT, 63, 0, VI_ANSWERED, 2, 0},
    {"put-held", "put refused by 31, 64 held", PUT, 64, 1, VI_NUMBER_HELD, 2, 0},
    {"put-full", "put refused by 32, 64 held", PUT, 64, 0, VI_TRAY_FULL, 2, 0},
    {"take-only", "take the only one", TAKE, 1, 1, VI_ANSWERED, 2, 0},
    {"take-middle", "take the last of 64, between", TAKE, 64, 1, VI_ANSWERED, 2, 0},
    {"take-lowest", "take the last of 64, the lowest", TAKE, 64, 1, VI_ANSWERED, 1, 1},
    {"take-none", "take refused by 33, 64 held", TAKE, 64, 0, VI_NUMBER_NOT_HELD, 1, 0},
    {"summary-0", "summary of none", SUMMARY, 0, 0, VI_ANSWERED, 1, 0},
    {"summary-1", "summary of 1", SUMMARY, 1, 0, VI_ANSWERED, 1, 0},
    {"summary-64", "summary of 64", SUMMARY, 64, 0, VI_ANSWERED, 1, 0},
};
enum { SITUATIONS = sizeof situations / sizeof *situations };

static uint32_t trays[TRAYS][VI_TRAY_SIZE], pair[VI_SAMPLE_PAIR_SIZE];
static uint8_t record[VI_RECORD_SIZE];
static int64_t row[VI_SUMMARY_SIZE];
static uint32_t asked[TRAYS];   /* the number that is asked for */
static uint32_t at, was[TRAYS]; /* where the first number of the place stands that a call changes, and what it is before */
static uint32_t kept[TRAYS][VI_KEPT_SIZE]; /* what the tray keeps before a call */
static volatile int64_t sink;

/* ---- plain C */

/* what a tray keeps, read and written where it stands: nine numbers, the first six of them in pairs of 64 bits */
struct __attribute__((packed, may_alias)) summary {
    int64_t lowest, highest, sum;
    uint32_t counts[3]; /* by A, by B settled, by B near */
};
_Static_assert(sizeof(struct summary) == VI_KEPT_SIZE * sizeof(uint32_t), "the nine numbers");

static inline uint32_t count_of(uint32_t method)
{
    return method == VI_METHOD_A ? 0 : method == VI_METHOD_B_SETTLED ? 1 : 2;
}

static inline void add(struct summary *s, uint32_t method, int32_t index)
{
    int none = (s->counts[0] | s->counts[1] | s->counts[2]) == 0;
    if (none || index < s->lowest)
        s->lowest = index;
    if (none || index > s->highest)
        s->highest = index;
    s->sum += index;
    s->counts[count_of(method)]++;
}

static inline struct summary walk(const uint32_t *tray)
{
    int64_t lowest = 0, highest = 0, sum = 0;
    uint32_t held = 0, by_a = 0, settled = 0;
    for (const uint32_t *place = tray; place < tray + VI_TRAY_KEPT; place += VI_PLACE_SIZE) {
        uint32_t method = place[VI_PLACE_METHOD];
        int32_t index = (int32_t)place[VI_PLACE_INDEX];
        if (method == 0)
            continue;
        lowest = held == 0 || index < lowest ? index : lowest;
        highest = held == 0 || index > highest ? index : highest;
        sum += index;
        by_a += method == VI_METHOD_A;
        settled += method == VI_METHOD_B_SETTLED;
        held++;
    }
    return (struct summary){lowest, highest, sum, {by_a, settled, held - by_a - settled}};
}

static CALLED uint32_t plain_put(uint32_t *tray, size_t tray_count, uint32_t number, uint32_t u, uint32_t y, uint8_t *to, size_t length)
{
    uint32_t *vacant = NULL;
    if (tray_count != VI_TRAY_SIZE || length != VI_RECORD_SIZE)
        return VI_TRAY_NOT_LENT;
    if (y < VI_Y_LEAST)
        return VI_Y_BELOW_LEAST;
    if (y > VI_Y_GREATEST)
        return VI_Y_ABOVE_MOST;
    if (u > VI_U_GREATEST)
        return VI_U_ABOVE_MOST;
    if (u <= y)
        return VI_U_NOT_ABOVE_Y;
    for (uint32_t *place = tray; place < tray + VI_TRAY_KEPT; place += VI_PLACE_SIZE) {
        if (place[VI_PLACE_NUMBER] == number && place[VI_PLACE_METHOD] != 0)
            return VI_NUMBER_HELD;
        if (!vacant && place[VI_PLACE_METHOD] == 0)
            vacant = place;
    }
    if (!vacant)
        return VI_TRAY_FULL;
    vi_pair(u, y, to, length);
    vacant[VI_PLACE_METHOD] = to[VI_RECORD_METHOD];
    vacant[VI_PLACE_NUMBER] = number;
    vacant[VI_PLACE_U] = u;
    vacant[VI_PLACE_Y] = y;
    memcpy(vacant + VI_PLACE_INDEX, to + VI_RECORD_INDEX, 12); /* index, p and P */
    vacant[7] = 0;
    add((struct summary *)(tray + VI_TRAY_KEPT), vacant[VI_PLACE_METHOD], (int32_t)vacant[VI_PLACE_INDEX]);
    return VI_ANSWERED;
}

static CALLED uint32_t plain_take(uint32_t *tray, size_t tray_count, uint32_t number, uint32_t *u_and_y, size_t pair_count, uint8_t *to, size_t length)
{
    struct summary *s = (struct summary *)(tray + VI_TRAY_KEPT);
    if (tray_count != VI_TRAY_SIZE || pair_count != VI_SAMPLE_PAIR_SIZE || length != VI_RECORD_SIZE)
        return VI_TRAY_NOT_LENT;
    for (uint32_t *place = tray; place < tray + VI_TRAY_KEPT; place += VI_PLACE_SIZE) {
        uint32_t method = place[VI_PLACE_METHOD];
        if (method == 0 || place[VI_PLACE_NUMBER] != number)
            continue;
        int32_t index = (int32_t)place[VI_PLACE_INDEX];
        memcpy(u_and_y, place + VI_PLACE_U, 8);
        memset(to, 0, 4);
        to[VI_RECORD_METHOD] = (uint8_t)(method < VI_METHOD_B_NEAR ? method : VI_METHOD_B_NEAR);
        memcpy(to + VI_RECORD_INDEX, place + VI_PLACE_INDEX, 12);
        place[VI_PLACE_METHOD] = 0;
        if (index == s->lowest || index == s->highest) {
            *s = walk(tray);
        } else {
            s->sum -= index;
            s->counts[count_of(method)]--;
        }
        return VI_ANSWERED;
    }
    return VI_NUMBER_NOT_HELD;
}

static CALLED uint32_t plain_summary(const uint32_t *tray, size_t tray_count, int64_t *to, size_t row_count)
{
    const struct summary *s = (const struct summary *)(tray + VI_TRAY_KEPT);
    if (tray_count != VI_TRAY_SIZE || row_count != VI_SUMMARY_SIZE)
        return VI_TRAY_NOT_LENT;
    to[VI_SUMMARY_HELD] = (int64_t)s->counts[0] + s->counts[1] + s->counts[2];
    to[VI_SUMMARY_LOWEST] = s->lowest;
    to[VI_SUMMARY_HIGHEST] = s->highest;
    to[VI_SUMMARY_SUM] = s->sum;
    to[VI_SUMMARY_A] = s->counts[0];
    to[VI_SUMMARY_SETTLED] = s->counts[1];
    to[VI_SUMMARY_NEAR] = s->counts[2];
    return VI_ANSWERED;
}

static inline uint32_t nothing(void)
{
    __asm__ volatile("" : : : "memory");
    return 0;
}

/* ---- the trays */

static void fail(const char *what, const char *where, long long found)
{
    fprintf(stderr, "tray: %s: %s: %lld\n", where, what, found);
    exit(1);
}

/* by A or by B, as often; the index of each is beyond that of the oil it is drawn from, or at it: at most 92 by A, at least 156 by B */
static struct oil draw(void)
{
    struct oil oil = oils[random_unit() < 0.5];
    oil.u = oil.method == VI_METHOD_A ? oil.u + (uint32_t)(DRAWN * random_unit()) : oil.u - (uint32_t)(2000 * random_unit());
    return oil;
}

/* Whether the last sample of a tray of several leaves the lowest and the highest as they are, or is the lowest: as `s` says. */
static void check_last(const struct situation *s, const uint32_t *tray)
{
    int64_t index = (int32_t)tray[VI_PLACE_SIZE * (s->held - 1) + VI_PLACE_INDEX], next = INT64_MAX;
    for (uint32_t i = 0; i + 1 < s->held; i++) {
        int64_t other = (int32_t)tray[VI_PLACE_SIZE * i + VI_PLACE_INDEX];
        next = other < next ? other : next;
    }
    vi_tray_summary(tray, VI_TRAY_SIZE, row, VI_SUMMARY_SIZE);
    if (s->lowest ? index >= next : index <= row[VI_SUMMARY_LOWEST] || index >= row[VI_SUMMARY_HIGHEST])
        fail("the last sample has not the index it should", s->name, index);
}

/* Each tray holds what `s` says, put in from the empty tray on, under numbers in random order; the last sample is `oil`, or thicker where it is to have
   the lowest index. */
static void fill(const struct situation *s, struct oil oil)
{
    oil.u += s->lowest ? LOWER : 0;
    vi_pair(oil.u, oil.y, record, sizeof record);
    if (record[VI_RECORD_METHOD] != oil.method)
        fail("the oil has another method", oil.name, record[VI_RECORD_METHOD]);
    for (int t = 0; t < TRAYS; t++) {
        uint32_t numbers[NUMBERS];
        for (int i = 0; i < NUMBERS; i++) {
            int j = (int)((i + 1) * random_unit());
            numbers[i] = numbers[j];
            numbers[j] = APART * (uint32_t)i;
        }
        memset(trays[t], 0, sizeof trays[t]);
        for (uint32_t i = 0; i < s->held; i++) {
            struct oil one = i + 1 == s->held ? oil : draw();
            uint32_t answer = vi_tray_put(trays[t], VI_TRAY_SIZE, numbers[i], one.u, one.y, record, sizeof record);
            if (answer != VI_ANSWERED)
                fail("a sample is not put in", s->name, answer);
        }
        asked[t] = numbers[s->asked_held ? s->held - 1 : s->held];
        if (s->held > 1 && s->operation == TAKE)
            check_last(s, trays[t]);
        memcpy(kept[t], trays[t] + VI_TRAY_KEPT, sizeof kept[t]);
    }
    at = 0;
    if (s->answer == VI_ANSWERED && s->operation != SUMMARY)
        at = VI_PLACE_SIZE * (s->operation == PUT ? s->held : s->held - 1);
    for (int t = 0; t < TRAYS; t++)
        was[t] = trays[t][at];
}

/* The library and plain C answer the same and leave the same in every memory, on many calls from the empty tray on. */
static void compare(void)
{
    static uint32_t plain_tray[VI_TRAY_SIZE], plain_pair[VI_SAMPLE_PAIR_SIZE];
    static uint8_t plain_record[VI_RECORD_SIZE];
    static int64_t plain_row[VI_SUMMARY_SIZE];
    uint32_t *tray = trays[0], a, b;
    int answers[NUMBERS] = {0};
    memset(tray, 0, sizeof trays[0]);
    for (int i = 0; i < STEPS; i++) {
        uint32_t number = APART * (uint32_t)(100 * random_unit());
        double puts = i / 1000 % 2 == 0 ? 0.8 : 0.1; /* a thousand steps that fill the tray, a thousand that empty it */
        struct oil oil = draw();
        if (random_unit() < 0.05)
            oil.u = oil.y;
        if (random_unit() < 0.1) {
            a = plain_summary(plain_tray, VI_TRAY_SIZE, plain_row, VI_SUMMARY_SIZE);
            b = vi_tray_summary(tray, VI_TRAY_SIZE, row, VI_SUMMARY_SIZE);
        } else if (random_unit() < puts) {
            a = plain_put(plain_tray, VI_TRAY_SIZE, number, oil.u, oil.y, plain_record, VI_RECORD_SIZE);
            b = vi_tray_put(tray, VI_TRAY_SIZE, number, oil.u, oil.y, record, VI_RECORD_SIZE);
        } else {
            a = plain_take(plain_tray, VI_TRAY_SIZE, number, plain_pair, VI_SAMPLE_PAIR_SIZE, plain_record, VI_RECORD_SIZE);
            b = vi_tray_take(tray, VI_TRAY_SIZE, number, pair, VI_SAMPLE_PAIR_SIZE, record, VI_RECORD_SIZE);
        }
        if (a != b || memcmp(plain_tray, tray, sizeof plain_tray) != 0 || memcmp(plain_pair, pair, sizeof pair) != 0
            || memcmp(plain_record, record, sizeof record) != 0 || memcmp(plain_row, row, sizeof row) != 0)
            fail("plain C and the library differ", "step", i);
        answers[a % NUMBERS]++;
    }
    printf("%d calls from the empty tray on, plain C and the library do the same: %d answered, %d refused by 4, %d by 31, %d by 32, %d by 33\n", STEPS,
        answers[VI_ANSWERED], answers[VI_U_NOT_ABOVE_Y], answers[VI_NUMBER_HELD], answers[VI_TRAY_FULL], answers[VI_NUMBER_NOT_HELD]);
}

/* ---- one pass of many calls */

#define FOR_ALL(CALL)                                           \
    for (int i = 0, t = 0; i < CALLS; i++, t = i % TRAYS) {     \
        sum += CALL;                                            \
        trays[t][at] = was[t];                                  \
        memcpy(trays[t] + VI_TRAY_KEPT, kept[t], sizeof *kept); \
    }

static void pass(const char *what, const struct situation *s, const struct oil *oil)
{
    int64_t sum = 0, expected = 0;
    uint32_t u = oil->u, y = oil->y;
    if (strcmp(what, "bare") == 0)
        FOR_ALL(nothing())
    else if (strcmp(what, "pair") == 0)
        FOR_ALL(vi_pair(u, y, record, VI_RECORD_SIZE))
    else {
        int plain = strcmp(what, "plain") == 0;
        expected = (int64_t)CALLS * s->answer;
        if (plain && s->operation == PUT)
            FOR_ALL(plain_put(trays[t], VI_TRAY_SIZE, asked[t], u, y, record, VI_RECORD_SIZE))
        else if (plain && s->operation == TAKE)
            FOR_ALL(plain_take(trays[t], VI_TRAY_SIZE, asked[t], pair, VI_SAMPLE_PAIR_SIZE, record, VI_RECORD_SIZE))
        else if (plain)
            FOR_ALL(plain_summary(trays[t], VI_TRAY_SIZE, row, VI_SUMMARY_SIZE))
        else if (s->operation == PUT)
            FOR_ALL(vi_tray_put(trays[t], VI_TRAY_SIZE, asked[t], u, y, record, VI_RECORD_SIZE))
        else if (s->operation == TAKE)
            FOR_ALL(vi_tray_take(trays[t], VI_TRAY_SIZE, asked[t], pair, VI_SAMPLE_PAIR_SIZE, record, VI_RECORD_SIZE))
        else
            FOR_ALL(vi_tray_summary(trays[t], VI_TRAY_SIZE, row, VI_SUMMARY_SIZE))
        if (s->operation == SUMMARY && row[VI_SUMMARY_HELD] != s->held)
            fail("another count of samples", s->name, row[VI_SUMMARY_HELD]);
    }
    if (sum != expected)
        fail("another sum of answers", s->name, sum);
    sink += sum;
}

/* ---- measuring */

static double ns_a_call(const char *what, const struct situation *s, const struct oil *oil)
{
    double start = now();
    for (int i = 0; i < PASSES; i++)
        pass(what, s, oil);
    return (now() - start) / PASSES / CALLS;
}

static void time_one(const struct situation *s, const struct oil *oil)
{
    static const char *const calls[] = {"vi_tray_put", "vi_tray_take", "vi_tray_summary"};
    double bare[REPEATS], plain[REPEATS], call[REPEATS], alone[REPEATS], ratio[REPEATS], plain_share[REPEATS], share[REPEATS];
    int puts = s->operation == PUT && s->answer == VI_ANSWERED;
    fill(s, *oil);
    for (int r = 0; r < REPEATS; r++) {
        bare[r] = ns_a_call("bare", s, oil);
        plain[r] = ns_a_call("plain", s, oil) - bare[r];
        call[r] = ns_a_call("call", s, oil) - bare[r];
        ratio[r] = call[r] / plain[r];
        if (!puts)
            continue;
        alone[r] = ns_a_call("pair", s, oil) - bare[r];
        plain_share[r] = plain[r] - alone[r];
        share[r] = call[r] - alone[r];
    }
    printf("%s", s->label);
    if (s->oils > 1)
        printf(", oil by %s (%u, %u)", oil->name, oil->u, oil->y);
    printf(": ns a call, median of %d repetitions (least to greatest)\n", REPEATS);
    report("plain C", plain);
    report(calls[s->operation], call);
    report("call / plain C", ratio);
    if (puts) {
        report("vi_pair alone", alone);
        report("plain C - vi_pair", plain_share);
        report("call - vi_pair", share);
    }
    report("the bare loop, subtracted", bare);
}

int main(int count, char **words)
{
    int timed = count == 2 && strcmp(words[1], "time") == 0, listed = count == 2 && strcmp(words[1], "list") == 0, known = 0;
    if (timed)
        compare();
    for (int i = 0; i < SITUATIONS; i++)
        for (int j = 0; j < situations[i].oils; j++) {
            const struct situation *s = &situations[i];
            if (timed)
                time_one(s, &oils[j]);
            if (listed)
                printf("%s %s\n", s->name, oils[j].name);
            if (count != 6 || strcmp(words[1], "run") != 0 || strcmp(words[3], s->name) != 0 || strcmp(words[4], oils[j].name) != 0)
                continue;
            known = 1;
            fill(s, oils[j]);
            for (int t = atoi(words[5]); t > 0; t--)
                pass(words[2], s, &oils[j]);
        }
    if (known || timed || listed)
        return 0;
    fprintf(stderr, "tray time | tray list | tray run WHAT CASE OIL TIMES\n");
    return 2;
}
