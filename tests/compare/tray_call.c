#include "tray_call.h"
#include "compare.h"
#include "lent.h"

#include <string.h>

const struct sizes right_sizes = { TRAY, RECORD, SAMPLE_PAIR, SUMMARY_ROW };

/* ---- what is lent ---- */

enum { MOST_LENT = 16384 };
static struct lent tray_lent, record_lent, pair_lent, row_lent;

void make_tray_rooms(void)
{
    make_room(&tray_lent, "tray", MOST_LENT, 0);
    make_room(&record_lent, "record", MOST_LENT, 0);
    make_room(&pair_lent, "pair", MOST_LENT, 0);
    make_room(&row_lent, "summary", MOST_LENT, 0);
}

void move_tray(void)
{
    tray_lent.size = 0;
}

const int64_t *last_row(void)
{
    return (const int64_t *)(const void *)row_lent.bytes;
}

static void lend_row(const struct call *c)
{
    lend(&row_lent, c->sizes.row * sizeof(int64_t), sizeof(int64_t));
}

/* Where it is already, or somewhere else. */
static void lend_tray(const struct tested *t, const struct call *c, bool stays)
{
    size_t size = c->sizes.tray * sizeof(uint32_t);
    if (stays && size == sizeof t->numbers && tray_lent.size == size) {
        keep_lent(&tray_lent);
        return;
    }
    lend(&tray_lent, size, sizeof(uint32_t));
    put_lent(&tray_lent, t->numbers, size < sizeof t->numbers ? size : sizeof t->numbers);
}

static void lend_all(const struct tested *t, const struct call *c)
{
    lend(&record_lent, c->sizes.record, 1);
    lend(&pair_lent, c->sizes.pair * sizeof(uint32_t), sizeof(uint32_t));
    lend_row(c);
    lend_tray(t, c, t->in_place);
}

static uint32_t call_library(const struct call *c)
{
    uint32_t *tray = lent_place(&tray_lent);
    const struct sizes *s = &c->sizes;
    switch (c->kind) {
    case PUT:
        return vi_tray_put(tray, s->tray, c->number, c->u, c->y, lent_place(&record_lent), s->record);
    case TAKE:
        return vi_tray_take(tray, s->tray, c->number, lent_place(&pair_lent), s->pair, lent_place(&record_lent),
            s->record);
    default:
        return vi_tray_summary(tray, s->tray, lent_place(&row_lent), s->row);
    }
}

/* ---- the number ---- */

static bool sizes_right(const struct call *c)
{
    const struct sizes *s = &c->sizes;
    return s->tray == TRAY && (c->kind == SUMMARY || s->record == RECORD) &&
        (c->kind != TAKE || s->pair == SAMPLE_PAIR) && (c->kind != SUMMARY || s->row == SUMMARY_ROW);
}

static uint32_t by_places(const struct tested *t, const struct call *c)
{
    return c->kind == PUT ? places_put_question(t->numbers, c->number, c->u, c->y)
         : c->kind == TAKE ? places_take_question(t->numbers, c->number) : 0;
}

static uint32_t wanted_number(const struct tested *t, const struct call *c)
{
    if (!sizes_right(c))
        return WRONG_LENGTH;
    if (t->damaged)
        return by_places(t, c);
    uint32_t number = c->kind == PUT ? put_question(&t->model, c->number, c->u, c->y)
                    : c->kind == TAKE ? take_question(&t->model, c->number) : 0;
    if (number != by_places(t, c))
        fail("the two trays of the comparison differ", NULL);
    return number;
}

/* ---- an answered call ---- */

static void want_record(const struct record *r)
{
    uint8_t bytes[RECORD];
    bytes_of_record(r, bytes);
    want_lent(&record_lent, bytes, sizeof bytes);
}

/* What is kept; by the requests a walk over the samples held. */
static void want_summary(const struct tested *t)
{
    struct summary s = kept_summary(t->numbers), by_places = places_summary(t->numbers);
    struct summary by_request = summary_of(&t->model);
    if (!t->damaged && (!same_summary(&s, &by_request) || !same_summary(&by_places, &by_request)))
        fail("the two trays of the comparison differ", NULL);
    int64_t row[SUMMARY_ROW] = { s.held, s.lowest, s.highest, s.sum, s.a, s.settled, s.near };
    want_lent(&row_lent, row, sizeof row);
    tally.not_the_walk += !same_summary(&s, &by_places);
    if (t->damaged)
        return;
    tally.summaries_at[s.held]++;
    tally.sum_least = s.sum < tally.sum_least ? s.sum : tally.sum_least;
    tally.sum_greatest = s.sum > tally.sum_greatest ? s.sum : tally.sum_greatest;
}

/* Makes the call with both trays, and says what it must leave in the memory lent
   to it. The answer of a sample put in is the pair call's, which is checked. */
static void work_model(struct tested *t, const struct call *c, const struct record *answer)
{
    struct sample s = { .u = c->u, .y = c->y, .r = *answer };
    switch (c->kind) {
    case PUT:
        places_put(t->numbers, c->number, &s);
        if (!t->damaged)
            put_sample(&t->model, c->number, &s);
        want_record(answer);
        break;
    case TAKE:
        s = places_take(t->numbers, c->number);
        if (!t->damaged)
            s = take_sample(&t->model, c->number);
        want_lent(&pair_lent, (uint32_t[]){ s.u, s.y }, SAMPLE_PAIR * sizeof(uint32_t));
        want_record(&s.r);
        break;
    default:
        tally.summaries++;
        want_summary(t);
    }
}

/* "Samples held equal samples taken in less samples taken out", and they are the
   model's; then the places are the header's. */
static void check_tray(struct tested *t, const struct call *c, uint32_t number)
{
    check_beside(&tray_lent);
    if (number != 0 || c->kind == SUMMARY) {
        check_lent(&tray_lent, number != 0 ? "a refused call changed it" : "a summary changed it");
        return;
    }
    const uint32_t *found = (const uint32_t *)(const void *)tray_lent.bytes;
    t->put_in += c->kind == PUT;
    t->taken_out += c->kind == TAKE;
    if (!t->damaged) {
        if ((uint64_t)places_held(found) != t->put_in - t->taken_out)
            fail("samples held are not those taken in less those taken out", NULL);
        const char *what = tray_fault(&t->model, found);
        if (what != NULL)
            fail(what, NULL);
    }
    want_lent(&tray_lent, t->numbers, sizeof t->numbers);
    check_lent(&tray_lent, "its numbers are not as the header has them");
}

/* ---- what is met ---- */

/* How many of the number's four bytes, from the lowest on, are also those of a
   number that is held: 4 if it is held itself. */
static int bytes_alike(const uint32_t *numbers, uint32_t number)
{
    int most = 0;
    for (const uint32_t *place = numbers; place < numbers + KEPT; place += PLACE) {
        uint32_t differs = place[AT_NUMBER] ^ number;
        int alike = differs == 0 ? 4 : __builtin_ctz(differs) / 8;
        if (place[AT_METHOD] != 0 && alike > most)
            most = alike;
    }
    return most;
}

/* Of calls that got as far as their number. */
static void count_number(uint32_t number, int alike)
{
    tally.number_0 += number == 0;
    tally.number_greatest += number == UINT32_MAX;
    tally.above_one_byte += number > UINT8_MAX;
    tally.above_two_bytes += number > UINT16_MAX;
    tally.above_31_bits += number > INT32_MAX;
    for (int bytes = 1; bytes < 4; bytes++)
        tally.alike[bytes] += alike < 4 && alike >= bytes;
}

/* Of a sample that is about to leave: whether it is the last, the only one that is
   the lowest or the highest, one of several, or between them. */
static void count_leaving(const struct tray *t, int64_t index)
{
    struct summary s = summary_of(t);
    int same = 0;
    for (int i = 0; i < t->count; i++)
        same += t->samples[i].r.index == index;
    tally.last_left += s.held == 1;
    tally.between_left += s.lowest < index && index < s.highest;
    if (s.held == 1)
        return;
    tally.lowest_left[same > 1] += index == s.lowest;
    tally.highest_left[same > 1] += index == s.highest;
}

/* Of a put or a take that is about to change what a damaged tray keeps. */
static void count_kept(const struct tested *t, const struct call *c)
{
    struct summary s = kept_summary(t->numbers), by_places = places_summary(t->numbers);
    if (t->damaged && c->kind != SUMMARY) {
        tally.kept_beyond += !kept_within(&s);
        tally.kept_otherwise += kept_within(&s) && !same_summary(&s, &by_places);
    } else if (c->kind == TAKE) {
        count_leaving(&t->model, index_at(t->numbers, first_with(t->numbers, c->number)));
    }
}

static void count(const struct tested *t, const struct call *c, uint32_t number, uint8_t method, int alike, bool full)
{
    tally.tray_calls++;
    tally.tray_refused[number]++;
    tally.damaged_calls += t->damaged;
    tally.before_105 += c->sizes.tray == KEPT;
    tally.put_in[method] += number == 0 && c->kind == PUT;
    tally.taken_out += number == 0 && c->kind == TAKE;
    bool of_the_pair = number >= 1 && number <= 4;
    tally.pair_before_held += of_the_pair && alike == 4;
    tally.pair_before_full += of_the_pair && full;
    tally.held_before_full += number == NUMBER_HELD && full;
    if (c->kind != SUMMARY && (number == 0 || number >= NUMBER_HELD))
        count_number(c->number, alike);
}

/* ---- the call ---- */

/* "a refresh answers from them alone": after every call, whatever was answered, the
   tray as the call left it, and where. */
static void refresh(const struct tested *t)
{
    const struct call c = { SUMMARY, 0, 0, 0, right_sizes };
    now_tray("refresh", 0, places_held(t->numbers), tally.tray_lists);
    lend_row(&c);
    lend_tray(t, &c, true);
    if (call_library(&c) != 0)
        fail("the number of a refresh", NULL);
    want_summary(t);
    check_lent(&row_lent, t->damaged ? "a refresh is not what is kept"
                                     : "a refresh is not what a walk over the samples gives");
    check_lent(&tray_lent, "a refresh changed it");
    tally.refreshes++;
}

void make_call(struct tested *t, const struct call *c)
{
    static const char *const names[] = { "put", "take", "summary" };
    struct record answer = { 0 };
    if (c->kind == PUT)
        answer = check_pair(c->u, c->y);
    int alike = bytes_alike(t->numbers, c->number), filled = places_held(t->numbers);
    now_pair(c->u, c->y);
    now_tray(names[c->kind], c->number, filled, tally.tray_lists);
    uint32_t number = wanted_number(t, c);
    lend_all(t, c);
    if (call_library(c) != number)
        fail("the number of a call with a tray", NULL);
    if (number == 0) {
        count_kept(t, c);
        work_model(t, c, &answer);
    }
    const char *what = number != 0 ? "a refused call changed it" : "it is not what the call gives";
    check_lent(&record_lent, what);
    check_lent(&pair_lent, what);
    check_lent(&row_lent, what);
    check_tray(t, c, number);
    count(t, c, number, answer.method, alike, filled == HELD_GREATEST);
    if (c->kind != SUMMARY || number != 0)
        refresh(t);
}

void put(struct tested *t, uint32_t number, uint32_t u, uint32_t y)
{
    make_call(t, &(struct call){ PUT, number, u, y, right_sizes });
}

void take(struct tested *t, uint32_t number)
{
    make_call(t, &(struct call){ TAKE, number, 0, 0, right_sizes });
}

void summary(struct tested *t)
{
    make_call(t, &(struct call){ SUMMARY, 0, 0, 0, right_sizes });
}
