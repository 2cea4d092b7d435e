/* Trays that are wrong on purpose, put before the library as those of wrong.c are;
   -DWRONG=n chooses the fault. The comparison must notice each one. With the last
   number pair and tray are right but give other fractions, and must pass. */
#include "tray.h"
#include "wrapped_trays.h"

#include <string.h>

uint32_t __real_vi_pair(uint32_t u, uint32_t y, uint8_t *record, size_t length);
uint32_t __wrap_vi_pair(uint32_t u, uint32_t y, uint8_t *record, size_t length);

enum {
    /* put */
    REPLACES = 1, HELD_TWICE, FULL_AT_63, OVERWRITES_LAST, HELD_FIRST, FULL_FIRST, FULL_BEFORE_HELD, SIZES_LAST,
    REFUSED_STORED, HELD_CHANGES_INDEX, REFUSED_RECORD, HELD_RECORD, RECORD_AS_FOUND, NOT_STORED, Y_FOR_U,
    FRACTIONS_LOST, OTHER_FRACTIONS, SEVEN_BITS, COUNT_REMEMBERED,
    /* take */
    FIRST_TAKEN, LEFT_HELD, NEIGHBOUR_TOO, NUMBER_0_NOT_HELD, Y_FIRST, REFUSED_PAIR, REFUSED_TAKE_RECORD,
    NUMBER_IN_RECORD, LAST_SAMPLE_AGAIN,
    /* summary */
    SUM_32_BITS, NEAR_AS_SETTLED, SETTLED_AS_A, EMPTY_LOWEST, EMPTY_HELD, LOWEST_FROM_0, HIGHEST_FROM_0,
    LOWEST_GONE, HIGHEST_GONE, EQUAL_ONCE, WITHOUT_SIGN, SUMMARY_CHANGES, LAST_NOT_SEEN, ROW_AS_FOUND, BESIDE_ROW,
    /* sizes */
    PUT_TRAY_ANY, PUT_RECORD_ANY, TAKE_TRAY_ANY, TAKE_RECORD_ANY, TAKE_PAIR_ANY, SUMMARY_TRAY_ANY, SUMMARY_ROW_ANY,
    /* the header's layout, and damaged trays */
    LAST_FREE, REST_LEFT, PLACE_CLEARED, METHOD_4_REFUSED, METHOD_4_GIVEN, LAST_OF_NUMBER, NUMBER_8_BITS,
    A_WITH_FRACTIONS, B_WITH_SIGN,
    /* right */
    OTHER_FRACTIONS_EVERYWHERE
};

static uint32_t *place_of(uint32_t *tray, int place)
{
    return tray + PLACE * place;
}

/* Other fractions that show the same index: as wide as they may be. */
static void widen(struct record *r)
{
    if (r->method != B_SETTLED && r->method != B_NEAR)
        return;
    int64_t k = 100 * (int64_t)r->index;
    int64_t p = power_ceiling(r->method == B_NEAR ? k - 51 : k - 50);
    r->p = p < 0 ? 0 : (uint32_t)p;
    r->P = (uint32_t)power_floor(r->method == B_NEAR ? k - 49 : k + 50);
}

uint32_t __wrap_vi_pair(uint32_t u, uint32_t y, uint8_t *record, size_t length)
{
    uint32_t number = __real_vi_pair(u, y, record, length);
    if (WRONG == OTHER_FRACTIONS_EVERYWHERE && number == 0) {
        struct record r = record_of_bytes(record);
        widen(&r);
        bytes_of_record(&r, record);
    }
    return number;
}

/* ---- put ---- */

static uint64_t remembered;     /* how many are held, whatever tray it is */

/* A number that is answered without the library; 0 if none is. */
static uint32_t asked_wrongly(const uint32_t *tray, uint32_t number, uint32_t u, uint32_t y)
{
    bool held = first_with(tray, number) < PLACES, full = first_free(tray) == PLACES;
    if (WRONG == HELD_FIRST && held)
        return NUMBER_HELD;
    if (WRONG == FULL_FIRST && full)
        return TRAY_FULL;
    if (question(u, y) != 0)
        return 0;
    if (WRONG == FULL_BEFORE_HELD && full)
        return TRAY_FULL;
    if (WRONG == FULL_AT_63 && !held && places_held(tray) >= PLACES - 1)
        return TRAY_FULL;
    if (WRONG == COUNT_REMEMBERED && !held && remembered >= PLACES)
        return TRAY_FULL;
    return 0;
}

/* Lets a refused put in after all: a place is made free for it. */
static uint32_t let_in(uint32_t number_answered, uint32_t *tray, uint32_t number, uint32_t u, uint32_t y,
    uint8_t *record)
{
    int held = first_with(tray, number);
    if (WRONG == REPLACES && number_answered == NUMBER_HELD)
        place_of(tray, held)[AT_METHOD] = 0;
    else if (WRONG == OVERWRITES_LAST && number_answered == TRAY_FULL)
        place_of(tray, PLACES - 1)[AT_METHOD] = 0;
    else if (WRONG == HELD_TWICE && number_answered == NUMBER_HELD && first_free(tray) < PLACES)
        place_of(tray, held)[AT_NUMBER] = ~number;
    else
        return number_answered;
    uint32_t answer = __real_vi_tray_put(tray, TRAY, number, u, y, record, RECORD);
    if (WRONG == HELD_TWICE)
        place_of(tray, held)[AT_NUMBER] = number;
    return answer;
}

static void spoil_refused_put(uint32_t answer, uint32_t *tray, uint32_t number, uint32_t u, uint32_t y,
    uint8_t *record)
{
    int held = first_with(tray, number), place = first_free(tray);
    if (WRONG == REFUSED_STORED && answer <= 4 && place < PLACES)
        memcpy(place_of(tray, place), (uint32_t[]){ B_NEAR, number, u, y, 0, 0, 0, 0 }, PLACE * sizeof *tray);
    if (WRONG == HELD_CHANGES_INDEX && answer == NUMBER_HELD)
        place_of(tray, held)[AT_INDEX]++;
    if ((WRONG == REFUSED_RECORD && answer <= 4) || (WRONG == HELD_RECORD && answer > 4))
        __real_vi_pair(u, y, record, RECORD);
}

/* The sample stands where the first free place was. */
static void spoil_put(uint32_t *tray, const uint32_t *before, uint8_t *record, const uint8_t *record_before)
{
    int at = first_free(before), last = PLACES - 1;
    uint32_t *place = place_of(tray, at);
    struct record r = record_of_bytes(record);
    while (before[PLACE * last] != 0)
        last--;
    switch (WRONG) {
    case RECORD_AS_FOUND:
        memcpy(record, record_before, RECORD);
        break;
    case NOT_STORED:
        place[AT_METHOD] = 0;
        break;
    case Y_FOR_U:
        place[AT_U] = place[AT_Y];
        break;
    case FRACTIONS_LOST:
        place[AT_LOWER] = place[AT_UPPER] = 0;
        break;
    case SEVEN_BITS:
        place[AT_NUMBER] %= 128;
        break;
    case OTHER_FRACTIONS:
    case OTHER_FRACTIONS_EVERYWHERE:
        widen(&r);
        place[AT_LOWER] = r.p;
        place[AT_UPPER] = r.P;
        bytes_of_record(&r, record);
        break;
    case LAST_FREE:
        memcpy(place_of(tray, last), place, PLACE * sizeof *tray);
        if (at != last)
            memcpy(place, before + PLACE * at, PLACE * sizeof *tray);
        break;
    case REST_LEFT:
        place[AT_REST] = before[PLACE * at + AT_REST];
        break;
    default:
        break;
    }
}

uint32_t __wrap_vi_tray_put(uint32_t *tray, size_t tray_count, uint32_t number, uint32_t u, uint32_t y,
    uint8_t *record, size_t length)
{
    if (WRONG == SIZES_LAST && question(u, y) != 0)
        return question(u, y);
    if (WRONG == PUT_TRAY_ANY && tray_count > TRAY)
        tray_count = TRAY;
    if (WRONG == PUT_RECORD_ANY && length > RECORD)
        length = RECORD;
    if (tray_count != TRAY || length != RECORD)
        return __real_vi_tray_put(tray, tray_count, number, u, y, record, length);
    uint32_t before[TRAY], asked = asked_wrongly(tray, number, u, y);
    uint8_t record_before[RECORD];
    memcpy(before, tray, sizeof before);
    memcpy(record_before, record, RECORD);
    if (asked != 0)
        return asked;
    uint32_t answer = __real_vi_tray_put(tray, TRAY, number, u, y, record, RECORD);
    if (answer == 0) {
        remembered++;
        spoil_put(tray, before, record, record_before);
        return 0;
    }
    spoil_refused_put(answer, tray, number, u, y, record);
    return let_in(answer, tray, number, u, y, record);
}

/* ---- take ---- */

static int64_t lowest_gone = INT64_MIN, highest_gone = INT64_MAX;

/* The sample to be taken is the lowest or the highest: kept extremes would go to
   the next index, though another sample has this one. */
static void remember_extremes(const uint32_t *tray, const uint32_t *place)
{
    struct summary s = places_summary(tray);
    int64_t index = (int32_t)place[AT_INDEX];
    if (index == s.lowest)
        lowest_gone = index;
    if (index == s.highest)
        highest_gone = index;
}

/* The number of the first sample, whatever was asked for. */
static uint32_t first_number(const uint32_t *tray, uint32_t number)
{
    for (int i = 0; i < PLACES; i++)
        if (tray[PLACE * i] != 0)
            return tray[PLACE * i + AT_NUMBER];
    return number;
}

/* The numbers of the places as the fault reads them; they are put back after the
   call. */
static void misread(uint32_t *tray, uint32_t number)
{
    bool later = false;
    for (int i = PLACES - 1; i >= 0; i--) {
        uint32_t *place = place_of(tray, i);
        bool of_number = place[AT_METHOD] != 0 && place[AT_NUMBER] == number;
        if (WRONG == NUMBER_8_BITS)
            place[AT_NUMBER] %= ONE_BYTE;
        if (WRONG == LAST_OF_NUMBER && of_number && later)
            place[AT_NUMBER] = ~number;
        later = later || of_number;
    }
}

static void spoil_taken(uint32_t *tray, uint32_t *place, const uint32_t *before, uint32_t *pair, uint8_t *record)
{
    static uint8_t last_record[RECORD];
    const uint32_t *held = before + (place - tray);
    switch (WRONG) {
    case LEFT_HELD:
        place[AT_METHOD] = held[AT_METHOD];
        break;
    case NEIGHBOUR_TOO:
        if (place + PLACE < tray + KEPT)
            place[PLACE + AT_METHOD] = 0;
        break;
    case Y_FIRST:
        memcpy(pair, (uint32_t[]){ held[AT_Y], held[AT_U] }, 2 * sizeof *pair);
        break;
    case NUMBER_IN_RECORD:
        record[0] = (uint8_t)held[AT_NUMBER];
        break;
    case LAST_SAMPLE_AGAIN:
        if (last_record[1] != 0)
            memcpy(record, last_record, RECORD);
        memcpy(last_record, record, RECORD);
        break;
    case PLACE_CLEARED:
        memset(place, 0, PLACE * sizeof *place);
        break;
    case METHOD_4_GIVEN:
        record[1] = (uint8_t)held[AT_METHOD];
        break;
    case A_WITH_FRACTIONS:
        memcpy(record + 8, held + AT_LOWER, 2 * sizeof *held);
        break;
    default:
        break;
    }
}

uint32_t __wrap_vi_tray_take(uint32_t *tray, size_t tray_count, uint32_t number, uint32_t *pair, size_t pair_count,
    uint8_t *record, size_t length)
{
    if (WRONG == TAKE_TRAY_ANY && tray_count > TRAY)
        tray_count = TRAY;
    if (WRONG == TAKE_RECORD_ANY && length > RECORD)
        length = RECORD;
    if (WRONG == TAKE_PAIR_ANY && pair_count > SAMPLE_PAIR)
        pair_count = SAMPLE_PAIR;
    if (tray_count != TRAY || length != RECORD || pair_count != SAMPLE_PAIR)
        return __real_vi_tray_take(tray, tray_count, number, pair, pair_count, record, length);
    uint32_t before[TRAY];
    memcpy(before, tray, sizeof before);
    number = WRONG == FIRST_TAKEN ? first_number(tray, number) : number;
    misread(tray, number);
    int at = first_with(tray, number);
    bool not_held = (WRONG == NUMBER_0_NOT_HELD && number == 0) ||
        (WRONG == METHOD_4_REFUSED && at < PLACES && place_of(tray, at)[AT_METHOD] > B_NEAR);
    if (at < PLACES)
        remember_extremes(tray, place_of(tray, at));
    uint32_t answer = not_held ? NOT_HELD
                               : __real_vi_tray_take(tray, TRAY, number, pair, SAMPLE_PAIR, record, RECORD);
    for (int i = 0; i < PLACES; i++)
        place_of(tray, i)[AT_NUMBER] = before[PLACE * i + AT_NUMBER];
    if (answer != 0) {
        if (WRONG == REFUSED_PAIR)
            memset(pair, 0, 2 * sizeof *pair);
        if (WRONG == REFUSED_TAKE_RECORD)
            memset(record, 0, RECORD);
        return answer;
    }
    remembered--;
    spoil_taken(tray, place_of(tray, at), before, pair, record);
    return 0;
}

/* ---- summary ---- */

/* The lowest above the one that was taken out, the highest below it. */
static void without_gone(struct summary *s, const uint32_t *tray)
{
    struct summary rest = { 0 };
    for (int i = 0; i < PLACES; i++) {
        int64_t index = index_at(tray, i);
        if (tray[PLACE * i] == 0 || index == (WRONG == LOWEST_GONE ? lowest_gone : highest_gone))
            continue;
        rest.lowest = rest.held == 0 || index < rest.lowest ? index : rest.lowest;
        rest.highest = rest.held == 0 || index > rest.highest ? index : rest.highest;
        rest.held++;
    }
    if (WRONG == LOWEST_GONE && rest.held > 0)
        s->lowest = rest.lowest;
    if (WRONG == HIGHEST_GONE && rest.held > 0)
        s->highest = rest.highest;
}

static void equal_once(struct summary *s, const uint32_t *tray)
{
    for (int i = 0; i < PLACES; i++)
        for (int j = 0; j < i; j++)
            if (tray[PLACE * i] != 0 && tray[PLACE * j] != 0 && index_at(tray, i) == index_at(tray, j)) {
                s->sum -= index_at(tray, i);
                break;
            }
}

static void with_sign_changed(struct summary *s, const uint32_t *tray)
{
    uint32_t other[TRAY];
    memcpy(other, tray, sizeof other);
    for (uint32_t *place = other; place < other + KEPT; place += PLACE)
        if (place[AT_METHOD] != 0)
            place[AT_METHOD] = WRONG == WITHOUT_SIGN ? B_NEAR : BY_A;
    struct summary by_other = places_summary(other);
    s->lowest = by_other.lowest;
    s->highest = by_other.highest;
    s->sum = by_other.sum;
}

static void without_last(struct summary *s, const uint32_t *tray)
{
    uint32_t read[TRAY];
    memcpy(read, tray, sizeof read);
    place_of(read, PLACES - 1)[AT_METHOD] = 0;
    *s = places_summary(read);
}

static void spoil_summary(struct summary *s, const uint32_t *tray)
{
    switch (WRONG) {
    case SUM_32_BITS:
        s->sum = (int32_t)(uint32_t)s->sum;
        break;
    case NEAR_AS_SETTLED:
        s->settled += s->near;
        s->near = 0;
        break;
    case SETTLED_AS_A:
        s->a += s->settled;
        s->settled = 0;
        break;
    case EMPTY_LOWEST:
        s->lowest = s->held == 0 ? INT32_MAX : s->lowest;
        break;
    case EMPTY_HELD:
        s->held += s->held == 0;
        break;
    case LOWEST_FROM_0:
        s->lowest = s->lowest > 0 ? 0 : s->lowest;
        break;
    case HIGHEST_FROM_0:
        s->highest = s->highest < 0 ? 0 : s->highest;
        break;
    case LOWEST_GONE:
    case HIGHEST_GONE:
        without_gone(s, tray);
        break;
    case EQUAL_ONCE:
        equal_once(s, tray);
        break;
    case WITHOUT_SIGN:
    case B_WITH_SIGN:
        with_sign_changed(s, tray);
        break;
    case LAST_NOT_SEEN:
        without_last(s, tray);
        break;
    default:
        break;
    }
}

/* A fault shows where what is kept is what a walk gives: where it is not, all that a
   walk does wrong is gone. */
uint32_t __wrap_vi_tray_summary(const uint32_t *tray, size_t tray_count, int64_t *row, size_t row_count)
{
    if (WRONG == SUMMARY_TRAY_ANY && tray_count > TRAY)
        tray_count = TRAY;
    if (WRONG == SUMMARY_ROW_ANY && row_count > SUMMARY_ROW)
        row_count = SUMMARY_ROW;
    if (tray_count != TRAY || row_count != SUMMARY_ROW)
        return __real_vi_tray_summary(tray, tray_count, row, row_count);
    struct summary s, walked = places_summary(tray);
    __real_vi_tray_summary(tray, TRAY, &s.held, SUMMARY_ROW);
    if (same_summary(&s, &walked))
        spoil_summary(&s, tray);
    if (WRONG == SUMMARY_CHANGES && first_free(tray) < PLACES)
        place_of((uint32_t *)(uintptr_t)tray, first_free(tray))[AT_REST]++;
    if (WRONG == BESIDE_ROW)
        row[-1] = 0;
    if (WRONG != ROW_AS_FOUND)
        memcpy(row, &s, sizeof s);
    return 0;
}
