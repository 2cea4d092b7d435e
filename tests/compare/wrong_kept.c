/* Trays that are wrong about the summary they keep (change request #105), put before
   the library as those of wrong.c are; -DWRONG=n chooses the fault. The comparison
   must notice each one. */
#include "tray.h"
#include "wrapped_trays.h"

#include <string.h>

enum {
    /* take */
    LOWEST_STAYS = 1, HIGHEST_STAYS, LOWEST_SKIPS_EQUAL, HIGHEST_SKIPS_EQUAL, A_STAYS, SETTLED_STAYS, NEAR_STAYS,
    SUM_OF_ANOTHER, SUM_STAYS, LAST_STAYS,
    /* put, and calls that are refused */
    PUT_FORGOTTEN, REFUSED_PUT_KEPT, REFUSED_TAKE_KEPT,
    /* all calls */
    SUM_IN_32_BITS, REFRESH_WALKS, EXTREMES_EXCHANGED, WORDS_EXCHANGED
};

/* ---- the layout ---- */

static void exchange(uint32_t *one, uint32_t *other, int count)
{
    for (int i = 0; i < count; i++) {
        uint32_t kept = one[i];
        one[i] = other[i];
        other[i] = kept;
    }
}

/* From the fault's layout to the library's, and back. */
static void other_layout(uint32_t *tray)
{
    if (WRONG == EXTREMES_EXCHANGED)
        exchange(tray + KEPT_LOWEST, tray + KEPT_HIGHEST, 2);
    for (int at = KEPT_LOWEST; at < KEPT_A && WRONG == WORDS_EXCHANGED; at += 2)
        exchange(tray + at, tray + at + 1, 1);
}

/* ---- put ---- */

static void spoil_put(uint32_t *tray, const uint32_t *before)
{
    if (WRONG == PUT_FORGOTTEN)
        memcpy(tray + KEPT, before + KEPT, KEPT_SIZE * sizeof *tray);
    if (WRONG == SUM_IN_32_BITS)
        keep_wide(tray, KEPT_SUM, (int32_t)(uint32_t)kept_wide(tray, KEPT_SUM));
}

/* As if the sample had been let in: one more by A. */
static void spoil_refused_put(uint32_t *tray, uint32_t answer)
{
    if (WRONG == REFUSED_PUT_KEPT && answer >= NUMBER_HELD)
        tray[KEPT_A]++;
}

uint32_t __wrap_vi_tray_put(uint32_t *tray, size_t tray_count, uint32_t number, uint32_t u, uint32_t y,
    uint8_t *record, size_t length)
{
    if (tray_count != TRAY || length != RECORD)
        return __real_vi_tray_put(tray, tray_count, number, u, y, record, length);
    uint32_t before[TRAY];
    memcpy(before, tray, sizeof before);
    other_layout(tray);
    uint32_t answer = __real_vi_tray_put(tray, TRAY, number, u, y, record, RECORD);
    other_layout(tray);
    if (answer == 0)
        spoil_put(tray, before);
    else
        spoil_refused_put(tray, answer);
    return answer;
}

/* ---- take ---- */

/* The lowest and the highest of the samples with another index than the one that
   left; with none, what they are. */
static void skip_equal(struct summary *s, const uint32_t *tray, int64_t index)
{
    bool any = false;
    for (int i = 0; i < PLACES; i++) {
        int64_t other = index_at(tray, i);
        if (tray[PLACE * i + AT_METHOD] == 0 || other == index)
            continue;
        if (WRONG == LOWEST_SKIPS_EQUAL && (!any || other < s->lowest))
            s->lowest = other;
        if (WRONG == HIGHEST_SKIPS_EQUAL && (!any || other > s->highest))
            s->highest = other;
        any = true;
    }
}

/* The index of the first sample that stays; that of the one that left, if none
   does. */
static int64_t another_index(const uint32_t *tray, int64_t index)
{
    for (int i = 0; i < PLACES; i++)
        if (tray[PLACE * i + AT_METHOD] != 0)
            return index_at(tray, i);
    return index;
}

/* A sample with this index has left; one was held at least. */
static void spoil_take(uint32_t *tray, const uint32_t *before, int64_t index)
{
    struct summary was = kept_summary(before), s = kept_summary(tray);
    bool lowest = index == was.lowest, highest = index == was.highest;
    if (s.held == 0) {
        if (WRONG == LAST_STAYS)
            memcpy(tray + KEPT, before + KEPT, KEPT_SIZE * sizeof *tray);
        return;
    }
    s.lowest = WRONG == LOWEST_STAYS ? was.lowest : s.lowest;
    s.highest = WRONG == HIGHEST_STAYS ? was.highest : s.highest;
    if ((WRONG == LOWEST_SKIPS_EQUAL && lowest) || (WRONG == HIGHEST_SKIPS_EQUAL && highest))
        skip_equal(&s, tray, index);
    s.a = WRONG == A_STAYS ? was.a : s.a;
    s.settled = WRONG == SETTLED_STAYS ? was.settled : s.settled;
    s.near = WRONG == NEAR_STAYS ? was.near : s.near;
    s.sum += WRONG == SUM_STAYS ? index : WRONG == SUM_OF_ANOTHER ? index - another_index(tray, index) : 0;
    s.sum = WRONG == SUM_IN_32_BITS ? (int32_t)(uint32_t)s.sum : s.sum;
    keep_summary(tray, &s);
}

uint32_t __wrap_vi_tray_take(uint32_t *tray, size_t tray_count, uint32_t number, uint32_t *pair, size_t pair_count,
    uint8_t *record, size_t length)
{
    if (tray_count != TRAY || length != RECORD || pair_count != SAMPLE_PAIR)
        return __real_vi_tray_take(tray, tray_count, number, pair, pair_count, record, length);
    uint32_t before[TRAY];
    int at = first_with(tray, number);
    memcpy(before, tray, sizeof before);
    other_layout(tray);
    uint32_t answer = __real_vi_tray_take(tray, TRAY, number, pair, SAMPLE_PAIR, record, RECORD);
    other_layout(tray);
    if (answer == 0 && (WRONG < PUT_FORGOTTEN || WRONG == SUM_IN_32_BITS))
        spoil_take(tray, before, index_at(before, at));
    if (answer != 0 && WRONG == REFUSED_TAKE_KEPT && tray[KEPT_A] > 0)
        tray[KEPT_A]--;
    return answer;
}

/* ---- summary ---- */

uint32_t __wrap_vi_tray_summary(const uint32_t *tray, size_t tray_count, int64_t *row, size_t row_count)
{
    if (tray_count != TRAY || row_count != SUMMARY_ROW)
        return __real_vi_tray_summary(tray, tray_count, row, row_count);
    uint32_t read[TRAY];
    memcpy(read, tray, sizeof read);
    other_layout(read);
    if (WRONG == REFRESH_WALKS) {
        struct summary s = places_summary(tray);
        keep_summary(read, &s);
    }
    return __real_vi_tray_summary(read, TRAY, row, row_count);
}
