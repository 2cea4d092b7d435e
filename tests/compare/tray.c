#include "tray.h"

#include <string.h>

bool same_summary(const struct summary *a, const struct summary *b)
{
    return memcmp(a, b, sizeof *a) == 0;
}

/* Both trays count a sample so. */
static void add(struct summary *s, enum method method, int64_t index)
{
    s->lowest = s->held == 0 || index < s->lowest ? index : s->lowest;
    s->highest = s->held == 0 || index > s->highest ? index : s->highest;
    s->held++;
    s->sum += index;
    s->a += method == BY_A;
    s->settled += method == B_SETTLED;
    s->near += method == B_NEAR;
}

/* ---- the requests' tray ---- */

/* How many of the numbers held are less than this one: where it is, or would be. */
static int less_than(const struct tray *t, uint32_t number)
{
    int low = 0, high = t->count;
    while (low < high) {
        int middle = (low + high) / 2;
        if (t->number[middle] < number)
            low = middle + 1;
        else
            high = middle;
    }
    return low;
}

static bool is_at(const struct tray *t, int at, uint32_t number)
{
    return at < t->count && t->number[at] == number;
}

static bool holds(const struct tray *t, uint32_t number)
{
    return is_at(t, less_than(t, number), number);
}

uint32_t put_question(const struct tray *t, uint32_t number, uint32_t u, uint32_t y)
{
    uint32_t of_the_pair = question(u, y);
    if (of_the_pair != 0)
        return of_the_pair;
    if (holds(t, number))
        return NUMBER_HELD;
    return t->count == HELD_GREATEST ? TRAY_FULL : 0;
}

uint32_t take_question(const struct tray *t, uint32_t number)
{
    return holds(t, number) ? 0 : NOT_HELD;
}

void put_sample(struct tray *t, uint32_t number, const struct sample *s)
{
    int at = less_than(t, number);
    for (int i = t->count++; i > at; i--) {
        t->number[i] = t->number[i - 1];
        t->samples[i] = t->samples[i - 1];
    }
    t->number[at] = number;
    t->samples[at] = *s;
}

struct sample take_sample(struct tray *t, uint32_t number)
{
    int at = less_than(t, number);
    struct sample s = t->samples[at];
    t->count--;
    for (int i = at; i < t->count; i++) {
        t->number[i] = t->number[i + 1];
        t->samples[i] = t->samples[i + 1];
    }
    return s;
}

struct summary summary_of(const struct tray *t)
{
    struct summary s = { 0 };
    for (int i = 0; i < t->count; i++)
        add(&s, t->samples[i].r.method, t->samples[i].r.index);
    return s;
}

/* ---- the header's tray ---- */

/* "0 free, 1 by A, 2 by B settled, 3 and any other by B near" */
static enum method method_of(const uint32_t *place)
{
    return place[AT_METHOD] <= B_SETTLED ? (enum method)place[AT_METHOD] : B_NEAR;
}

int first_free(const uint32_t *numbers)
{
    int i = 0;
    while (i < PLACES && numbers[PLACE * i + AT_METHOD] != 0)
        i++;
    return i;
}

int first_with(const uint32_t *numbers, uint32_t number)
{
    int i = 0;
    while (i < PLACES && (numbers[PLACE * i + AT_METHOD] == 0 || numbers[PLACE * i + AT_NUMBER] != number))
        i++;
    return i;
}

uint32_t places_put_question(const uint32_t *numbers, uint32_t number, uint32_t u, uint32_t y)
{
    uint32_t of_the_pair = question(u, y);
    if (of_the_pair != 0)
        return of_the_pair;
    if (first_with(numbers, number) < PLACES)
        return NUMBER_HELD;
    return first_free(numbers) == PLACES ? TRAY_FULL : 0;
}

uint32_t places_take_question(const uint32_t *numbers, uint32_t number)
{
    return first_with(numbers, number) < PLACES ? 0 : NOT_HELD;
}

/* "by A two's complement, by B without sign" */
int64_t index_at(const uint32_t *numbers, int place)
{
    const uint32_t *at = numbers + PLACE * place;
    return at[AT_METHOD] == BY_A ? (int64_t)(int32_t)at[AT_INDEX] : (int64_t)at[AT_INDEX];
}

int places_held(const uint32_t *numbers)
{
    int held = 0;
    for (int i = 0; i < PLACES; i++)
        held += numbers[PLACE * i + AT_METHOD] != 0;
    return held;
}

struct summary places_summary(const uint32_t *numbers)
{
    struct summary s = { 0 };
    for (int i = 0; i < PLACES; i++)
        if (numbers[PLACE * i + AT_METHOD] != 0)
            add(&s, method_of(numbers + PLACE * i), index_at(numbers, i));
    return s;
}

/* By A the answer has no fractions, whatever stands in their place. */
static struct sample sample_at(const uint32_t *place)
{
    struct sample s = { .u = place[AT_U], .y = place[AT_Y] };
    s.r.method = (uint8_t)method_of(place);
    s.r.index = (int32_t)place[AT_INDEX];
    s.r.p = s.r.method == BY_A ? 0 : place[AT_LOWER];
    s.r.P = s.r.method == BY_A ? 0 : place[AT_UPPER];
    return s;
}

/* ---- what it keeps ---- */

/* "64 bits in two's complement .. two numbers, the lower 32 bits first" */
int64_t kept_wide(const uint32_t *numbers, int at)
{
    return (int64_t)numbers[at] + (int64_t)(int32_t)numbers[at + 1] * (INT64_C(1) << 32);
}

void keep_wide(uint32_t *numbers, int at, int64_t value)
{
    numbers[at] = (uint32_t)value;
    numbers[at + 1] = (uint32_t)((uint64_t)value / (UINT64_C(1) << 32));
}

/* "Where the three counts are 0, it is the summary of no sample, whatever the other
   six are" */
struct summary kept_summary(const uint32_t *numbers)
{
    struct summary s = { .a = numbers[KEPT_A], .settled = numbers[KEPT_SETTLED], .near = numbers[KEPT_NEAR] };
    s.held = s.a + s.settled + s.near;
    if (s.held == 0)
        return s;
    s.lowest = kept_wide(numbers, KEPT_LOWEST);
    s.highest = kept_wide(numbers, KEPT_HIGHEST);
    s.sum = kept_wide(numbers, KEPT_SUM);
    return s;
}

void keep_summary(uint32_t *numbers, const struct summary *s)
{
    memset(numbers + KEPT, 0, KEPT_SIZE * sizeof *numbers);
    if (s->a + s->settled + s->near == 0)
        return;
    keep_wide(numbers, KEPT_LOWEST, s->lowest);
    keep_wide(numbers, KEPT_HIGHEST, s->highest);
    keep_wide(numbers, KEPT_SUM, s->sum);
    numbers[KEPT_A] = (uint32_t)s->a;
    numbers[KEPT_SETTLED] = (uint32_t)s->settled;
    numbers[KEPT_NEAR] = (uint32_t)s->near;
}

static bool is_index(int64_t index)
{
    return index >= INDEX_KEPT_LEAST && index <= INDEX_KEPT_GREATEST;
}

static bool is_count(int64_t count)
{
    return count <= COUNT_KEPT_GREATEST;
}

/* With none held all are 0, and so within. */
bool kept_within(const struct summary *s)
{
    return is_index(s->lowest) && is_index(s->highest) && s->sum >= SUM_KEPT_LEAST && s->sum <= SUM_KEPT_GREATEST &&
        is_count(s->a) && is_count(s->settled) && is_count(s->near);
}

static int64_t *count_of(struct summary *s, enum method method)
{
    return method == BY_A ? &s->a : method == B_SETTLED ? &s->settled : &s->near;
}

/* ---- puts and takes ---- */

void places_put(uint32_t *numbers, uint32_t number, const struct sample *s)
{
    uint32_t *place = numbers + PLACE * first_free(numbers);
    place[AT_METHOD] = s->r.method;
    place[AT_NUMBER] = number;
    place[AT_U] = s->u;
    place[AT_Y] = s->y;
    place[AT_INDEX] = (uint32_t)s->r.index;
    place[AT_LOWER] = s->r.p;
    place[AT_UPPER] = s->r.P;
    place[AT_REST] = 0;
    struct summary kept = kept_summary(numbers);
    if (kept_within(&kept))
        add(&kept, s->r.method, s->r.index);
    else
        kept = places_summary(numbers);
    keep_summary(numbers, &kept);
}

/* The sample that was at this place has left. With none held nothing is between. */
static void keep_without(uint32_t *numbers, enum method method, int64_t index)
{
    struct summary kept = kept_summary(numbers);
    int64_t *count = count_of(&kept, method);
    if (kept.held != 0 && kept_within(&kept) && kept.lowest < index && index < kept.highest) {
        kept.sum -= index;
        *count -= *count > 0;
    } else {
        kept = places_summary(numbers);
    }
    keep_summary(numbers, &kept);
}

struct sample places_take(uint32_t *numbers, uint32_t number)
{
    int at = first_with(numbers, number);
    uint32_t *place = numbers + PLACE * at;
    struct sample s = sample_at(place);
    int64_t index = index_at(numbers, at);
    place[AT_METHOD] = 0;
    keep_without(numbers, s.r.method, index);
    return s;
}

const char *tray_fault(const struct tray *t, const uint32_t *numbers)
{
    bool seen[HELD_GREATEST] = { false };
    int count = 0;
    for (const uint32_t *place = numbers; place < numbers + KEPT; place += PLACE) {
        if (place[AT_METHOD] == 0)
            continue;
        int at = less_than(t, place[AT_NUMBER]);
        if (!is_at(t, at, place[AT_NUMBER]))
            return "a sample is held that was not put in, or was taken out";
        if (seen[at])
            return "two samples are held under one number";
        const struct sample *s = &t->samples[at];
        if (place[AT_U] != s->u || place[AT_Y] != s->y)
            return "the pair of a sample held";
        if (place[AT_METHOD] != s->r.method || place[AT_INDEX] != (uint32_t)s->r.index ||
            place[AT_LOWER] != s->r.p || place[AT_UPPER] != s->r.P)
            return "the answer of a sample held";
        seen[at] = true;
        count++;
    }
    if (count != t->count)
        return "a sample that was put in is not held";
    struct summary kept = kept_summary(numbers), wanted = summary_of(t);
    return same_summary(&kept, &wanted) ? NULL : "what is kept is not what a walk over the samples held gives";
}
