#include "write_call.h"
#include "lent.h"

#include <stdio.h>
#include <string.h>

/* ---- the questions ---- */

/* "Refused: 51 .., 52 .., 53 ..; in that order". */
static const uint32_t numbers[WRITE_QUESTIONS] = { 51, 52, 53 };

uint64_t sheet_size(uint64_t n)
{
    return HEADER + (PAIR + RECORD) * n;
}

/* Does this question refuse the writing, whatever the others do? */
static bool refuses(uint32_t number, const struct writing *w)
{
    uint64_t n = w->count / 2;
    switch (number) {
    case 51:                    /* "an odd count of numbers in the row" */
        return w->count % 2 != 0;
    case 52:                    /* "more than 2,000 pairs" */
        return n > COUNT_GREATEST;
    default:                    /* "the buffer not exactly 16 + 24n bytes" */
        return w->length != sheet_size(n);
    }
}

static uint32_t writing_question(const struct writing *w)
{
    for (int i = 0; i < WRITE_QUESTIONS; i++)
        if (refuses(numbers[i], w))
            return numbers[i];
    return 0;
}

/* ---- what is met ---- */

const char *const write_kinds[WRITE_KINDS] = {
    [NO_PAIRS] = "no pairs",
    [NO_ROW] = "no row",
    [ONE_PAIR] = "one pair",
    [PAIRS_2000] = "2,000 pairs",
    [NUMBER_0] = "a number 0",
    [NUMBER_2_31] = "a number 2,147,483,648",
    [NUMBER_GREATEST] = "a number 4,294,967,295",
    [PAIRS_2001] = "2,001 pairs in their size",
    [HALF_A_PAIR] = "half a pair in its size",
    [A_BYTE_SHORT] = "a byte short",
    [A_BYTE_LONG] = "a byte long",
    [A_PAIR_SHORT] = "a pair short",
    [A_PAIR_LONG] = "a pair long",
    [NO_BUFFER] = "no buffer",
    [ROW_PAST_16] = "a row past 16 bits",
    [ROW_PAST_32] = "a row past 32 bits",
    [BUFFER_PAST_32] = "a buffer past 32 bits",
    [SAME_LIST] = "then the same list",
    [ONE_BIT] = "then one bit other",
    [ONE_NUMBER] = "then one number other",
    [TWO_NUMBERS] = "then two numbers exchanged",
    [ONE_PAIR_LESS] = "then one pair less"
};
_Static_assert(ONE_PAIR_LESS + 1 == WRITE_KINDS, "each kind has a name");

static bool has_number(const struct writing *w, uint32_t number)
{
    for (size_t i = 0; i < w->count; i++)
        if (w->row[i] == number)
            return true;
    return false;
}

static void count_written(const struct writing *w, bool no_row)
{
    const bool met[WRITE_KINDS] = {
        [NO_PAIRS] = w->count == 0,
        [NO_ROW] = no_row,
        [ONE_PAIR] = w->count == 2,
        [PAIRS_2000] = w->count == MOST_NUMBERS,
        [NUMBER_0] = has_number(w, 0),
        [NUMBER_2_31] = has_number(w, 0x80000000),
        [NUMBER_GREATEST] = has_number(w, UINT32_MAX)
    };
    for (int i = 0; i < WRITE_KINDS; i++)
        tally.of_write_kind[i] += met[i];
    tally.written_at[(uintptr_t)written_sheet() % ALIGNMENTS]++;
}

static void count_refused(const struct writing *w, uint32_t number)
{
    uint64_t n = w->count / 2, size = sheet_size(n);
    const bool met[WRITE_KINDS] = {
        [PAIRS_2001] = w->count == MOST_NUMBERS + 2 && w->length == size,
        [HALF_A_PAIR] = number == 51 && w->length == size + (PAIR + RECORD) / 2,
        [A_BYTE_SHORT] = number == 53 && w->length == size - 1,
        [A_BYTE_LONG] = number == 53 && w->length == size + 1,
        [A_PAIR_SHORT] = number == 53 && w->length == size - (PAIR + RECORD),
        [A_PAIR_LONG] = number == 53 && w->length == size + (PAIR + RECORD),
        [NO_BUFFER] = w->length == 0,
        [ROW_PAST_16] = number == 52 && w->count > UINT16_MAX,
        [ROW_PAST_32] = number == 52 && w->count > UINT32_MAX,
        [BUFFER_PAST_32] = number == 53 && w->length > UINT32_MAX
    };
    for (int i = 0; i < WRITE_KINDS; i++)
        tally.of_write_kind[i] += met[i];
}

static void count_writing(const struct writing *w, uint32_t number)
{
    int refusing = 0;
    tally.writes++;
    tally.write_refused[number]++;
    for (int i = 0; i < WRITE_QUESTIONS; i++) {
        refusing += refuses(numbers[i], w);
        for (int j = 0; j < WRITE_QUESTIONS; j++)
            tally.two_refuse[i * WRITE_QUESTIONS + j] += refuses(numbers[i], w) && refuses(numbers[j], w);
    }
    for (int i = 0; i < WRITE_QUESTIONS; i++)
        tally.alone_refuses[i] += refusing == 1 && refuses(numbers[i], w);
    uint64_t size = sheet_size(w->count / 2);
    if (w->count < SWEPT_COUNTS && w->length >= size - 1 && w->length <= size + 1)
        tally.swept[w->count * SWEPT_SIZES + (w->length - (size - 1))]++;
}

static void count_worked(const uint8_t *s)
{
    uint32_t n = get(s + AT_COUNT), results = get(s + AT_RESULTS);
    for (uint32_t i = 0; i < n; i++) {
        struct record r = record_of_bytes(s + results + RECORD * i);
        tally.worked_by[r.method]++;
        tally.worked_refused[r.number]++;
    }
}

static void require_kind(int kind)
{
    static char text[100];
    snprintf(text, sizeof text, "no writing is of this kind: %s", write_kinds[kind]);
    if (tally.of_write_kind[kind] == 0)
        fail(text, NULL);
}

static void require_met(uint64_t times, const char *what, uint64_t number)
{
    static char text[100];
    snprintf(text, sizeof text, "%s %d", what, (int)number);
    if (times == 0)
        fail(text, NULL);
}

void check_writings_met(void)
{
    for (int i = 0; i < WRITE_KINDS; i++)
        require_kind(i);
    for (uint64_t i = 0; i < WRITE_QUESTIONS; i++)
        require_met(tally.alone_refuses[i], "no writing is refused by none but question", numbers[i]);
    for (uint64_t i = 0; i < WRITE_QUESTIONS * WRITE_QUESTIONS; i++)
        require_met(tally.two_refuse[i], "no writing is refused by another question and", numbers[i % WRITE_QUESTIONS]);
    for (uint64_t i = 0; i < SWEPT_COUNTS * SWEPT_SIZES; i++)
        require_met(tally.swept[i], "not with its size, a byte short and a byte long: a row of", i / SWEPT_SIZES);
    for (uint64_t i = 0; i < ALIGNMENTS; i++)
        require_met(tally.written_at[i], "no buffer is written at an address that leaves of 16", i);
    for (uint64_t i = 0; i <= B_NEAR; i++)
        require_met(tally.worked_by[i], "no worked pair has method", i);
    for (uint64_t i = 0; i <= 4; i++)
        require_met(tally.worked_refused[i], "no worked pair has number", i);
}

/* ---- what is lent ---- */

static struct lent row_lent, buffer_lent;

void make_write_rooms(void)
{
    make_room(&row_lent, "row", LONGEST_ROW * sizeof(uint32_t), PAST_32_BITS * sizeof(uint32_t));
    make_room(&buffer_lent, "buffer", LONGEST_BUFFER, sheet_size(PAST_32_BITS));
}

const uint8_t *written_sheet(void)
{
    return buffer_lent.bytes;
}

/* Addresses without memory begin where the room ends. */
static void lend_part(struct lent *m, size_t size, size_t step, size_t bare)
{
    if (bare != 0)
        lend_last(m, size);
    else
        lend(m, size, step);
}

static void lend_both(const struct writing *w)
{
    size_t row_size = (w->count - w->bare_numbers) * sizeof(uint32_t);
    lend_part(&row_lent, row_size, sizeof(uint32_t), w->bare_numbers);
    put_lent(&row_lent, w->row, row_size);
    lend_part(&buffer_lent, w->length - w->bare_bytes, 1, w->bare_bytes);
}

/* ---- one writing ---- */

/* The row may only be read: a write to it is a fault. */
static uint32_t call_library(const struct writing *w, const uint32_t *row)
{
    uint8_t *buffer = lent_place(&buffer_lent);
    lock_lent(&row_lent);
    uint32_t number = vi_write_sheet(row, w->count, buffer, w->length);
    unlock_lent(&row_lent);
    return number;
}

uint32_t call_writing(const struct writing *w)
{
    uint32_t wanted = writing_question(w);
    now_writing(w->row, w->count, w->length);
    lend_both(w);
    const uint32_t *row = lent_place(&row_lent);
    uint32_t number = call_library(w, row);
    if (number != wanted)
        fail("the writing's number", NULL);
    check_beside(&buffer_lent);
    count_writing(w, number);
    if (number == 0) {
        count_written(w, row == NULL);
        return number;
    }
    check_lent(&buffer_lent, "a refused writing changed it");
    count_refused(w, number);
    return number;
}

/* "the header, the pair block at 16, the result block straight after it, all result
   bytes zero" */
static void write_model(uint8_t *s, const struct writing *w)
{
    uint32_t n = (uint32_t)(w->count / 2), results = HEADER + PAIR * n;
    put(s + AT_COUNT, n);
    put(s + AT_PAIRS, HEADER);
    put(s + AT_RESULTS, results);
    put(s + AT_TOTAL, results + RECORD * n);
    for (size_t i = 0; i < w->count; i++)
        put(s + HEADER + 4 * i, w->row[i]);
    memset(s + results, 0, RECORD * n);
}

/* "Every written sheet is accepted and reads back as its list": by whoever reads it as
   any sheet. */
static void check_list(const struct writing *w, const char *what)
{
    const uint8_t *s = written_sheet();
    if (sheet_question(s, w->length) != 0)
        fail("a written sheet that is not accepted", NULL);
    const uint8_t *pairs = s + get(s + AT_PAIRS);
    bool same = w->count == 2 * get(s + AT_COUNT);
    for (size_t i = 0; same && i < w->count; i++)
        same = get(pairs + 4 * i) == w->row[i];
    if (!same)
        fail(what, NULL);
}

static void check_worked(const struct writing *w)
{
    static uint8_t model[LONGEST_SHEET];
    memcpy(model, written_sheet(), w->length);
    work_sheet(model);
    now_pair(0, 0);
    if (vi_sheet(buffer_lent.bytes, w->length) != 0)
        fail("a written sheet that is not accepted", NULL);
    want_lent(&buffer_lent, model, w->length);
    check_lent(&buffer_lent, "a written sheet that is worked is another");
    check_list(w, "a worked sheet reads back as another list");
    count_worked(model);
}

void check_written(const struct writing *w)
{
    static uint8_t model[LONGEST_SHEET];
    check_list(w, "a written sheet reads back as another list");
    write_model(model, w);
    want_lent(&buffer_lent, model, w->length);
    check_lent(&buffer_lent, "a written sheet has other bytes");
    check_worked(w);
}
