/* Trays that are wrong about the numbers of samples (change request #104), put
   before the library as those of wrong.c are; -DWRONG=n chooses the fault. The
   comparison must notice each one. */
#include "tray.h"
#include "wrapped_trays.h"

#include <string.h>

enum {
    /* compared by so many of their lowest bits, or in single precision */
    PUT_BY_8 = 1, PUT_BY_16, PUT_BY_24, PUT_BY_31, PUT_AS_FLOAT,
    TAKE_BY_8, TAKE_BY_16, TAKE_BY_24, TAKE_BY_31, TAKE_AS_FLOAT,
    /* cut to so many bits by put and take alike, or stored so by put */
    CUT_TO_8, CUT_TO_16, CUT_TO_24, CUT_TO_31, STORED_IN_16,
    /* a number taken for none, a place taken for free */
    GREATEST_NOT_STORED, GREATEST_NOT_TAKEN, GREATEST_NOT_COUNTED, NUMBER_0_OVERWRITTEN, NUMBER_0_NOT_COUNTED,
    /* not all numbers let in */
    SIGN_REFUSED, TEN_DIGITS_REFUSED, GREATEST_REFUSED
};

static uint32_t lowest_bits(uint32_t number, int bits)
{
    return number & ((1u << bits) - 1);
}

/* Whether the fault takes one number for the other. */
static bool taken_for(uint32_t a, uint32_t b)
{
    switch (WRONG) {
    case PUT_BY_8:
    case TAKE_BY_8:
        return lowest_bits(a, 8) == lowest_bits(b, 8);
    case PUT_BY_16:
    case TAKE_BY_16:
        return lowest_bits(a, 16) == lowest_bits(b, 16);
    case PUT_BY_24:
    case TAKE_BY_24:
        return lowest_bits(a, 24) == lowest_bits(b, 24);
    case PUT_BY_31:
    case TAKE_BY_31:
        return lowest_bits(a, 31) == lowest_bits(b, 31);
    case PUT_AS_FLOAT:
    case TAKE_AS_FLOAT:
        return (float)a == (float)b;
    default:
        return a == b;
    }
}

/* The number that the fault holds and finds instead of this one. */
static uint32_t cut(uint32_t number)
{
    return WRONG == CUT_TO_8 ? lowest_bits(number, 8) : WRONG == CUT_TO_16 ? lowest_bits(number, 16)
         : WRONG == CUT_TO_24 ? lowest_bits(number, 24) : WRONG == CUT_TO_31 ? lowest_bits(number, 31) : number;
}

/* The first sample whose number the fault takes for this one; NULL if there is
   none. */
static uint32_t *place_taken_for(uint32_t *tray, uint32_t number)
{
    for (uint32_t *place = tray; place < tray + KEPT; place += PLACE)
        if (place[AT_METHOD] != 0 && taken_for(place[AT_NUMBER], number))
            return place;
    return NULL;
}

/* ---- put ---- */

enum { NINE_DIGITS = 999999999 };

/* Whether the fault refuses a number, by 31, that the request lets in. */
static bool kept_out(uint32_t *tray, uint32_t number)
{
    return (WRONG <= PUT_AS_FLOAT && place_taken_for(tray, number) != NULL) ||
        (WRONG == SIGN_REFUSED && number > INT32_MAX) || (WRONG == TEN_DIGITS_REFUSED && number > NINE_DIGITS) ||
        (WRONG == GREATEST_REFUSED && number == UINT32_MAX);
}

/* The first place that is free, or that the fault takes for free; the places' end if
   there is none. */
static uint32_t *free_place(uint32_t *tray)
{
    uint32_t *place = tray;
    while (place < tray + KEPT && place[AT_METHOD] != 0 && !(WRONG == NUMBER_0_OVERWRITTEN && place[AT_NUMBER] == 0))
        place += PLACE;
    return place;
}

static void spoil_put(uint32_t *place)
{
    if (WRONG == STORED_IN_16)
        place[AT_NUMBER] = lowest_bits(place[AT_NUMBER], 16);
    if (WRONG == GREATEST_NOT_STORED && place[AT_NUMBER] == UINT32_MAX)
        place[AT_METHOD] = 0;
}

uint32_t __wrap_vi_tray_put(uint32_t *tray, size_t tray_count, uint32_t number, uint32_t u, uint32_t y,
    uint8_t *record, size_t length)
{
    if (tray_count != TRAY || length != RECORD || question(u, y) != 0)
        return __real_vi_tray_put(tray, tray_count, number, u, y, record, length);
    if (kept_out(tray, number))
        return NUMBER_HELD;
    uint32_t *place = free_place(tray), none = 0, *method = place < tray + KEPT ? place + AT_METHOD : &none;
    uint32_t before = *method;
    *method = 0;
    uint32_t answer = __real_vi_tray_put(tray, TRAY, cut(number), u, y, record, RECORD);
    if (answer == 0)
        spoil_put(place);
    else
        *method = before;
    return answer;
}

/* ---- take ---- */

uint32_t __wrap_vi_tray_take(uint32_t *tray, size_t tray_count, uint32_t number, uint32_t *pair, size_t pair_count,
    uint8_t *record, size_t length)
{
    if (tray_count != TRAY || length != RECORD || pair_count != SAMPLE_PAIR)
        return __real_vi_tray_take(tray, tray_count, number, pair, pair_count, record, length);
    if (WRONG == GREATEST_NOT_TAKEN && number == UINT32_MAX)
        return NOT_HELD;
    const uint32_t *place = place_taken_for(tray, number);
    if (WRONG >= TAKE_BY_8 && WRONG <= TAKE_AS_FLOAT && place != NULL)
        number = place[AT_NUMBER];
    return __real_vi_tray_take(tray, TRAY, cut(number), pair, SAMPLE_PAIR, record, RECORD);
}

/* ---- summary ---- */

uint32_t __wrap_vi_tray_summary(const uint32_t *tray, size_t tray_count, int64_t *row, size_t row_count)
{
    uint32_t answer = __real_vi_tray_summary(tray, tray_count, row, row_count), read[TRAY];
    if (answer != 0)
        return answer;
    bool counted = true;
    memcpy(read, tray, sizeof read);
    for (uint32_t *place = read; place < read + KEPT; place += PLACE)
        if (place[AT_METHOD] != 0 && ((WRONG == GREATEST_NOT_COUNTED && place[AT_NUMBER] == UINT32_MAX) ||
            (WRONG == NUMBER_0_NOT_COUNTED && place[AT_NUMBER] == 0))) {
            place[AT_METHOD] = 0;
            counted = false;
        }
    struct summary others = places_summary(read);
    if (!counted)
        memcpy(row, &others, sizeof others);
    return 0;
}
