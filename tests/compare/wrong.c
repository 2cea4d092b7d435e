/* Libraries that are wrong on purpose. The linker's --wrap puts these between
   the comparison and the real library; -DWRONG=n chooses the fault. The
   comparison must notice each one. */
#include "library.h"
#include "oil.h"

#include <math.h>
#include <string.h>

uint32_t __real_vi_pair(uint32_t u, uint32_t y, uint8_t *record, size_t length);
uint32_t __real_vi_sheet(uint8_t *sheet, size_t length);
uint32_t __wrap_vi_pair(uint32_t u, uint32_t y, uint8_t *record, size_t length);
uint32_t __wrap_vi_sheet(uint8_t *sheet, size_t length);

enum {
    ROW_L = 1, ROW_H, HALF_DOWN, NEGATIVE_HALF_BY_SIZE, SWAPPED, ALL_NEAR, BLOCK_AS_FOUND, HUNDRED_TO_ALL,
    FIRST_COPIED, INVENTED, REFUSES_ALL, QUADRATIC_AT_70, ROUNDED_H, SPARE_BYTE, ORDER_OF_QUESTIONS,
    LENGTH_NOT_ASKED, REFUSED_SHEET_CHANGED, PAIR_STOPS_SHEET, BYTE_BESIDE_BLOCK, UNSORTED_P, B_AT_H,
    P_TOO_SMALL, P_TOO_GREAT, BLOCKS_TOUCH, COUNT_2001, HALF_TO_THE_GREATER,
    HALF_TO_THE_ODD, EVEN_ABOVE_ZERO_ONLY, EVEN_OFF_THE_HALF, SINGLE_B, FIVE_DIGITS_B, ROW_TOO_LOW, SPACING_KEPT
};

static uint32_t get(const uint8_t *b)
{
    uint32_t v;
    memcpy(&v, b, 4);
    return v;
}

static uint32_t put_record(struct record r, uint8_t *record)
{
    bytes_of_record(&r, record);
    return r.number;
}

/* An index by A that is just a half, or less than a thousandth off it, as one of
   these faults rounds it; above is the whole number above the half. */
static int32_t wrong_half(int32_t above, int32_t right)
{
    switch (WRONG) {
    case HALF_TO_THE_GREATER:
        return above;
    case HALF_DOWN:
        return above - 1;
    case NEGATIVE_HALF_BY_SIZE:
        return above <= 0 ? above - 1 : right;
    case EVEN_ABOVE_ZERO_ONLY:
        return above <= 0 ? above : right;
    case HALF_TO_THE_ODD:
        return above % 2 != 0 ? above : above - 1;
    case EVEN_OFF_THE_HALF:
        return above % 2 == 0 ? above : above - 1;
    default:
        return right;
    }
}

/* The exact index and a half more is n / 2d, and off / 2d how far the index is from
   the nearest half. */
static int32_t with_wrong_half(int32_t right, const struct oil *o)
{
    __int128 d = (__int128)o->L - o->H, n = 200 * ((__int128)o->L - o->U) + d;
    __int128 left = ((n % (2 * d)) + 2 * d) % (2 * d), off = left < d ? left : 2 * d - left;
    if (WRONG == EVEN_OFF_THE_HALF ? off == 0 || 500 * off >= d : off != 0)
        return right;
    return wrong_half((int32_t)((n - left + (left < d ? 0 : 2 * d)) / (2 * d)), right);
}

/* Our own answer with one row of the table changed by one digit. */
static struct record with_row(uint32_t u, uint32_t y, int32_t row_y, int32_t l, int32_t h)
{
    static struct row rows[ROWS];
    memcpy(rows, table, sizeof rows);
    for (int i = 0; i < ROWS; i++)
        if (rows[i].y == row_y) {
            rows[i].l += l;
            rows[i].h += h;
        }
    return own_answer(rows, u, y);
}

/* The viscosity whose L and H a wrong way to the row takes for those of y: on a row
   the row before it; above 30.0 the rows as if 0.2 apart, of which there are 80, up
   to 46.0. */
static uint32_t wrong_place(uint32_t y)
{
    if (WRONG == ROW_TOO_LOW)
        for (int i = 1; i < ROWS; i++)
            if ((uint32_t)table[i].y == y)
                return (uint32_t)table[i - 1].y;
    if (WRONG == SPACING_KEPT && y > 30000 && y <= 30000 + 80 * 200)
        return 30000 + (y - 30000) * 500 / 200;
    return y;
}

static double five(double x)
{
    return round(x * 1e5) / 1e5;
}

/* The index by B as rounded logarithms give it, from an exact H. */
static int32_t rounded_b(const struct oil *o)
{
    double h = (double)o->H / 1e10, u = (double)o->U / 1e10, y = o->y / 1000.0;
    if (WRONG == FIVE_DIGITS_B)
        return (int32_t)floor((pow(10, (five(log10(h)) - five(log10(u))) / five(log10(y))) - 1) / 0.00715 + 100.5);
    float n = (log10f((float)h) - log10f((float)u)) / log10f((float)y);
    return (int32_t)floorf((powf(10.0f, n) - 1.0f) / 0.00715f + 100.5f);
}

/* A settled answer is given the index of the rounded logarithms, if that is
   another, with the fractions that would show it of some other oil. */
static void rounded_logarithms(struct record *r, const struct oil *o)
{
    int32_t k = r->method == B_SETTLED ? rounded_b(o) : r->index;
    if (k == r->index || k < INDEX_AT_H)
        return;
    int64_t p = power_ceiling(100 * (int64_t)k - 50);
    r->index = k;
    r->p = p < 0 ? 0 : (uint32_t)p;
    r->P = (uint32_t)power_floor(100 * (int64_t)k + 50);
}

/* A fault in the answer to an answered pair. */
static void spoil(struct record *r, const struct oil *o)
{
    bool a = r->method == BY_A, b = !a;
    switch (WRONG) {
    case HALF_TO_THE_GREATER:
    case HALF_DOWN:
    case NEGATIVE_HALF_BY_SIZE:
    case EVEN_ABOVE_ZERO_ONLY:
    case HALF_TO_THE_ODD:
    case EVEN_OFF_THE_HALF:
        r->index = a ? with_wrong_half(r->index, o) : r->index;
        break;
    case SWAPPED: {
        uint32_t p = r->p;
        r->p = r->P;
        r->P = p;
        break;
    }
    case ALL_NEAR:
        r->method = b ? B_NEAR : r->method;
        break;
    case HUNDRED_TO_ALL:
        r->index = 100;
        break;
    case INVENTED:
        r->P += b ? 1000000 : 0;
        break;
    case SPARE_BYTE:
        r->zero[0] = r->index == 77;
        break;
    case UNSORTED_P:
        r->P = b ? 0 : r->P;
        break;
    /* The least change that is false whatever p and P the library chose:
       p <= Q*N <= P, so p - 1 is below Q*N and P + 1 above it. */
    case P_TOO_SMALL:
        r->P = b && r->p > 0 ? r->p - 1 : r->P;
        break;
    case P_TOO_GREAT:
        r->p = b ? r->P + 1 : r->p;
        break;
    case SINGLE_B:
    case FIVE_DIGITS_B:
        rounded_logarithms(r, o);
        break;
    case B_AT_H:
        if (o->U == o->H)
            r->method = B_SETTLED;
        break;
    default:
        break;
    }
}

uint32_t __wrap_vi_pair(uint32_t u, uint32_t y, uint8_t *record, size_t length)
{
    if (WRONG == LENGTH_NOT_ASKED && length > RECORD)
        length = RECORD;
    uint32_t number = __real_vi_pair(u, y, record, length);
    if (length != RECORD)
        return number;
    if (WRONG == REFUSES_ALL)
        return put_record((struct record){ .number = 4 }, record);
    if (WRONG == ORDER_OF_QUESTIONS && u <= y)
        return put_record((struct record){ .number = 4 }, record);
    if (number != 0)
        return number;
    if (WRONG == ROW_L)         /* 39.0 as document 003 prints it */
        return put_record(with_row(u, y, 39000, 10000, 0), record);
    if (WRONG == ROW_H)         /* 7.5 as document 003 prints it */
        return put_record(with_row(u, y, 7500, 0, -10), record);
    struct oil o = oil_of(u, y);
    if (WRONG == QUADRATIC_AT_70 && y == TABLE_END) {
        o.L = 8353 * (int64_t)y * y + 146700000 * (int64_t)y - INT64_C(2160000000000);
        o.H = 1684 * (int64_t)y * y + 118500000 * (int64_t)y - INT64_C(970000000000);
        if (!below_h(&o))
            return put_record((struct record){ .method = BY_A, .index = (int32_t)index_a(&o) }, record);
    }
    if (wrong_place(y) != y) {
        basis(table, wrong_place(y), &o.L, &o.H);
        if (!below_h(&o))
            return put_record((struct record){ .method = BY_A, .index = (int32_t)index_a(&o) }, record);
    }
    if (WRONG == ROUNDED_H && !below_h(&o)) {
        /* H rounded to a hundredth of a mm2/s before the fraction. */
        o.H = (o.H + 5 * UNITS) / (10 * UNITS) * (10 * UNITS);
        return put_record((struct record){ .method = BY_A, .index = (int32_t)index_a(&o) }, record);
    }
    struct record r = record_of_bytes(record);
    spoil(&r, &o);
    return put_record(r, record);
}

/* Every record of the sheet again by the wrong pair call. */
static void work_wrongly(uint8_t *s)
{
    uint32_t n = get(s), pairs = get(s + 4), results = get(s + 8);
    for (uint32_t i = 0; i < n; i++) {
        uint8_t *record = s + results + RECORD * i;
        __wrap_vi_pair(get(s + pairs + 8 * i), get(s + pairs + 8 * i + 4), record, RECORD);
        if (WRONG == FIRST_COPIED)
            memcpy(record, s + results, RECORD);
        if (WRONG == PAIR_STOPS_SHEET && record[0] != 0)
            return;
    }
}

/* Answers 0 where the result block begins on the pair block's last byte, and
   another question's number for 2,001 pairs. */
static uint32_t lax(const uint8_t *s, uint32_t number)
{
    if (WRONG == BLOCKS_TOUCH && number == 16 && get(s + 8) + 1 == get(s + 4) + 8 * get(s))
        return 0;
    if (WRONG == COUNT_2001 && number == 13 && get(s) == 2001)
        return 14;
    return number;
}

uint32_t __wrap_vi_sheet(uint8_t *sheet, size_t length)
{
    if (WRONG == BLOCK_AS_FOUND) {
        uint8_t *copy = __builtin_alloca(length + 1);
        memcpy(copy, sheet, length);
        return __real_vi_sheet(copy, length);
    }
    if (WRONG == PAIR_STOPS_SHEET) {
        uint8_t *copy = __builtin_alloca(length + 1);
        memcpy(copy, sheet, length);
        uint32_t number = __real_vi_sheet(copy, length);
        if (number == 0)
            work_wrongly(sheet);
        return number;
    }
    uint32_t number = lax(sheet, __real_vi_sheet(sheet, length));
    if (number != 0) {
        if (WRONG == REFUSED_SHEET_CHANGED && length > 16)
            sheet[length - 1] ^= 1;
        return number;
    }
    work_wrongly(sheet);
    uint64_t end = get(sheet + 8) + 16ull * get(sheet);
    if (WRONG == BYTE_BESIDE_BLOCK && end < length)
        sheet[end] = 0;
    return 0;
}
