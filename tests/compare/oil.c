#include "oil.h"

#include <gmp.h>
#include <math.h>
#include <mpfr.h>
#include <string.h>

const struct row table[ROWS] = {
#include "table.h"
};

uint32_t question(uint32_t u, uint32_t y)
{
    if (y < Y_LEAST)
        return 1;
    if (y > Y_GREATEST)
        return 2;
    if (u > U_GREATEST)
        return 3;
    if (u <= y)
        return 4;
    return 0;
}

/* ---- L and H ---- */

/* The last row at or below y. */
static int row_at_or_below(const struct row *rows, int32_t y)
{
    int low = 0, high = ROWS - 1;
    while (low < high) {
        int middle = (low + high + 1) / 2;
        if (rows[middle].y <= y)
            low = middle;
        else
            high = middle - 1;
    }
    return low;
}

/* The steps 100, 200 and 500 divide UNITS, so nothing is rounded here. */
static int64_t on_line(int64_t from, int64_t to, int64_t step, int64_t part)
{
    return from * UNITS + (to - from) * (UNITS / step) * part;
}

void basis(const struct row *rows, uint32_t y, int64_t *l, int64_t *h)
{
    int64_t v = y;
    if (v > TABLE_END) {
        /* Formulas 1 and 2 of document 003 in units of 10^-10 mm2/s. */
        *l = 8353 * v * v + 146700000 * v - INT64_C(2160000000000);
        *h = 1684 * v * v + 118500000 * v - INT64_C(970000000000);
        return;
    }
    int i = row_at_or_below(rows, (int32_t)v);
    const struct row *a = &rows[i];
    if (a->y == v) {
        *l = a->l * UNITS;
        *h = a->h * UNITS;
        return;
    }
    const struct row *b = a + 1;
    int64_t step = b->y - a->y;
    *l = on_line(a->l, b->l, step, v - a->y);
    *h = on_line(a->h, b->h, step, v - a->y);
}

static struct oil oil_by(const struct row *rows, uint32_t u, uint32_t y)
{
    struct oil o = { .u = u, .y = y, .U = (int64_t)u * UNITS };
    basis(rows, y, &o.L, &o.H);
    return o;
}

struct oil oil_of(uint32_t u, uint32_t y)
{
    return oil_by(table, u, y);
}

bool below_h(const struct oil *o)
{
    return o->U < o->H;
}

/* ---- procedure A ---- */

static __int128 floor_div(__int128 a, __int128 b)
{
    __int128 q = a / b;
    return a % b != 0 && (a < 0) != (b < 0) ? q - 1 : q;
}

int64_t index_a(const struct oil *o)
{
    /* floor(x + 1/2) of x = 100 (L - U)/(L - H). Where x is just a half, that is the
       greater of the two whole numbers beside it: if it is odd, the even one is one less. */
    __int128 d = (__int128)o->L - o->H;
    __int128 n = 200 * ((__int128)o->L - o->U) + d;
    int64_t k = (int64_t)floor_div(n, 2 * d);
    return n % (2 * d) == 0 && k % 2 != 0 ? k - 1 : k;
}

/* ---- procedure B: Q*N against a whole number ---- */

/* Every step below is good to a few units of 2^-64: one rounded quotient, a
   logarithm of the C library (documented error under 4 units in the last
   place) whose argument's rounding it does not magnify by more than 1.5, one
   more quotient. The margin allows 1,000 such units. */
#define MARGIN 0x1p-54L

long double qn_estimate(const struct oil *o)
{
    /* H - U is exact, so log1p keeps the full precision where H/U is near 1. */
    long double ratio = (long double)(o->H - o->U) / (long double)o->U;
    return (long double)Q * (log1pl(ratio) / logl(o->y / 1000.0L));
}

long double index_b_estimate(const struct oil *o)
{
    long double n = qn_estimate(o) / (long double)Q;
    return (powl(10.0L, n) - 1.0L) / 0.00715L + 100.0L;
}

static int64_t gcd(int64_t a, int64_t b)
{
    while (b != 0) {
        int64_t r = a % b;
        a = b;
        b = r;
    }
    return a;
}

/* Is (H/U)^Q equal to (y/1000)^whole? With the fractions in lowest terms and
   whole/Q = m/2^j in lowest terms it asks a^(2^j) = c^m and b^(2^j) = d^m. As
   m is odd, or j is 0, c has to be a 2^j-th power; 2 <= c <= 500,000 < 2^19
   leaves 2^j <= 16, and a < 2^64 with c >= 2 leaves m <= 64 * 2^j. */
static bool equal_powers(const struct oil *o, uint64_t whole)
{
    uint64_t m = whole, roots = Q;
    while (roots > 1 && m % 2 == 0) {
        m /= 2;
        roots /= 2;
    }
    if (roots > 16 || m > 16 * 64)
        return false;
    int64_t g = gcd(o->H, o->U), e = gcd(o->y, 1000);
    mpz_t left, right;
    mpz_inits(left, right, NULL);
    mpz_ui_pow_ui(left, (unsigned long)(o->H / g), roots);
    mpz_ui_pow_ui(right, (unsigned long)(o->y / e), m);
    bool same = mpz_cmp(left, right) == 0;
    mpz_ui_pow_ui(left, (unsigned long)(o->U / g), roots);
    mpz_ui_pow_ui(right, (unsigned long)(1000 / e), m);
    same = same && mpz_cmp(left, right) == 0;
    mpz_clears(left, right, NULL);
    return same;
}

/* low <= log(a/b) <= high */
static void enclose_log(mpfr_t low, mpfr_t high, int64_t a, int64_t b)
{
    mpfr_set_sj(low, a, MPFR_RNDD);
    mpfr_div_si(low, low, b, MPFR_RNDD);
    mpfr_log(low, low, MPFR_RNDD);
    mpfr_set_sj(high, a, MPFR_RNDU);
    mpfr_div_si(high, high, b, MPFR_RNDU);
    mpfr_log(high, high, MPFR_RNDU);
}

/* The sign of whole*log(y/1000) - Q*log(H/U) at this precision; 0 undecided. */
static int compare_at(const struct oil *o, uint64_t whole, mpfr_prec_t bits)
{
    mpfr_t yl, yh, hl, hh;
    mpfr_inits2(bits, yl, yh, hl, hh, (mpfr_ptr)0);
    enclose_log(yl, yh, o->y, 1000);
    enclose_log(hl, hh, o->H, o->U);
    mpfr_mul_ui(yl, yl, whole, MPFR_RNDD);
    mpfr_mul_ui(yh, yh, whole, MPFR_RNDU);
    mpfr_mul_ui(hl, hl, Q, MPFR_RNDD);
    mpfr_mul_ui(hh, hh, Q, MPFR_RNDU);
    int sign = mpfr_less_p(yh, hl) ? -1 : mpfr_greater_p(yl, hh) ? 1 : 0;
    mpfr_clears(yl, yh, hl, hh, (mpfr_ptr)0);
    return sign;
}

int compare_with_qn(const struct oil *o, uint64_t whole)
{
    long double qn = qn_estimate(o);
    if ((long double)whole < qn * (1 - MARGIN))
        return -1;
    if ((long double)whole > qn * (1 + MARGIN))
        return 1;
    if (equal_powers(o, whole))
        return 0;
    /* Unequal, so some precision tells them apart. */
    for (mpfr_prec_t bits = 128;; bits *= 2) {
        int sign = compare_at(o, whole, bits);
        if (sign != 0)
            return sign;
    }
}

/* ---- procedure B: powers of ten against c(r) ---- */

enum { R_LEAST = 9900, R_GREATEST = 1000100 };
/* Filled as they are first asked for. 0 stands for "not yet": the shift is
   greater than the size of any floor kept, so that no kept cell is 0. */
static int64_t known_floor[R_GREATEST - R_LEAST + 1];
enum { SHIFT = 1 << 30 };

static int64_t c_of(int64_t r)
{
    return 10000000 + 715 * (r - 10000);
}

/* floor(Q*log10(c/10^7)); the enclosure is narrowed until both ends agree. It
   is whole only where c is a power of ten, that is c = 10^7. */
static int64_t floor_of_power(int64_t c)
{
    if (c == 10000000)
        return 0;
    for (mpfr_prec_t bits = 96;; bits *= 2) {
        mpfr_t low, high;
        mpfr_inits2(bits, low, high, (mpfr_ptr)0);
        mpfr_set_sj(low, c, MPFR_RNDD);
        mpfr_div_ui(low, low, 10000000, MPFR_RNDD);
        mpfr_log10(low, low, MPFR_RNDD);
        mpfr_mul_ui(low, low, Q, MPFR_RNDD);
        mpfr_set_sj(high, c, MPFR_RNDU);
        mpfr_div_ui(high, high, 10000000, MPFR_RNDU);
        mpfr_log10(high, high, MPFR_RNDU);
        mpfr_mul_ui(high, high, Q, MPFR_RNDU);
        mpfr_floor(low, low);
        mpfr_floor(high, high);
        bool decided = mpfr_equal_p(low, high) != 0;
        int64_t whole = mpfr_get_sj(low, MPFR_RNDN);
        mpfr_clears(low, high, (mpfr_ptr)0);
        if (decided)
            return whole;
    }
}

int64_t power_floor(int64_t r)
{
    int64_t *cell = &known_floor[r - R_LEAST];
    if (*cell == 0)
        *cell = floor_of_power(c_of(r)) + SHIFT;
    return *cell - SHIFT;
}

int64_t power_ceiling(int64_t r)
{
    /* Not whole unless c(r) = 10^7. */
    return power_floor(r) + (c_of(r) == 10000000 ? 0 : 1);
}

bool shows_at_least(const struct oil *o, int64_t r, uint32_t p)
{
    return (int64_t)p >= power_ceiling(r) && compare_with_qn(o, p) <= 0;
}

bool shows_at_most(const struct oil *o, int64_t r, uint32_t P)
{
    return (int64_t)P <= power_floor(r) && compare_with_qn(o, P) >= 0;
}

/* ---- procedure B: the exact index against a number ---- */

/* low <= 10^N <= high */
static void enclose_antilog(const struct oil *o, mpfr_t low, mpfr_t high)
{
    mpfr_t yl, yh;
    mpfr_inits2(mpfr_get_prec(low), yl, yh, (mpfr_ptr)0);
    enclose_log(yl, yh, o->y, 1000);
    enclose_log(low, high, o->H, o->U);
    mpfr_div(low, low, yh, MPFR_RNDD);
    mpfr_div(high, high, yl, MPFR_RNDU);
    mpfr_exp10(low, low, MPFR_RNDD);
    mpfr_exp10(high, high, MPFR_RNDU);
    mpfr_clears(yl, yh, (mpfr_ptr)0);
}

int compare_index(const struct oil *o, int64_t r)
{
    for (mpfr_prec_t bits = 96; bits <= 4096; bits *= 2) {
        mpfr_t low, high;
        mpfr_inits2(bits, low, high, (mpfr_ptr)0);
        enclose_antilog(o, low, high);
        mpfr_mul_ui(low, low, 10000000, MPFR_RNDD);
        mpfr_mul_ui(high, high, 10000000, MPFR_RNDU);
        int sign = mpfr_cmp_si(high, c_of(r)) < 0 ? -1 : mpfr_cmp_si(low, c_of(r)) > 0 ? 1 : 0;
        mpfr_clears(low, high, (mpfr_ptr)0);
        if (sign != 0)
            return sign;
    }
    return 0;
}

double distance_to_half(const struct oil *o, int64_t *below)
{
    mpfr_t low, high;
    mpfr_inits2(256, low, high, (mpfr_ptr)0);
    enclose_antilog(o, low, high);
    /* 10^N * 10^7 is c at the exact index; 71,500 of it is one index. */
    mpfr_mul_ui(low, low, 10000000, MPFR_RNDN);
    mpfr_sub_ui(low, low, 10000000 - 71500 * 100, MPFR_RNDN);
    mpfr_div_ui(low, low, 71500, MPFR_RNDN);
    mpfr_floor(high, low);
    *below = mpfr_get_sj(high, MPFR_RNDN);
    mpfr_sub(low, low, high, MPFR_RNDN);
    mpfr_sub_d(low, low, 0.5, MPFR_RNDN);
    double distance = mpfr_get_d(low, MPFR_RNDN);
    mpfr_clears(low, high, (mpfr_ptr)0);
    return fabs(distance);
}

/* ---- records ---- */

static uint32_t read32(const uint8_t *b)
{
    return (uint32_t)b[0] | (uint32_t)b[1] << 8 | (uint32_t)b[2] << 16 | (uint32_t)b[3] << 24;
}

static void write32(uint8_t *b, uint32_t v)
{
    for (int i = 0; i < 4; i++)
        b[i] = (uint8_t)(v >> (8 * i));
}

struct record record_of_bytes(const uint8_t *b)
{
    struct record r = { b[0], b[1], { b[2], b[3] }, (int32_t)read32(b + 4), read32(b + 8), read32(b + 12) };
    return r;
}

void bytes_of_record(const struct record *r, uint8_t *b)
{
    b[0] = r->number;
    b[1] = r->method;
    b[2] = r->zero[0];
    b[3] = r->zero[1];
    write32(b + 4, (uint32_t)r->index);
    write32(b + 8, r->p);
    write32(b + 12, r->P);
}

static const char *fault_a(const struct oil *o, const struct record *r)
{
    if (r->method != BY_A)
        return "method is not A at or above H";
    if (r->index != index_a(o))
        return "index by A";
    if (r->p != 0 || r->P != 0)
        return "p or P not zero by A";
    return NULL;
}

/* A second way to the same: the standard's own formula in long double, which
   does not use p, P or c(r). Its error is far below the slack. */
static bool index_is_plausible(const struct oil *o, const struct record *r)
{
    const long double slack = 1e-9L;
    long double x = index_b_estimate(o), k = r->index;
    if (r->method == B_SETTLED)
        return fabsl(x - k) <= 0.5L + slack;
    return fabsl(x - (k - 0.5L)) <= 0.01L + slack;
}

static const char *fault_b(const struct oil *o, const struct record *r)
{
    if (r->method != B_SETTLED && r->method != B_NEAR)
        return "method is not B below H";
    if (r->index < INDEX_AT_H || r->index > INDEX_GREATEST)
        return "index by B outside 100 to 10,000";
    int64_t hundredths = 100 * (int64_t)r->index;
    int64_t least = r->method == B_SETTLED ? hundredths - 50 : hundredths - 51;
    int64_t most = r->method == B_SETTLED ? hundredths + 50 : hundredths - 49;
    if (!index_is_plausible(o, r))
        return "index by B, by the standard's formula";
    if (!shows_at_least(o, least, r->p))
        return "p does not show 'at least'";
    if (!shows_at_most(o, most, r->P))
        return "P does not show 'at most'";
    return NULL;
}

const char *fault(uint32_t u, uint32_t y, const uint8_t *bytes)
{
    struct record r = record_of_bytes(bytes);
    if (r.zero[0] != 0 || r.zero[1] != 0)
        return "bytes 2 and 3 not zero";
    uint32_t number = question(u, y);
    if (r.number != number)
        return "number in the record";
    if (number != 0) {
        bool empty = r.method == REFUSED && r.index == 0 && r.p == 0 && r.P == 0;
        return empty ? NULL : "a refused pair's record holds more than its number";
    }
    struct oil o = oil_of(u, y);
    return below_h(&o) ? fault_b(&o, &r) : fault_a(&o, &r);
}

/* ---- an answer of our own ---- */

static uint32_t floor_of_qn(const struct oil *o)
{
    uint64_t p = (uint64_t)qn_estimate(o);
    while (compare_with_qn(o, p) > 0)
        p--;
    while (compare_with_qn(o, p + 1) <= 0)
        p++;
    return (uint32_t)p;
}

static struct record own_b(const struct oil *o)
{
    struct record r = { .method = B_SETTLED };
    r.p = floor_of_qn(o);
    r.P = compare_with_qn(o, r.p) == 0 ? r.p : r.p + 1;
    int64_t k = llrintl(index_b_estimate(o)), first = k > INDEX_AT_H ? k - 1 : k;
    for (int64_t i = first; i <= k + 1; i++)
        if (r.p >= power_ceiling(100 * i - 50) && r.P <= power_floor(100 * i + 50)) {
            r.index = (int32_t)i;
            return r;
        }
    r.method = B_NEAR;
    for (int64_t i = first; i <= k + 1; i++)
        if (r.p >= power_ceiling(100 * i - 51) && r.P <= power_floor(100 * i - 49))
            r.index = (int32_t)i;
    return r;
}

struct record own_record(const struct oil *o)
{
    if (below_h(o))
        return own_b(o);
    return (struct record){ .method = BY_A, .index = (int32_t)index_a(o) };
}

struct record own_answer(const struct row *rows, uint32_t u, uint32_t y)
{
    struct record r = { .number = (uint8_t)question(u, y) };
    if (r.number != 0)
        return r;
    struct oil o = oil_by(rows, u, y);
    return own_record(&o);
}

/* ---- the indices that are allowed ---- */

/* Do the whole numbers beside Q*N, or Q*N itself, show k, settled or near? */
static bool is_shown(const struct oil *o, int64_t k)
{
    uint32_t p = floor_of_qn(o), P = compare_with_qn(o, p) == 0 ? p : p + 1;
    if (p >= power_ceiling(100 * k - 50) && P <= power_floor(100 * k + 50))
        return true;
    return p >= power_ceiling(100 * k - 51) && P <= power_floor(100 * k - 49);
}

struct choice index_choices(const struct oil *o)
{
    if (!below_h(o)) {
        int64_t k = index_a(o);
        return (struct choice){ k, k };
    }
    const long double slack = 1e-9L;
    long double x = index_b_estimate(o);
    int64_t below = (int64_t)floorl(x), nearest = llrintl(x);
    if (fabsl(x - ((long double)below + 0.5L)) > 0.01L + slack)
        return (struct choice){ nearest, nearest };
    return (struct choice){ is_shown(o, below) ? below : below + 1, is_shown(o, below + 1) ? below + 1 : below };
}
