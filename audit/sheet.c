/* The records of a worked sheet, from its bytes and the printed table alone. */
#include "audit.h"

#include <gmp.h>
#include <inttypes.h>
#include <stdio.h>

enum { ROWS = 311, RECORD = 16, PAIR = 8, HEADER = 16, COUNT_GREATEST = 2000 };
enum { NUMBER_GREATEST = 4, METHOD_GREATEST = 3 };

static const struct { long y, l, h; } rows[ROWS] = {
#include "table.h"
};

/* ---- the pair ---- */

struct pair { uint64_t u, y; int64_t U, L, H; };

static int question(uint32_t u, uint32_t y)
{
    if (y < 2000)
        return 1;
    if (y > 500000)
        return 2;
    if (u > 1000000000)
        return 3;
    return u > y ? 0 : 4;
}

/* L or H between two rows, in units of 10^-10 mm2/s. */
static int64_t between(long a, long b, long ya, long yb, long y)
{
    int64_t unit = 10000000 / (yb - ya);
    return (int64_t)a * unit * (yb - y) + (int64_t)b * unit * (y - ya);
}

static struct pair pair_of(uint32_t u, uint32_t y)
{
    struct pair o = { .u = u, .y = y, .U = INT64_C(10000000) * u };
    int64_t v = y;
    if (v > 70000) {
        o.L = (8353 * v + 146700000) * v - INT64_C(2160000000000);
        o.H = (1684 * v + 118500000) * v - INT64_C(970000000000);
        return o;
    }
    int i = 0;
    while (i < ROWS - 2 && rows[i + 1].y < v)
        i++;
    o.L = between(rows[i].l, rows[i + 1].l, rows[i].y, rows[i + 1].y, v);
    o.H = between(rows[i].h, rows[i + 1].h, rows[i].y, rows[i + 1].y, v);
    return o;
}

/* ---- procedure A ---- */

/* The nearest whole number k to x = 100 (L - U)/(L - H), exactly a half to the
   even number, is the one with k - 1/2 <= x <= k + 1/2, or < at both if k is odd. */
static const char *audit_a(const struct pair *o, int32_t index, uint32_t p, uint32_t P)
{
    mpz_t d, x, low, high;
    mpz_inits(d, x, low, high, NULL);
    mpz_set_si(d, o->L - o->H);
    mpz_set_si(x, o->L - o->U);
    mpz_mul_si(x, x, 200);
    mpz_mul_si(low, d, 2 * (long)index - 1);
    mpz_mul_si(high, d, 2 * (long)index + 1);
    int from_low = mpz_cmp(x, low), from_high = mpz_cmp(x, high);
    bool right = from_low >= 0 && from_high <= 0 && (index % 2 == 0 || (from_low > 0 && from_high < 0));
    mpz_clears(d, x, low, high, NULL);
    if (!right)
        return "the index is not procedure A's";
    return p == 0 && P == 0 ? NULL : "p and P are not zero by A";
}

/* ---- procedure B ---- */

static uint64_t c_of(int64_t r)
{
    return (uint64_t)(10000000 + 715 * (r - 10000));
}

/* c(r)^Q <= 10^p * 10^(7Q), or the other way round for P. */
static bool index_claim(int64_t r, uint32_t p, bool least)
{
    struct side c = { .count = 0 }, ten = { .count = 0 };
    times_power(&c, c_of(r), Q);
    times_power(&ten, 10, (uint64_t)p + 7 * (uint64_t)Q);
    return least ? at_most(&c, &ten) : at_most(&ten, &c);
}

/* y^p * U^Q <= 1000^p * H^Q, or the other way round for P. */
static bool viscosity_claim(const struct pair *o, uint32_t p, bool least)
{
    struct side s = { .count = 0 }, t = { .count = 0 };
    times_power(&s, o->y, p);
    times_power(&s, (uint64_t)o->U, Q);
    times_power(&t, 1000, p);
    times_power(&t, (uint64_t)o->H, Q);
    return least ? at_most(&s, &t) : at_most(&t, &s);
}

/* p and P from 2Q on are false for every pair, and their powers would be too
   long to work out: c(r) < 10^9 for an index up to 10,000, so 10^P * 10^(7Q) is
   above c(r)^Q; and y^2 * U > 10^6 * H, asked here, gives the same for p. */
static bool too_great(const struct pair *o, uint32_t p, uint32_t P)
{
    __int128 left = (__int128)(o->y * o->y) * o->U, right = (__int128)1000000 * o->H;
    return P >= 2u * Q || (p >= 2u * Q && left > right);
}

static const char *audit_b(const struct pair *o, bool near, int32_t index, uint32_t p, uint32_t P)
{
    if (index < 100 || index > 10000)
        return "an index by B from 100 to 10,000 is asked";
    if (too_great(o, p, P))
        return "p or P is 2Q or more";
    int64_t least = 100 * (int64_t)index - (near ? 51 : 50), most = 100 * (int64_t)index + (near ? -49 : 50);
    printf("    %s %" PRId32 ": at least %" PRId64 " hundredths by p %" PRIu32 ", at most %" PRId64 " by P %" PRIu32 "\n",
        near ? "near" : "settled", index, least, p, most, P);
    if (!claim("c^Q <= 10^p 10^7Q", index_claim(least, p, true)))
        return "p is too small for 'at least'";
    if (!claim("10^P 10^7Q <= c^Q", index_claim(most, P, false)))
        return "P is too great for 'at most'";
    if (!claim("y^p U^Q <= 1000^p H^Q", viscosity_claim(o, p, true)))
        return "p is too great for the viscosities";
    if (!claim("1000^P H^Q <= y^P U^Q", viscosity_claim(o, P, false)))
        return "P is too small for the viscosities";
    return NULL;
}

/* ---- a record ---- */

static uint32_t get(const uint8_t *b)
{
    return (uint32_t)b[0] | (uint32_t)b[1] << 8 | (uint32_t)b[2] << 16 | (uint32_t)b[3] << 24;
}

static const char *audit_pair(const uint8_t *pair, const uint8_t *r)
{
    uint32_t u = get(pair), y = get(pair + 4), p = get(r + 8), P = get(r + 12);
    int32_t index = (int32_t)get(r + 4);
    int number = question(u, y), method = r[1];
    printf("  u %" PRIu32 " y %" PRIu32 ": number %d, method %d, index %" PRId32 "\n", u, y, r[0], method, index);
    if (r[2] != 0 || r[3] != 0)
        return "bytes 2 and 3 are not zero";
    if (r[0] != number)
        return "the number is not that of the first failed question";
    if (number != 0)
        return method == 0 && index == 0 && p == 0 && P == 0 ? NULL : "a refused pair has more than its number";
    struct pair o = pair_of(u, y);
    printf("    L %" PRId64 " H %" PRId64 " U %" PRId64 " units of 10^-10 mm2/s\n", o.L, o.H, o.U);
    if (o.U >= o.H)
        return method == 1 ? audit_a(&o, index, p, P) : "the method is not A, with U at or above H";
    if (method != 2 && method != 3)
        return "the method is not B, with U below H";
    return audit_b(&o, method == 3, index, p, P);
}

/* ---- the sheet ---- */

struct sheet { const uint8_t *bytes; size_t length; uint32_t n, pairs, results; };

static int sheet_question(struct sheet *s)
{
    if (s->length < HEADER)
        return 11;
    s->n = get(s->bytes);
    s->pairs = get(s->bytes + 4);
    s->results = get(s->bytes + 8);
    uint64_t total = get(s->bytes + 12), n = s->n, p = s->pairs, r = s->results;
    if (total != s->length)
        return 12;
    if (n > COUNT_GREATEST)
        return 13;
    if (p < HEADER || p + PAIR * n > total)
        return 14;
    if (r < HEADER || r + RECORD * n > total)
        return 15;
    return n > 0 && p < r + RECORD * n && r < p + PAIR * n ? 16 : 0;
}

static const uint8_t *record_of(const struct sheet *s, uint32_t i)
{
    return s->bytes + s->results + RECORD * i;
}

/* Whether some record may be that of a pair, by its number and method alone. */
static bool worked(const struct sheet *s)
{
    for (uint32_t i = 0; i < s->n; i++) {
        const uint8_t *r = record_of(s, i);
        if (r[0] <= NUMBER_GREATEST && r[1] <= METHOD_GREATEST && (r[0] != 0 || r[1] != 0))
            return true;
    }
    return false;
}

static struct sheet sheet;

static const char *audit_record(uint32_t i)
{
    return audit_pair(sheet.bytes + sheet.pairs + PAIR * i, record_of(&sheet, i));
}

struct records read_sheet(const char *path)
{
    struct file file = read_file(path);
    sheet = (struct sheet){ .bytes = file.bytes, .length = file.length };
    int number = sheet_question(&sheet);
    if (number != 0)
        stop("the sheet is refused, it fails question %d", number);
    if (sheet.n > 0 && !worked(&sheet))
        stop("the sheet is not worked: in every record number and method are both 0, or one is greater than any there is");
    return (struct records){ .holder = "the sheet", .n = sheet.n, .audit = audit_record };
}
