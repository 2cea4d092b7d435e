#include "tray_numbers.h"
#include "compare.h"

#include <string.h>

/* ---- the numbers of a list ---- */

/* The kinds. UPPER_BYTES differ in their upper one, two or three bytes only; EDGES
   are on both sides of a place where another bit or byte begins, or of the last
   number and 0; LABELS have nine digits. */
enum { IN_ONE_BYTE, UPPER_BYTES, WHOLE_RANGE, EDGES, LABELS, MIXED, NUMBER_KINDS };

enum { LABEL_LEAST = 100000000, LABEL_GREATEST = 999999999, LABEL_STEP_GREATEST = 1000000 };

static void pick_labels(struct numbers *n)
{
    n->step = (uint32_t)random_log(1, LABEL_STEP_GREATEST);
    n->base = (uint32_t)random_in(LABEL_LEAST, LABEL_GREATEST - (int64_t)n->step * (SPREAD_GREATEST - 1));
}

void pick_numbers(struct numbers *n)
{
    static const int spreads[] = { 1, 2, 3, 8, 63, 64, 65, 66, 100, 200, 256, 256, 256, 256, 256, 256 };
    static const uint32_t edges[] = { 0, 0, 0, 1u << 8, 1u << 16, 1u << 24, 1u << 31, 1u << 31 };
    n->base = (uint32_t)random64();
    n->step = (uint32_t)random64() | 1;
    n->mask = UINT32_MAX;
    n->mixed = false;
    n->spread = spreads[random_in(0, 15)];
    switch (random_in(0, NUMBER_KINDS - 1)) {
    case IN_ONE_BYTE:
        n->mask = UINT8_MAX;
        break;
    case UPPER_BYTES:
        n->step = 1u << 8 * random_in(1, 3);
        if (random64() & 1)
            n->base %= 4;
        break;
    case EDGES:
        n->step = 1;
        n->base = edges[random_in(0, 7)] - (uint32_t)random_in(0, n->spread);
        break;
    case LABELS:
        pick_labels(n);
        break;
    case MIXED:
        n->mixed = true;
        break;
    default:                    /* an odd step, as drawn */
        break;
    }
}

/* No two numbers give the same. */
static uint32_t mix(uint32_t number)
{
    number = (number ^ number >> 16) * 0x7feb352du;
    number = (number ^ number >> 15) * 0x846ca68bu;
    return number ^ number >> 16;
}

uint32_t number_at(const struct numbers *n, int64_t i)
{
    uint32_t number = n->base + n->step * (uint32_t)(i % n->spread);
    return (n->mixed ? mix(number) : number) & n->mask;
}

/* ---- named lists ---- */

/* The edges of 8, 16, 24 and 31 bits and of nine digits, and numbers that differ
   in their upper bytes only. */
static const uint32_t named[] = { 0, 1, 2, 255, 256, 257, 511, 512, 65535, 65536, 65537, 16777215, 16777216, 16777217,
    99999999, 100000000, 999999999, 1000000000, 2147483647, 2147483648u, 2147483649u, 0xff000000u, 0xff000001u,
    0xffff0000u, 0xffffff00u, 4294967294u, 4294967295u };
enum { NAMED = sizeof named / sizeof *named };

static void begin_empty(struct tested *t)
{
    memset(t, 0, sizeof *t);
    move_tray();
    tally.tray_lists++;
}

/* The i-th sample of a list: its pair is its own. */
static void put_own(struct tested *t, uint32_t number, int i)
{
    put(t, number, 73300 + (uint32_t)i, 8860);
}

/* Each alone: none of the others is held. */
static void each_alone(void)
{
    static struct tested t;
    begin_empty(&t);
    for (int i = 0; i < NAMED; i++) {
        put_own(&t, named[i], i);
        for (int j = 0; j < NAMED; j++)
            if (j != i)
                take(&t, named[j]);
        put(&t, named[i], 22830, 5050);
        summary(&t);
        take(&t, named[i]);
        take(&t, named[i]);
    }
}

/* All held together, and each held once. They leave in the order of their numbers,
   or the other way. */
static void all_together(bool least_first)
{
    static struct tested t;
    begin_empty(&t);
    for (int i = 0; i < NAMED; i++)
        put_own(&t, named[i], i);
    summary(&t);
    for (int i = 0; i < NAMED; i++)
        put(&t, named[i], 22830, 5050);
    for (int i = 0; i < NAMED; i++) {
        uint32_t number = named[least_first ? i : NAMED - 1 - i];
        take(&t, number);
        take(&t, number);
        summary(&t);
    }
}

/* Two numbers that differ in one bit, for each bit. */
static void one_bit(uint32_t number)
{
    static struct tested t;
    begin_empty(&t);
    for (int bit = 0; bit < 32; bit++) {
        uint32_t other = number ^ 1u << bit;
        put_own(&t, number, 0);
        take(&t, other);
        put_own(&t, other, 1);
        put_own(&t, number, 2);
        put_own(&t, other, 2);
        take(&t, bit % 2 ? number : other);
        take(&t, bit % 2 ? number : other);
        take(&t, bit % 2 ? other : number);
    }
}

/* 64 numbers that differ from the first of them by multiples of the step, and 128
   that are not held. */
static void alike_in_lower_bytes(uint32_t first, uint32_t step)
{
    static struct tested t;
    begin_empty(&t);
    for (uint32_t i = 0; i < HELD_GREATEST; i++)
        put_own(&t, first + 4 * i * step, (int)i);
    for (uint32_t i = 0; i < HELD_GREATEST; i++) {
        put(&t, first + 4 * i * step, 22830, 5050);
        put(&t, first + (4 * i + 1) * step, 22830, 5050);
        take(&t, first + (4 * i + 2) * step);
    }
    for (uint32_t i = HELD_GREATEST; i > 0; i--)
        take(&t, first + 4 * (i - 1) * step);
}

void compare_numbers(void)
{
    each_alone();
    all_together(true);
    all_together(false);
    one_bit(0);
    one_bit(UINT32_MAX);
    one_bit(104000200);
    for (int bytes = 1; bytes <= 3; bytes++) {
        alike_in_lower_bytes(0, 1u << 8 * bytes);
        alike_in_lower_bytes(UINT32_MAX, 1u << 8 * bytes);
    }
}
