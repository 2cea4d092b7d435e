/* What every part of the comparison needs: random numbers, the line that a
   failure prints, progress, and memory with an end. */
#define _DEFAULT_SOURCE
#include "compare.h"

#include <inttypes.h>
#include <signal.h>
#include <stdio.h>
#include <stdlib.h>
#include <string.h>
#include <sys/mman.h>
#include <time.h>
#include <unistd.h>

/* ---- random numbers (SplitMix64) ---- */

static uint64_t random_state;

uint64_t random64(void)
{
    uint64_t z = (random_state += 0x9e3779b97f4a7c15u);
    z = (z ^ (z >> 30)) * 0xbf58476d1ce4e5b9u;
    z = (z ^ (z >> 27)) * 0x94d049bb133111ebu;
    return z ^ (z >> 31);
}

int64_t random_in(int64_t low, int64_t high)
{
    uint64_t width = (uint64_t)(high - low) + 1;
    return low + (int64_t)(random64() % width);
}

static int bits_of(uint64_t v)
{
    return v == 0 ? 0 : 64 - __builtin_clzll(v);
}

int64_t random_log(int64_t low, int64_t high)
{
    int64_t bits = random_in(bits_of((uint64_t)low), bits_of((uint64_t)high));
    int64_t least = bits <= 1 ? 0 : INT64_C(1) << (bits - 1), most = 2 * least + (bits <= 1);
    least = least < low ? low : least;
    most = most > high ? high : most;
    return random_in(least, most < least ? least : most);
}

/* ---- what a failure says ---- */

static uint64_t seed = 1;
static uint32_t now_u, now_y;
static uint64_t now_which;
static const uint8_t *now_bytes;
static size_t now_length;
static int now_degrees;
static uint32_t now_viscosity, now_density;
static const int32_t *now_row;
static const char *now_call;
static uint32_t now_number;
static int now_held;
static uint64_t now_list;
static struct limits now_limits;
static bool now_spans, now_writes;
static const uint32_t *now_numbers;
static size_t now_count, now_room;

void now_pair(uint32_t u, uint32_t y)
{
    now_u = u;
    now_y = y;
}

void now_sheet(uint64_t which, const uint8_t *bytes, size_t length)
{
    now_which = which;
    now_bytes = bytes;
    now_length = length;
}

void now_constant(int degrees, uint32_t viscosity, uint32_t density, const int32_t *row)
{
    now_degrees = degrees;
    now_viscosity = viscosity;
    now_density = density;
    now_row = row;
}

void now_tray(const char *call, uint32_t number, int held, uint64_t list)
{
    now_call = call;
    now_number = number;
    now_held = held;
    now_list = list;
    now_bytes = NULL;
    now_degrees = 0;
}

void now_span(const struct limits *s, const int32_t *row)
{
    now_limits = *s;
    now_row = row;
    now_spans = true;
    now_pair(0, 0);
}

void now_writing(const uint32_t *row, size_t count, size_t length)
{
    now_numbers = row;
    now_count = count;
    now_room = length;
    now_writes = true;
    now_pair(0, 0);
}

static void print_bytes(const char *name, const uint8_t *bytes, size_t length)
{
    printf("  %s:", name);
    for (size_t i = 0; i < length; i++)
        printf(" %02x", bytes[i]);
    printf("\n");
}

static void print_constant(void)
{
    printf("  constant at %d: viscosity %" PRIu32 " density %" PRIu32 ", seed %" PRIu64 "\n",
        now_degrees, now_viscosity, now_density, seed);
    if (now_row != NULL)
        printf("  row: %" PRId32 " %" PRId32 " %" PRId32 "\n", now_row[0], now_row[1], now_row[2]);
}

static void print_span(void)
{
    printf("  span: u %" PRIu32 " to %" PRIu32 " y %" PRIu32 " to %" PRIu32 ", seed %" PRIu64 "\n",
        now_limits.u1, now_limits.u2, now_limits.y1, now_limits.y2, seed);
    if (now_row != NULL)
        printf("  row: %" PRId32 " %" PRId32 "\n", now_row[0], now_row[1]);
    if (now_y != 0)
        printf("  pair inside: u %" PRIu32 " y %" PRIu32 "\n", now_u, now_y);
}

static void print_writing(void)
{
    printf("  writing of %zu numbers into %zu bytes, seed %" PRIu64 "\n  row:", now_count, now_room, seed);
    for (size_t i = 0; i < now_count && i < 8; i++)
        printf(" %" PRIu32, now_numbers[i]);
    printf("\n");
    if (now_u != 0 || now_y != 0)
        printf("  pair: u %" PRIu32 " y %" PRIu32 "\n", now_u, now_y);
}

_Noreturn void fail(const char *what, const uint8_t *record)
{
    printf("compare: FAILED: %s\n", what);
    if (now_writes) {
        print_writing();
        exit(1);
    }
    if (now_spans) {
        print_span();
        exit(1);
    }
    if (now_degrees != 0) {
        print_constant();
        exit(1);
    }
    printf("  pair: u %" PRIu32 " y %" PRIu32 ", seed %" PRIu64 "\n", now_u, now_y, seed);
    if (record != NULL)
        print_bytes("record", record, RECORD);
    if (now_call != NULL)
        printf("  tray: %s, number %" PRIu32 ", %d held, list %" PRIu64 "\n", now_call, now_number, now_held, now_list);
    if (now_bytes != NULL) {
        printf("  sheet %" PRIu64 " of %zu bytes\n", now_which, now_length);
        print_bytes("sheet's first bytes", now_bytes, now_length < 64 ? now_length : 64);
    }
    exit(1);
}

static void outside(int signal_number)
{
    (void)signal_number;
    static const char text[] = "compare: FAILED: the library reached past the bytes lent to it, or wrote to a row\n";
    if (write(1, text, sizeof text - 1) < 0)
        _exit(2);
    _exit(1);
}

void progress(const char *name, uint64_t done, uint64_t of)
{
    static time_t last;
    if (done % 64 != 0)
        return;
    time_t now = time(NULL);
    if (now < last + 10)
        return;
    if (last != 0)
        fprintf(stderr, "compare: %s %" PRIu64 " of %" PRIu64 "\n", name, done, of);
    last = now;
}

/* ---- memory with an end ---- */

enum { ARENA = 1 << 18 };
static uint8_t *arena;

static void make_arena(void)
{
    size_t page = (size_t)sysconf(_SC_PAGESIZE);
    arena = mmap(NULL, ARENA + page, PROT_READ | PROT_WRITE, MAP_PRIVATE | MAP_ANONYMOUS, -1, 0);
    if (arena == MAP_FAILED || mprotect(arena + ARENA, page, PROT_NONE) != 0) {
        printf("compare: FAILED: no memory\n");
        exit(1);
    }
    signal(SIGSEGV, outside);
}

uint8_t *last_bytes(size_t length)
{
    return arena + ARENA - length;
}

int32_t *last_numbers(size_t count)
{
    return (int32_t *)(void *)last_bytes(count * sizeof(int32_t));
}

void begin(uint64_t with_seed)
{
    seed = with_seed;
    random_state = with_seed;
    make_arena();
}

void begin_part(uint64_t part)
{
    random_state = seed + (part << 32);
}
