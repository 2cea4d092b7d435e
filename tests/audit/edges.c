/* Records at the edge of what is right, to hold the audit and oil.c, two
   pieces of code, to one verdict.

     edges SEED SHEET REFUSED

   Works a sheet of 2,000 pairs by the library, then changes p, P, mark or index
   of most records by so little that many stay right and many do not. Writes the
   sheet, and the numbers of the records that oil.c refuses. */
#include "../compare/library.h"
#include "../compare/oil.h"

#include <inttypes.h>
#include <math.h>
#include <stdio.h>
#include <stdlib.h>

enum { N = 2000, RESULTS = 16, PAIRS = RESULTS + RECORD * N, TOTAL = PAIRS + 8 * N };
static uint8_t sheet[TOTAL];
static uint64_t state;

static int64_t random_in(int64_t low, int64_t high)
{
    state = state * 6364136223846793005u + 1442695040888963407u;
    return low + (int64_t)((state >> 33) % (uint64_t)(high - low + 1));
}

static void put(uint8_t *b, uint32_t v)
{
    for (int i = 0; i < 4; i++)
        b[i] = (uint8_t)(v >> 8 * i);
}

/* At y 2,000 L is 7,994 and L - H 1,600 thousandths, so that every eighth u has
   exactly a whole index or a half by A; here a half from -49.5 to 49.5. */
static void pick_half_by_a(uint32_t *u, uint32_t *y)
{
    *y = Y_LEAST;
    *u = (uint32_t)(7994 + 8 * (2 * random_in(-50, 49) + 1));
}

/* Most pairs are beside a half by B, where both marks have an edge. */
static void pick(uint32_t *u, uint32_t *y)
{
    if (random_in(0, 15) == 0) {
        pick_half_by_a(u, y);
        return;
    }
    *y = (uint32_t)(random_in(0, 1) ? random_in(Y_LEAST, 20000) : random_in(Y_LEAST, Y_GREATEST));
    struct oil o = oil_of(*y + 1, *y);
    long double k = (long double)random_in(100, 300), off = (long double)random_in(-2, 2) / 200.0L;
    long double n = log10l(1.0L + 0.00715L * (k + 0.5L + off - 100.0L));
    *u = (uint32_t)((long double)o.H / (long double)UNITS * powl(*y / 1000.0L, -n));
    if (random_in(0, 3) == 0)
        *u = (uint32_t)random_in(*y, 2 * o.H / UNITS);
}

static uint32_t moved(int64_t from)
{
    int64_t to = from + random_in(-2, 2);
    return to < 0 ? 0 : (uint32_t)to;
}

static void change(struct record *r)
{
    bool near = r->method == B_NEAR;
    int64_t k = 100 * (int64_t)r->index;
    switch (r->method >= B_SETTLED ? random_in(0, 7) : 8) {
    case 0:
        r->p = moved(r->p);
        break;
    case 1:
        r->P = moved(r->P);
        break;
    case 2:
        r->method = near ? B_SETTLED : B_NEAR;
        break;
    case 3:
        r->method = near ? B_SETTLED : B_NEAR;
        r->index += near ? -1 : 1;
        break;
    case 4:
        r->p = moved(power_ceiling(near ? k - 51 : k - 50));
        break;
    case 5:
        r->P = moved(power_floor(near ? k - 49 : k + 50));
        break;
    case 6:
    case 8:
        r->index += (int32_t)random_in(-1, 1);
        break;
    default:
        break;
    }
}

static void fill(void)
{
    put(sheet, N);
    put(sheet + 4, PAIRS);
    put(sheet + 8, RESULTS);
    put(sheet + 12, TOTAL);
    for (int i = 0; i < N; i++) {
        uint32_t u, y;
        pick(&u, &y);
        put(sheet + PAIRS + 8 * i, u);
        put(sheet + PAIRS + 8 * i + 4, y);
    }
}

static uint32_t get(const uint8_t *b)
{
    return (uint32_t)b[0] | (uint32_t)b[1] << 8 | (uint32_t)b[2] << 16 | (uint32_t)b[3] << 24;
}

int main(int argc, char **argv)
{
    FILE *out = argc == 4 ? fopen(argv[2], "wb") : NULL, *list = argc == 4 ? fopen(argv[3], "w") : NULL;
    if (out == NULL || list == NULL) {
        fprintf(stderr, "usage: edges SEED SHEET REFUSED\n");
        return 2;
    }
    state = strtoull(argv[1], NULL, 10);
    fill();
    if (vi_sheet(sheet, TOTAL) != 0)
        return 1;
    for (int i = 0; i < N; i++) {
        uint8_t *record = sheet + RESULTS + RECORD * i, *pair = sheet + PAIRS + 8 * i;
        struct record r = record_of_bytes(record);
        change(&r);
        bytes_of_record(&r, record);
        if (fault(get(pair), get(pair + 4), record) != NULL)
            fprintf(list, "%d\n", i);
    }
    bool written = fwrite(sheet, 1, TOTAL, out) == TOTAL;
    return fclose(out) == 0 && fclose(list) == 0 && written ? 0 : 1;
}
