/* Compares the library with oil.c on every hard case and on the u on either
   side of it. A settled answer by B has to be the right index; a near one has
   to be marked beside this very half.

     check data/hard-cases.txt */
#include "../compare/library.h"
#include "cases.h"

#include <math.h>
#include <stdlib.h>
#include <string.h>

struct count { uint64_t cases, a, settled, near, pairs; };

static const char *check_pair(uint32_t u, uint32_t y, struct record *r)
{
    uint8_t bytes[RECORD];
    memset(bytes, 0xa5, sizeof bytes);
    if (vi_pair(u, y, bytes, RECORD) != question(u, y))
        return "the number answered";
    *r = record_of_bytes(bytes);
    return fault(u, y, bytes);
}

/* The data file against our own arithmetic: a wrong line would test nothing. */
static const char *check_line(const struct hard_case *c, const struct oil *o)
{
    int64_t below = c->below;
    double distance = c->distance;
    if (below_h(o)) {
        distance = distance_to_half(o, &below);
    } else {
        double d = 2.0 * (double)(o->L - o->H);
        int64_t apart = 200 * (o->L - o->U) - (2 * below + 1) * (o->L - o->H);
        distance = fabs((double)apart) / d;
    }
    if (below != c->below)
        return "the file's half";
    if (fabs(distance - c->distance) > 1e-3 * c->distance)
        return "the file's distance";
    return NULL;
}

static const char *check_case(const struct hard_case *c, struct count *count)
{
    struct oil o = oil_of(c->u, c->y);
    const char *what = question(c->u, c->y) != 0 ? "the file holds a refused pair" : check_line(c, &o);
    struct record r, beside;
    if (what == NULL)
        what = check_pair(c->u, c->y, &r);
    if (what != NULL)
        return what;
    if (r.method == B_NEAR ? r.index != c->below + 1 : r.index != right_index(&o, c->below))
        return "the index";
    count->cases++;
    count->a += r.method == BY_A;
    count->settled += r.method == B_SETTLED;
    count->near += r.method == B_NEAR;
    what = check_pair(c->u - 1, c->y, &beside);
    if (what == NULL)
        what = check_pair(c->u + 1, c->y, &beside);
    count->pairs += 3;
    return what;
}

int main(int argc, char **argv)
{
    FILE *file = argc == 2 ? fopen(argv[1], "r") : NULL;
    if (file == NULL) {
        fprintf(stderr, "usage: check data/hard-cases.txt\n");
        return 2;
    }
    struct hard_case c;
    struct count count = { 0, 0, 0, 0, 0 };
    bool bad = false;
    while (next_case(file, &c, &bad)) {
        const char *what = check_case(&c, &count);
        if (what != NULL) {
            printf("hard: FAILED: %s, at %s u %" PRIu32 " y %" PRIu32 "\n", what, c.kind, c.u, c.y);
            return 1;
        }
    }
    if (bad || count.cases < 1000) {
        printf("hard: FAILED: the file cannot be read to its end or is too short\n");
        return 1;
    }
    printf("hard: passed: %" PRIu64 " hard cases agree (A %" PRIu64 ", B settled %" PRIu64 ", B near %" PRIu64
           "), with the u beside them %" PRIu64 " pairs\n", count.cases, count.a, count.settled, count.near,
        count.pairs);
    return 0;
}
