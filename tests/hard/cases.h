/* Reads data/hard-cases.txt. */
#ifndef CASES_H
#define CASES_H

#include "../compare/oil.h"

#include <inttypes.h>
#include <stdio.h>

struct hard_case {
    char kind[16];
    uint32_t u, y;
    int64_t below;              /* the half is below + 1/2 */
    double distance;
};

/* The next case; false at the end. A line that cannot be read sets *bad. */
static inline bool next_case(FILE *file, struct hard_case *c, bool *bad)
{
    char line[200];
    while (fgets(line, sizeof line, file) != NULL) {
        if (line[0] == '#')
            continue;
        *bad = sscanf(line, "%15s %" SCNu32 " %" SCNu32 " %" SCNd64 " %lf", c->kind, &c->u, &c->y, &c->below,
            &c->distance) != 5;
        return !*bad;
    }
    return false;
}

/* The right index of an oil whose index is close to below + 1/2. The half
   itself goes to the even number by A; by B none of the cases is a half. */
static inline int64_t right_index(const struct oil *o, int64_t below)
{
    if (!below_h(o))
        return index_a(o);
    return compare_index(o, 100 * below + 50) < 0 ? below : below + 1;
}

#endif
