/* near N SEED: of N random oils below H, how many the library marks near, and how many no program could settle at 1/Q.

   An oil can be settled k exactly when a whole number lies between Q*log10(c(100k - 50)/10^7) and Q*N, and one between Q*N and
   Q*log10(c(100k + 50)/10^7). Both are asked of the comparison's own arithmetic (tests/compare/oil.c), which is exact. */
#include <math.h>
#include <stdio.h>
#include <stdlib.h>

#include "../tests/compare/oil.h"
#include "viscosity_index.h"

static uint64_t state;

static double random_unit(void)
{
    state ^= state << 13;
    state ^= state >> 7;
    state ^= state << 17;
    return (double)(state >> 11) / 9007199254740992.0;
}

/* y even in its logarithm from 2 to 500 mm2/s, u even from y to H */
static struct oil draw(void)
{
    for (;;) {
        uint32_t y = (uint32_t)(2000 * pow(250, random_unit()));
        int64_t l, h;
        basis(table, y, &l, &h);
        struct oil o = oil_of(y + 1 + (uint32_t)((double)(h / UNITS - y) * random_unit()), y);
        if (below_h(&o))
            return o;
    }
}

static int can_be_settled(const struct oil *o)
{
    int64_t floor_qn = (int64_t)floorl(qn_estimate(o));
    while (compare_with_qn(o, (uint64_t)floor_qn) > 0)
        floor_qn--;
    while (compare_with_qn(o, (uint64_t)floor_qn + 1) <= 0)
        floor_qn++;
    int64_t ceiling_qn = compare_with_qn(o, (uint64_t)floor_qn) == 0 ? floor_qn : floor_qn + 1;
    int64_t k = (int64_t)floorl(index_b_estimate(o) + 0.5L);
    for (int64_t at = k - 1; at <= k + 1; at++)
        if (at >= 100 && power_ceiling(100 * at - 50) <= floor_qn && ceiling_qn <= power_floor(100 * at + 50))
            return 1;
    return 0;
}

int main(int count, char **words)
{
    long n = count > 1 ? atol(words[1]) : 10000000, near = 0, never = 0;
    state = count > 2 ? strtoull(words[2], 0, 10) : 88172645463325252ull;
    for (long i = 0; i < n; i++) {
        struct oil o = draw();
        uint8_t record[RECORD];
        vi_pair(o.u, o.y, record, sizeof record);
        near += record[VI_RECORD_METHOD] == VI_METHOD_B_NEAR;
        never += !can_be_settled(&o);
    }
    printf("%ld oils below H: %ld near, %ld that no program can settle at 1/Q, ratio %.3f\n", n, near, never, (double)near / (double)never);
    return 0;
}
