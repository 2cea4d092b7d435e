/* The span of the index of oils whose viscosities are each known to 0.35 %, as a capillary gives them: between which whole indices an oil lies. Compiles as C
   and as C++. */
#include "viscosity_index.h"

#include <stdio.h>

enum { UNCERTAINTY = 35, PARTS = 10000 }; /* 0.35 % */

/* The limits of a viscosity, rounded outwards. */
static uint32_t lower_limit(uint32_t viscosity)
{
    return (uint32_t)((uint64_t)viscosity * (PARTS - UNCERTAINTY) / PARTS);
}

static uint32_t upper_limit(uint32_t viscosity)
{
    return (uint32_t)(((uint64_t)viscosity * (PARTS + UNCERTAINTY) + PARTS - 1) / PARTS);
}

static void print_span(uint32_t u, uint32_t y)
{
    int32_t row[VI_SPAN_SIZE];
    const uint32_t answer = vi_span(lower_limit(u), upper_limit(u), lower_limit(y), upper_limit(y), row, VI_SPAN_SIZE);
    printf("%u.%03u %u.%03u: ", (unsigned)(u / 1000), (unsigned)(u % 1000), (unsigned)(y / 1000), (unsigned)(y % 1000));
    if (answer == VI_ANSWERED)
        printf("index %d to %d\n", (int)row[VI_SPAN_LEAST], (int)row[VI_SPAN_GREATEST]);
    else
        printf("refused %u\n", (unsigned)answer);
}

int main(void)
{
    print_span(73300, 8860);     /* by A */
    print_span(22830, 5050);     /* by B */
    print_span(28490, 5000);     /* at H: by A and by B */
    print_span(20000, 1999);     /* y1 below 2,000: refused 1 */
    print_span(6188000, 100000); /* y2 is 700 above y1: refused 42 */
    return 0;
}
