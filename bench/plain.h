/* Plain C's index, which the measurements of an index and of a span share: doubles and libm as a firmware author would write it, the row by its spacing, a
   straight line, formulas 3, 6 and 7, and nearbyint, which takes a half to the even number; no certificate. bench/table.awk writes table.h. And the oils of
   a planner's mix, which those of an index and of a written sheet share. */
#ifndef PLAIN_H
#define PLAIN_H

#include <math.h>
#include <stdint.h>

#include "measure.h"
#include "table.h"

#define SHARED static __attribute__((unused)) /* no measurement calls all of these */

SHARED void plain_l_and_h(double y, double *l, double *h)
{
    if (y > 70) {
        *l = (0.8353 * y + 14.67) * y - 216;
        *h = (0.1684 * y + 11.85) * y - 97;
        return;
    }
    double at = y < 20 ? (y - 2) * 10 : y < 30 ? 180 + (y - 20) * 5 : 230 + (y - 30) * 2;
    int row = (int)(at + 1e-9);
    if (row > ROWS - 2)
        row = ROWS - 2;
    double share = at - row;
    *l = rows[row].l + (rows[row + 1].l - rows[row].l) * share;
    *h = rows[row].h + (rows[row + 1].h - rows[row].h) * share;
}

SHARED int plain_index(uint32_t u, uint32_t y, int printed)
{
    double l, h, U = u / 1000.0, Y = y / 1000.0;
    if (y < 2000 || y > 500000 || u > 1000000000 || u <= y)
        return 0;
    plain_l_and_h(Y, &l, &h);
    if (U >= h)
        return (int)nearbyint(100 * (l - U) / (l - h));
    double n = printed ? (log(h) - log(U)) / log(Y) : log(h / U) / log(Y);
    return (int)nearbyint((pow(10, n) - 1) / 0.00715 + 100);
}

/* an oil of the mix: an index from about 60 to 160 */
SHARED void draw_of_mix(uint32_t *u, uint32_t *y)
{
    double l, h, Y = 3 * pow(20 / 3.0, random_unit());
    plain_l_and_h(Y, &l, &h);
    *y = (uint32_t)(Y * 1000);
    *u = (uint32_t)(h * (0.75 + 0.4 * random_unit()) * 1000);
}

#endif
