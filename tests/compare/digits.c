/* Would a single misread digit be noticed? Each row of Table 1 with its L or its
   H one more or one less in the last printed digit, and each coefficient of the
   two quadratics and of the constant's two formulas likewise, is made into a
   library of its own; the comparison's questions for that place must end in a
   failure every time. The index itself has to tell: the wrong library claims no
   more by p and P than its index needs. So has k: its fractions are right. */
#include "compare.h"

#include <stdio.h>
#include <stdlib.h>
#include <string.h>
#include <sys/wait.h>
#include <unistd.h>

/* ---- the library with one digit changed ---- */

static struct row rows[ROWS];
static int64_t l_of[3] = { 8353, 1467, 216 }, h_of[3] = { 1684, 1185, 97 };
static struct formula changed_40, changed_100;

/* a y^2 + b y + c with a in 10^-4, b in 10^-2 and c whole, in 10^-10 mm2/s. */
static int64_t quadratic(const int64_t *k, int64_t y)
{
    return k[0] * y * y + k[1] * 100000 * y - k[2] * INT64_C(10000000000);
}

/* The widest p and P that still show the record's index. */
static void widen(struct record *r)
{
    if (r->method == BY_A)
        return;
    int64_t k = 100 * (int64_t)r->index;
    int64_t p = power_ceiling(r->method == B_NEAR ? k - 51 : k - 50);
    r->p = p < 0 ? 0 : (uint32_t)p;
    r->P = (uint32_t)power_floor(r->method == B_NEAR ? k - 49 : k + 50);
}

uint32_t vi_pair(uint32_t u, uint32_t y, uint8_t *record, size_t length)
{
    if (length != RECORD)
        return WRONG_LENGTH;
    struct record r = { .number = (uint8_t)question(u, y) };
    if (r.number == 0) {
        struct oil o = oil_of(u, y);
        basis(rows, y, &o.L, &o.H);
        if (y > TABLE_END) {
            o.L = quadratic(l_of, y);
            o.H = quadratic(h_of, y);
        }
        r = own_record(&o);
        widen(&r);
    }
    bytes_of_record(&r, record);
    return r.number;
}

uint32_t vi_sheet(uint8_t *sheet, size_t length)
{
    (void)sheet;
    (void)length;
    return 0;
}

static uint32_t constant_by(const struct formula *printed, const struct formula *changed,
    uint32_t viscosity, uint32_t density, int32_t *row, size_t count)
{
    uint32_t number = count == ROW ? constant_question(printed, viscosity, density) : WRONG_LENGTH;
    if (number != 0)
        return number;
    struct constant r = own_constant(printed, viscosity, density);
    row[0] = viscosity > changed->shift ? own_constant(changed, viscosity, density).k : r.k;
    row[1] = r.lower;
    row[2] = r.upper;
    return 0;
}

uint32_t vi_constant_40(uint32_t viscosity, uint32_t density, int32_t *row, size_t count)
{
    return constant_by(&at_40, &changed_40, viscosity, density, row, count);
}

uint32_t vi_constant_100(uint32_t viscosity, uint32_t density, int32_t *row, size_t count)
{
    return constant_by(&at_100, &changed_100, viscosity, density, row, count);
}

/* ---- one change after the other ---- */

/* One in the last of the four printed digits of a number of thousandths. */
static int32_t last_digit(int32_t thousandths)
{
    return thousandths < 10000 ? 1 : thousandths < 100000 ? 10 : thousandths < 1000000 ? 100 : 1000;
}

static void around_row(int row)
{
    if (row > 0)
        compare_row(row - 1);
    compare_row(row);
}

static void heavy(int unused)
{
    (void)unused;
    compare_heavy(1000);
}

static void places(int degrees)
{
    compare_formula(degrees == 40 ? &at_40 : &at_100, 500);
}

/* Runs part of the comparison in a process of its own; did it fail? */
static bool noticed(void (*part)(int), int argument)
{
    fflush(stdout);
    pid_t child = fork();
    if (child == 0) {
        if (freopen("/dev/null", "w", stdout) == NULL)
            _exit(2);
        part(argument);
        _exit(0);
    }
    int status = 0;
    if (child < 0 || waitpid(child, &status, 0) != child)
        exit(2);
    return WIFEXITED(status) && WEXITSTATUS(status) == 1;
}

static int changes, missed;

static void count(bool was_noticed, const char *what, int which)
{
    changes++;
    if (was_noticed)
        return;
    missed++;
    printf("digits: not noticed: %s, %d\n", what, which);
}

static void try_row(int i, int sign)
{
    rows[i].l += sign * last_digit(table[i].l);
    count(noticed(around_row, i), sign < 0 ? "L one less" : "L one more", table[i].y);
    rows[i] = table[i];
    rows[i].h += sign * last_digit(table[i].h);
    count(noticed(around_row, i), sign < 0 ? "H one less" : "H one more", table[i].y);
    rows[i] = table[i];
}

static void try_coefficients(int64_t *k, const char *what)
{
    for (int i = 0; i < 3; i++)
        for (int sign = -1; sign <= 1; sign += 2) {
            k[i] += sign;
            count(noticed(heavy, 0), what, i);
            k[i] -= sign;
        }
}

/* The formula's printed numbers, with one in the last digit of each. */
static void try_formula(struct formula *f, const int32_t last[4])
{
    struct formula printed = *f;
    int32_t *numbers[] = { &f->a, &f->b, &f->c, &f->d };
    for (int sign = -1; sign <= 1; sign += 2) {
        for (int i = 0; i < 4; i++) {
            *numbers[i] += sign * last[i];
            count(noticed(places, f->degrees), "a number of the constant's formula", i);
            *f = printed;
        }
        f->shift += (uint32_t)(sign * 100);     /* 5.5 and 0.8 */
        count(noticed(places, f->degrees), "what is taken from the viscosity", f->degrees);
        *f = printed;
    }
}

int main(void)
{
    begin(1);
    memcpy(rows, table, sizeof rows);
    changed_40 = at_40;
    changed_100 = at_100;
    if (noticed(around_row, 100) || noticed(heavy, 0) || noticed(places, 40) || noticed(places, 100)) {
        printf("digits: FAILED: the table and the formulas as printed do not pass\n");
        return 1;
    }
    for (int i = 0; i < ROWS; i++) {
        try_row(i, 1);
        try_row(i, -1);
    }
    try_coefficients(l_of, "a coefficient of L");
    try_coefficients(h_of, "a coefficient of H");
    try_formula(&changed_40, (const int32_t[]){ 1, 1, 100, 10 });      /* 0.0664 0.1154 0.94 0.109 */
    try_formula(&changed_100, (const int32_t[]){ 10, 1, 100, 10 });    /* 0.108 0.1255 0.90 0.097 */
    printf("digits: %s: %d changes of one digit, %d not noticed\n", missed == 0 ? "passed" : "FAILED", changes, missed);
    return missed == 0 ? 0 : 1;
}
