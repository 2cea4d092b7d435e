/* What the parts of the audit share: audit.c, the command; sheet.c and constants.c,
   the two kinds of records; powers.c, their powers. */
#ifndef AUDIT_H
#define AUDIT_H

#include <stdbool.h>
#include <stddef.h>
#include <stdint.h>

enum { Q = 16777216, RECORDS_GREATEST = 1000000 };

/* ---- audit.c ---- */

/* Says why nothing was checked, and ends the program. */
__attribute__((noreturn, format(printf, 1, 2))) void stop(const char *format, ...);

/* One byte more may be written after the last. */
struct file { uint8_t *bytes; size_t length; };
struct file read_file(const char *path);

/* Prints whether the claim holds, and answers it. */
bool claim(const char *text, bool holds);

/* What is checked: n records, at most RECORDS_GREATEST. `audit` prints its steps and
   answers what is wrong with record i, or NULL. */
struct records { const char *holder; uint32_t n; const char *(*audit)(uint32_t i); };

/* ---- sheet.c ---- */

struct records read_sheet(const char *path);

/* ---- constants.c ---- */

struct records read_constants(const char *path);

/* ---- powers.c ---- */

double seconds(void);
long megabytes(void);

/* One side of an inequality: the product of base^exponent. */
enum { FACTORS = 24 };
struct side { int count; struct { uint64_t base, exponent; } f[FACTORS]; };

void times_power(struct side *s, uint64_t base, uint64_t exponent);

/* Whether left <= right: by the powers themselves, where `quick` is set by
   enclosed logarithms first. */
extern bool quick;
bool at_most(const struct side *l, const struct side *r);

#endif
