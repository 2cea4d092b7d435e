/* Checks the records of a worked sheet, or those of constants, from their bytes
   alone.

     audit [--quick] [--record I]... [--sample N] [--seed S] SHEET
     audit [--quick] [--record I]... [--sample N] [--seed S] --constants FILE
     audit --help

   Nothing of the library is used: the table is the one read from the printed
   standard, L, H, procedure A and the constant's formulas are whole numbers, and
   the four inequalities of document 01 for procedure B, and the two of a constant's
   logarithm, are worked out as they stand, with real powers to the exponent
   16,777,216. Common factors of the two sides are cancelled first; what is left is
   multiplied out and compared.

   --quick encloses both sides' logarithms with MPFR, and works out the powers
   only where the enclosures do not decide.

   A file of constants has a line for each: temperature viscosity density number,
   and where the number is 0 also k lower upper. Lines may be blank; # begins a
   comment. - is standard input.

   Records are counted from 0: --record 0 checks the first. --sample draws N
   records, none twice, and all where there are no more. Without --record and
   --sample every record is checked; one that is chosen twice is checked once.

   Exit code 0: every record checked is right; 1: some is not; 2: nothing was
   checked, or the report could not be written. Standard error has the reason.
   Nothing is checked where an option or its number cannot be read, the file
   cannot be read, has no records or not the record that is named, where a sheet is
   refused or is not worked, or where a line of constants is no record.

   Not worked: in every record of the sheet number and method are both 0, or one
   of them is greater than any there is. No pair has such a record: the sheet was
   not worked, or a library left the block so, and the bytes do not tell which.
   Where one record is otherwise, the sheet counts as worked. */
#include "audit.h"

#include <errno.h>
#include <inttypes.h>
#include <stdarg.h>
#include <stdio.h>
#include <stdlib.h>
#include <string.h>

enum { RIGHT = 0, WRONG = 1, NOTHING_CHECKED = 2 }; /* exit codes */

/* ---- no audit ---- */

void stop(const char *format, ...)
{
    va_list words;
    va_start(words, format);
    fprintf(stderr, "audit: nothing was checked: ");
    vfprintf(stderr, format, words);
    fprintf(stderr, "\n");
    va_end(words);
    exit(NOTHING_CHECKED);
}

/* Asked after each record, so that no long run goes on for nothing. */
static void ask_output(void)
{
    if (ferror(stdout) == 0 && fflush(stdout) == 0)
        return;
    fprintf(stderr, "audit: the report could not be written: %s\n", strerror(errno));
    exit(NOTHING_CHECKED);
}

/* ---- the file ---- */

struct file read_file(const char *path)
{
    static uint8_t room[1 << 24];
    FILE *file = strcmp(path, "-") == 0 ? stdin : fopen(path, "rb");
    if (file == NULL)
        stop("%s: %s", path, strerror(errno));
    size_t length = fread(room, 1, sizeof room, file);
    if (ferror(file))
        stop("%s: %s", path, strerror(errno));
    if (!feof(file))
        stop("%s: the file is longer than 16,777,215 bytes", path);
    fclose(file);
    return (struct file){ .bytes = room, .length = length };
}

/* ---- a record ---- */

bool claim(const char *text, bool holds)
{
    printf("    %s: %s\n", text, holds ? "holds" : "DOES NOT HOLD");
    return holds;
}

static int failures, checked;

static void audit_record(const struct records *r, uint32_t i)
{
    printf("record %" PRIu32 "\n", i);
    const char *wrong = r->audit(i);
    checked++;
    if (wrong != NULL) {
        printf("  WRONG: record %" PRIu32 ": %s\n", i, wrong);
        failures++;
    } else {
        printf("  right\n");
    }
    ask_output();
}

static const char *word(uint32_t n)
{
    return n == 1 ? "record" : "records";
}

/* ---- the command ---- */

/* past: one more than the greatest record named, 0 if none is. */
struct wish { bool help, chosen[RECORDS_GREATEST]; uint64_t past, sample, seed; const char *path; bool constants; };

static void print_usage(void)
{
    printf("usage: audit [--quick] [--record I]... [--sample N] [--seed S] SHEET\n"
           "       audit [--quick] [--record I]... [--sample N] [--seed S] --constants FILE\n"
           "Checks the records of a worked sheet, or those of constants, from their bytes alone, by whole-number powers.\n"
           "\n"
           "  --constants FILE  checks constants: a line for each, temperature viscosity density number, and where the number\n"
           "                    is 0 also k lower upper; lines may be blank, # begins a comment; - is standard input\n"
           "  --record I  checks record I; records are counted from 0; may be given again\n"
           "  --sample N  checks N records drawn at random, none twice; all, where there are no more\n"
           "  --seed S    draws another sample; 1 if it is not given\n"
           "  --quick     encloses logarithms with MPFR, and works out the powers only where that does not decide\n"
           "  --help, -h  prints this\n"
           "\n"
           "Without --record and --sample every record is checked; one that is chosen twice is checked once.\n"
           "\n"
           "Exit codes:\n"
           "  0  every record checked is right\n"
           "  1  a record checked is wrong\n"
           "  2  nothing was checked, or the report could not be written; standard error says why\n");
}

/* The number after the option *i, digits and nothing else; *i moves on to it. */
static uint64_t number_after(char **argv, int *i, uint64_t least, uint64_t most)
{
    const char *option = argv[*i], *text = argv[++*i];
    uint64_t value = 0;
    bool fits = text != NULL && *text != '\0';
    for (const char *c = text; fits && *c != '\0'; c++) {
        uint64_t digit = (uint64_t)*c - '0';
        fits = digit <= 9 && value <= (most - digit) / 10;
        value = 10 * value + digit;
    }
    if (!fits || value < least)
        stop("%s %s: a whole number from %" PRIu64 " to %" PRIu64 " is asked; audit --help", option,
            text == NULL ? "without a number" : text, least, most);
    return value;
}

static void choose(struct wish *w, uint64_t i)
{
    if (i < RECORDS_GREATEST)
        w->chosen[i] = true;
    w->past = i >= w->past ? i + 1 : w->past;
}

static void name_file(struct wish *w, const char *path, bool constants)
{
    if (w->path != NULL)
        stop("two %s are named, %s and %s; audit --help", w->constants || constants ? "files" : "sheets", w->path, path);
    w->path = path;
    w->constants = constants;
}

/* The name after --constants; *i moves on to it. */
static const char *name_after(char **argv, int *i)
{
    const char *name = argv[++*i];
    if (name == NULL || (name[0] == '-' && name[1] != '\0'))
        stop("--constants %s: a file is asked, or - for standard input; audit --help", name == NULL ? "without a name" : name);
    return name;
}

static void read_wish(int argc, char **argv, struct wish *w)
{
    for (int i = 1; i < argc; i++) {
        if (strcmp(argv[i], "--help") == 0 || strcmp(argv[i], "-h") == 0)
            w->help = true;
        else if (strcmp(argv[i], "--quick") == 0)
            quick = true;
        else if (strcmp(argv[i], "--record") == 0)
            choose(w, number_after(argv, &i, 0, UINT32_MAX));
        else if (strcmp(argv[i], "--sample") == 0)
            w->sample = number_after(argv, &i, 1, UINT32_MAX);
        else if (strcmp(argv[i], "--seed") == 0)
            w->seed = number_after(argv, &i, 0, UINT64_MAX);
        else if (strcmp(argv[i], "--constants") == 0)
            name_file(w, name_after(argv, &i), true);
        else if (argv[i][0] == '-')
            stop("%s is no option; audit --help", argv[i]);
        else
            name_file(w, argv[i], false);
    }
}

/* Stops where there is nothing to check. */
static void ask_records(const struct records *r, const struct wish *w)
{
    if (r->n == 0)
        stop("%s has no records", r->holder);
    if (w->past > r->n)
        stop("--record %" PRIu64 ": %s has %" PRIu32 " %s, counted from 0", w->past - 1, r->holder, r->n, word(r->n));
}

/* Chooses records at random, each from those that are left. */
static void draw(uint32_t n, struct wish *w)
{
    static uint32_t left[RECORDS_GREATEST];
    for (uint32_t i = 0; i < n; i++)
        left[i] = i;
    for (uint32_t count = n; count > n - w->sample; count--) {
        w->seed = w->seed * 6364136223846793005u + 1442695040888963407u;
        uint32_t i = (uint32_t)((w->seed >> 33) % count);
        choose(w, left[i]);
        left[i] = left[count - 1];
    }
}

static void audit_chosen(const struct records *r, struct wish *w)
{
    bool all = (w->past == 0 && w->sample == 0) || w->sample >= r->n;
    if (w->sample >= r->n)
        printf("audit: --sample %" PRIu64 ": %s has %" PRIu32 " %s, all are checked\n", w->sample, r->holder, r->n, word(r->n));
    else if (w->sample > 0) {
        printf("audit: %" PRIu64 " of %" PRIu32 " records drawn, seed %" PRIu64 "\n", w->sample, r->n, w->seed);
        draw(r->n, w);
    }
    for (uint32_t i = 0; i < r->n; i++)
        if (all || w->chosen[i])
            audit_record(r, i);
}

int main(int argc, char **argv)
{
    static struct wish w = { .seed = 1 };
    setvbuf(stdout, NULL, _IOLBF, 0);
    read_wish(argc, argv, &w);
    if (w.help) {
        print_usage();
        ask_output();
        return 0;
    }
    if (w.path == NULL)
        stop("no sheet is named; audit --help");
    struct records r = w.constants ? read_constants(w.path) : read_sheet(w.path);
    ask_records(&r, &w);
    double start = seconds();
    audit_chosen(&r, &w);
    printf("audit: %s: %d %s checked, %d wrong, %.1f s, at most %ld MB\n", failures == 0 ? "passed" : "FAILED", checked,
        word((uint32_t)checked), failures, seconds() - start, megabytes());
    ask_output();
    return failures == 0 ? RIGHT : WRONG;
}
