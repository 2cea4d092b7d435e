/* Compares the library, through its C calls, with the implementation of document
   01 in oil.c, the model of a sheet in sheets.c, the constant in constant.c, the
   tray in tray.c, the span in span_call.c and the written sheet in write_call.c.

     compare [--pairs N] [--sheets M] [--constants C] [--powers P] [--trays T] [--spans W] [--writes V] [--seed S]

   Ends at the first difference with exit code 1 and a line that names it. */
#include "compare.h"

#include <inttypes.h>
#include <stdio.h>
#include <stdlib.h>
#include <string.h>
#include <time.h>

/* ---- the run ---- */

static uint64_t option(int argc, char **argv, const char *name, uint64_t otherwise)
{
    for (int i = 1; i + 1 < argc; i += 2)
        if (strcmp(argv[i], name) == 0)
            return strtoull(argv[i + 1], NULL, 10);
    return otherwise;
}

static bool options_known(int argc, char **argv)
{
    static const char *const names[] = { "--pairs", "--sheets", "--constants", "--powers", "--trays", "--spans",
        "--writes", "--seed" };
    if (argc % 2 == 0)
        return false;
    for (int i = 1; i < argc; i += 2) {
        bool known = false;
        for (int j = 0; j < 8; j++)
            known = known || strcmp(argv[i], names[j]) == 0;
        if (!known)
            return false;
    }
    return true;
}

static uint64_t least(const uint64_t *of, size_t count)
{
    uint64_t found = UINT64_MAX;
    for (size_t i = 0; i < count; i++)
        found = of[i] < found ? of[i] : found;
    return found;
}

static void print_tally(void)
{
    printf("pairs %" PRIu64 ": A %" PRIu64 ", B settled %" PRIu64 ", B near %" PRIu64 ", refused by question",
        tally.pairs, tally.a, tally.settled, tally.near);
    for (int i = 1; i <= 4; i++)
        printf(" %d: %" PRIu64 "%s", i, tally.refused[i], i < 4 ? "," : "\n");
    printf("index from %" PRId64 " to %" PRId64 "; widest P - p %" PRIu32 "\n",
        tally.index_least, tally.index_greatest, tally.widest);
    printf("sheets %" PRIu64 ": accepted %" PRIu64 " with %" PRIu64 " records, refused by question",
        tally.sheets, tally.accepted, tally.records);
    for (int i = 11; i <= 16; i++)
        printf(" %d: %" PRIu64 "%s", i, tally.sheet_refused[i], i < 16 ? "," : "\n");
}

static void print_constants(void)
{
    printf("constants %" PRIu64 ": at 40 %" PRIu64 ", at 100 %" PRIu64 ", refused by question",
        tally.constants, tally.at_40, tally.constants - tally.at_40);
    for (int i = 21; i <= 22; i++)
        printf(" %d: %" PRIu64 "%s", i, tally.constant_refused[i], i < 22 ? "," : "\n");
    printf("k from %" PRId64 " to %" PRId64 ", below zero %" PRIu64 "; logarithm below zero %" PRIu64,
        tally.k_least, tally.k_greatest, tally.k_below_zero, tally.log_below_zero);
    printf("; widest upper - lower %" PRId64 "\n", tally.widest_row);
}

static void print_trays(void)
{
    printf("calls with trays %" PRIu64 " in %" PRIu64 " lists: put in by A %" PRIu64 ", by B settled %" PRIu64
        ", by B near %" PRIu64 ", taken out %" PRIu64 ", summaries %" PRIu64 ", refused by question", tally.tray_calls,
        tally.tray_lists, tally.put_in[BY_A], tally.put_in[B_SETTLED], tally.put_in[B_NEAR], tally.taken_out,
        tally.summaries);
    static const int questions[] = { 1, 2, 3, 4, 5, 31, 32, 33 };
    for (int i = 0; i < 8; i++)
        printf(" %d: %" PRIu64 "%s", questions[i], tally.tray_refused[questions[i]], i < 7 ? "," : "\n");
    printf("a pair's question with its number held %" PRIu64 ", with 64 held %" PRIu64 "; 31 with 64 held %" PRIu64
        "; damaged trays %" PRIu64 " calls; stored and loaded %" PRIu64 "\n", tally.pair_before_held,
        tally.pair_before_full, tally.held_before_full, tally.damaged_calls, tally.stored);
    printf("summaries of an empty tray %" PRIu64 ", of a full one %" PRIu64 ", at each fill at least %" PRIu64
        "; sum of indices from %" PRId64 " to %" PRId64 "\n", tally.summaries_at[0], tally.summaries_at[64],
        least(tally.summaries_at, 65), tally.sum_least, tally.sum_greatest);
}

static void print_numbers(void)
{
    printf("numbers of samples above 255: %" PRIu64 ", above 65,535: %" PRIu64 ", above 2,147,483,647: %" PRIu64
        ", 0: %" PRIu64 ", 4,294,967,295: %" PRIu64, tally.above_one_byte, tally.above_two_bytes, tally.above_31_bits,
        tally.number_0, tally.number_greatest);
    printf("; not held, but one that is has the same lowest byte: %" PRIu64 ", the same 16 bits: %" PRIu64
        ", the same 24 bits: %" PRIu64 "\n", tally.alike[1], tally.alike[2], tally.alike[3]);
}

static void print_kept(void)
{
    printf("refreshes after these calls %" PRIu64 "; left: the last %" PRIu64 ", one between %" PRIu64
        ", the lowest %" PRIu64 ", the highest %" PRIu64, tally.refreshes, tally.last_left, tally.between_left,
        tally.lowest_left[0], tally.highest_left[0]);
    printf(", and while another had the same index the lowest %" PRIu64 ", the highest %" PRIu64 "\n",
        tally.lowest_left[1], tally.highest_left[1]);
    printf("of damaged trays: what is kept beyond its bounds at a put or a take %" PRIu64 ", within them but not the "
        "samples' %" PRIu64 ", answered though not the samples' %" PRIu64 "; calls with 512 numbers %" PRIu64 "\n",
        tally.kept_beyond, tally.kept_otherwise, tally.not_the_walk, tally.before_105);
}

static void print_spans(void)
{
    printf("spans %" PRIu64 ": answered %" PRIu64 ", refused by question", tally.spans, tally.span_refused[0]);
    static const int questions[] = { 1, 2, 3, 4, 5, 41, 42 };
    for (int i = 0; i < 7; i++)
        printf(" %d: %" PRIu64 "%s", questions[i], tally.span_refused[questions[i]], i < 6 ? "," : "");
    uint64_t both = UINT64_MAX;
    for (int i = 0; i < SPAN_QUESTIONS; i++)
        for (int j = i + 1; j < SPAN_QUESTIONS; j++)
            both = tally.both_refuse[i][j] < both ? tally.both_refuse[i][j] : both;
    printf("; by each but 5 just beyond its limit at least %" PRIu64 ", where another refuses too at least %" PRIu64
        "\n", least(tally.just_beyond, SPAN_QUESTIONS), both);
    printf("spans answered:");
    for (int i = 0; i < SPAN_KINDS; i++)
        printf(" %s %" PRIu64 "%s", span_kinds[i], tally.of_kind[i], i + 1 < SPAN_KINDS ? ";" : "\n");
    printf("pairs inside asked %" PRIu64 "; index from %" PRId64 " to %" PRId64 "\n", tally.inside, tally.span_least,
        tally.span_greatest);
}

static void print_writes(void)
{
    printf("writings %" PRIu64 ": written %" PRIu64 ", refused by question 51: %" PRIu64 ", 52: %" PRIu64 ", 53: %"
        PRIu64, tally.writes, tally.write_refused[0], tally.write_refused[51], tally.write_refused[52],
        tally.write_refused[53]);
    printf("; by each alone at least %" PRIu64 ", where another refuses too at least %" PRIu64,
        least(tally.alone_refuses, WRITE_QUESTIONS), least(tally.two_refuse, WRITE_QUESTIONS * WRITE_QUESTIONS));
    printf("; each count of numbers to 4,002 with its size, a byte short and a byte long at least %" PRIu64
        "; sheets at each place of 16 bytes at least %" PRIu64 "\n", least(tally.swept, SWEPT_COUNTS * SWEPT_SIZES),
        least(tally.written_at, ALIGNMENTS));
    printf("writings:");
    for (int i = 0; i < WRITE_KINDS; i++)
        printf(" %s %" PRIu64 "%s", write_kinds[i], tally.of_write_kind[i], i + 1 < WRITE_KINDS ? ";" : "\n");
    printf("pairs worked in written sheets: A %" PRIu64 ", B settled %" PRIu64 ", B near %" PRIu64
        ", refused by question", tally.worked_by[BY_A], tally.worked_by[B_SETTLED], tally.worked_by[B_NEAR]);
    for (int i = 1; i <= 4; i++)
        printf(" %d: %" PRIu64 "%s", i, tally.worked_refused[i], i < 4 ? "," : "\n");
}

int main(int argc, char **argv)
{
    if (!options_known(argc, argv)) {
        fprintf(stderr, "usage: compare [--pairs N] [--sheets M] [--constants C] [--powers P] [--trays T] [--spans W]"
            " [--writes V] [--seed S]\n");
        return 2;
    }
    setvbuf(stdout, NULL, _IOLBF, 0);
    uint64_t pairs = option(argc, argv, "--pairs", 7000000);
    uint64_t sheets = option(argc, argv, "--sheets", 100000);
    uint64_t constants = option(argc, argv, "--constants", 10000000);
    uint64_t seed = option(argc, argv, "--seed", 1);
    begin(seed);
    time_t start = time(NULL);
    compare_pairs(pairs);
    compare_sheets(sheets);
    compare_constants(constants, option(argc, argv, "--powers", 4));
    compare_trays(option(argc, argv, "--trays", 2000000));
    compare_spans(option(argc, argv, "--spans", 1500000));
    compare_writes(option(argc, argv, "--writes", 400000));
    print_tally();
    print_constants();
    print_trays();
    print_numbers();
    print_kept();
    print_spans();
    print_writes();
    printf("compare: passed: %" PRIu64 " pairs, %" PRIu64 " sheets, %" PRIu64 " constants, %" PRIu64
        " calls with trays, %" PRIu64 " spans and %" PRIu64 " writings agree", tally.pairs, tally.sheets,
        tally.constants, tally.tray_calls, tally.spans, tally.writes);
    printf(", seed %" PRIu64 ", %ld s\n", seed, (long)(time(NULL) - start));
    return 0;
}
