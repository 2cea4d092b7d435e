/* A tray of samples: puts three in, takes one out, stores the tray in a file and goes on with what is loaded from it. Compiles as C and as C++. */
#include "viscosity_index.h"

#include <stdio.h>

static const char *const methods[] = {"refused", "A", "B", "B~"};

static int32_t index_of(const uint8_t *record)
{
    const uint8_t *at = record + VI_RECORD_INDEX;
    return (int32_t)(at[0] | (uint32_t)at[1] << 8 | (uint32_t)at[2] << 16 | (uint32_t)at[3] << 24);
}

static void print_sample(uint32_t u, uint32_t y, const uint8_t *record)
{
    printf("%u.%03u %u.%03u ", (unsigned)(u / 1000), (unsigned)(u % 1000), (unsigned)(y / 1000), (unsigned)(y % 1000));
    printf("%s %d\n", methods[record[VI_RECORD_METHOD]], (int)index_of(record));
}

static void put(uint32_t *tray, uint32_t number, uint32_t u, uint32_t y)
{
    uint8_t record[VI_RECORD_SIZE];
    const uint32_t answer = vi_tray_put(tray, VI_TRAY_SIZE, number, u, y, record, sizeof record);
    printf("put %u: ", (unsigned)number);
    if (answer == VI_ANSWERED)
        print_sample(u, y, record);
    else
        printf("refused %u\n", (unsigned)answer);
}

static void take(uint32_t *tray, uint32_t number)
{
    uint32_t pair[VI_SAMPLE_PAIR_SIZE];
    uint8_t record[VI_RECORD_SIZE];
    const uint32_t answer = vi_tray_take(tray, VI_TRAY_SIZE, number, pair, VI_SAMPLE_PAIR_SIZE, record, sizeof record);
    printf("take %u: ", (unsigned)number);
    if (answer == VI_ANSWERED)
        print_sample(pair[VI_SAMPLE_PAIR_U], pair[VI_SAMPLE_PAIR_Y], record);
    else
        printf("refused %u\n", (unsigned)answer);
}

/* What a screen asks for at each refresh: the tray keeps its summary, so the call costs the same with 1 sample held as with 64. */
static void print_summary(const uint32_t *tray)
{
    int64_t row[VI_SUMMARY_SIZE];
    vi_tray_summary(tray, VI_TRAY_SIZE, row, VI_SUMMARY_SIZE);
    if (row[VI_SUMMARY_HELD] == 0) {
        printf("the tray is empty\n");
        return;
    }
    printf("held %d: index %d to %d, ", (int)row[VI_SUMMARY_HELD], (int)row[VI_SUMMARY_LOWEST], (int)row[VI_SUMMARY_HIGHEST]);
    printf("sum %lld; ", (long long)row[VI_SUMMARY_SUM]);
    printf("A %d, B %d, B~ %d\n", (int)row[VI_SUMMARY_A], (int)row[VI_SUMMARY_SETTLED], (int)row[VI_SUMMARY_NEAR]);
}

/* The numbers of the tray by way of a file. */
static int store_and_load(const uint32_t *tray, uint32_t *loaded)
{
    FILE *file = tmpfile();
    if (file == NULL)
        return 0;
    const int stored = fwrite(tray, sizeof *tray, VI_TRAY_SIZE, file) == VI_TRAY_SIZE;
    rewind(file);
    const int done = stored && fread(loaded, sizeof *loaded, VI_TRAY_SIZE, file) == VI_TRAY_SIZE;
    fclose(file);
    return done;
}

int main(void)
{
    static uint32_t tray[VI_TRAY_SIZE], loaded[VI_TRAY_SIZE]; /* all zeros: empty */

    print_summary(tray);
    put(tray, 12, 73300, 8860);
    put(tray, 7, 22830, 5050);
    put(tray, 104000200, 144936, 16776); /* a number has up to 32 bits */
    print_summary(tray);

    put(tray, 12, 53470, 7080); /* the number is held */
    put(tray, 13, 20000, 1999); /* the pair is refused, as by vi_pair */
    take(tray, 7);
    take(tray, 7); /* no longer held */
    print_summary(tray);

    if (!store_and_load(tray, loaded)) {
        printf("the tray could not be stored\n");
        return 1;
    }
    put(loaded, 7, 53470, 7080);
    print_summary(loaded);
    take(loaded, 7);
    take(loaded, 12);
    take(loaded, 104000200);
    print_summary(loaded);
    return 0;
}
