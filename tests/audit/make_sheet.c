/* Reads lines "u y", lays them out as a sheet with the result block in front
   and other bytes between, works it by the library and writes its bytes.
   Answers the sheet call's number as the exit code; 2 where the lines are not
   1 to 2,000 pairs of whole numbers of 32 bits, or nothing could be written. */
#include "../compare/library.h"

#include <ctype.h>
#include <stdbool.h>
#include <stdio.h>
#include <stdlib.h>
#include <string.h>

enum { HEADER = 16, PAIR = 8, RECORD = 16, GAP = 5, COUNT_GREATEST = 2000 };

static void put(uint8_t *b, uint32_t v)
{
    for (int i = 0; i < 4; i++)
        b[i] = (uint8_t)(v >> 8 * i);
}

/* The place after the blanks. */
static const char *blanks(const char *c)
{
    while (isspace((unsigned char)*c))
        c++;
    return c;
}

/* The place after the digits of a number up to 2^32 - 1, or NULL. */
static const char *number(const char *c, uint32_t *value)
{
    uint64_t v = 0;
    const char *first = c;
    for (; isdigit((unsigned char)*c) && v <= UINT32_MAX; c++)
        v = 10 * v + (uint64_t)(*c - '0');
    *value = (uint32_t)v;
    return c > first && v <= UINT32_MAX ? c : NULL;
}

static bool pair_of(const char *line, uint32_t pair[2])
{
    const char *u = number(blanks(line), &pair[0]);
    const char *y = u == NULL || !isspace((unsigned char)*u) ? NULL : number(blanks(u), &pair[1]);
    return y != NULL && *blanks(y) == '\0';
}

/* The count of the lines on standard input. */
static uint32_t read_pairs(uint32_t pairs[COUNT_GREATEST][2])
{
    char *line = NULL;
    size_t room = 0;
    ssize_t got;
    uint32_t n = 0;
    for (; (got = getline(&line, &room, stdin)) > 0; n++) {
        if (line[got - 1] == '\n')
            line[--got] = '\0';
        if (n == COUNT_GREATEST) {
            fprintf(stderr, "line %u: a sheet has at most %d pairs\n", n + 1, COUNT_GREATEST);
            exit(2);
        }
        if (strlen(line) != (size_t)got || !pair_of(line, pairs[n])) {
            fprintf(stderr, "line %u: \"%.60s\" is not two whole numbers of thousandths, each at most %u\n", n + 1, line, UINT32_MAX);
            exit(2);
        }
    }
    free(line);
    return n;
}

int main(void)
{
    static uint32_t pairs[COUNT_GREATEST][2];
    uint32_t n = read_pairs(pairs);
    if (n == 0 || ferror(stdin)) {
        fprintf(stderr, "standard input has no line, or cannot be read\n");
        return 2;
    }
    uint32_t results = HEADER + GAP, at = results + RECORD * n + GAP, total = at + PAIR * n + GAP;
    uint8_t *sheet = malloc(total);
    if (sheet == NULL)
        return 2;
    memset(sheet, 0xee, total);
    put(sheet, n);
    put(sheet + 4, at);
    put(sheet + 8, results);
    put(sheet + 12, total);
    for (uint32_t i = 0; i < n; i++) {
        put(sheet + at + PAIR * i, pairs[i][0]);
        put(sheet + at + PAIR * i + 4, pairs[i][1]);
    }
    uint32_t answer = vi_sheet(sheet, total);
    if (fwrite(sheet, 1, total, stdout) != total || fflush(stdout) != 0)
        return 2;
    return (int)answer;
}
