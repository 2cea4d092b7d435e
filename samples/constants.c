/* Works viscosity-gravity constants, and prints a record of each that audit/ can check.

   Reads lines "temperature viscosity density" from standard input: 40 or 100, thousandths of a mm²/s at that temperature, and the density at
   15 °C in 0.0001 g/ml. Prints the three numbers again, then the answer's number, and where that is 0 also k in thousandths and the numerators
   of the two fractions over 16,777,216. A blank line, and one that begins with #, is left out. Exit code 2 where a line is anything else or
   longer than 1,022 characters, or where nothing could be written. Compiles as C and as C++. */
#include "viscosity_index.h"

#include <errno.h>
#include <stdio.h>
#include <stdlib.h>
#include <string.h>

enum { LINE = 1024 };

/* A number of 32 bits, digits alone, up to a blank or the end; *at moves on past it and the blanks. */
static int number(char **at, uint32_t *value)
{
    const size_t digits = strspn(*at, "0123456789"), blanks = strspn(*at + digits, " \t\r\n");
    const int ends = blanks > 0 || (*at)[digits] == '\0';
    errno = 0;
    const unsigned long long read = strtoull(*at, NULL, 10);
    *value = (uint32_t)read;
    *at += digits + blanks;
    return digits > 0 && ends && errno == 0 && read <= UINT32_MAX;
}

static int oil_of(char *line, uint32_t *temperature, uint32_t *viscosity, uint32_t *density)
{
    return number(&line, temperature) && number(&line, viscosity) && number(&line, density) && *line == '\0' &&
        (*temperature == 40 || *temperature == 100);
}

static void print_record(uint32_t temperature, uint32_t viscosity, uint32_t density)
{
    int32_t row[VI_CONSTANT_SIZE];
    const uint32_t answer =
        temperature == 40 ? vi_constant_40(viscosity, density, row, VI_CONSTANT_SIZE) : vi_constant_100(viscosity, density, row, VI_CONSTANT_SIZE);
    printf("%u %u %u %u", (unsigned)temperature, (unsigned)viscosity, (unsigned)density, (unsigned)answer);
    if (answer == VI_ANSWERED)
        printf(" %d %d %d", (int)row[VI_CONSTANT_K], (int)row[VI_CONSTANT_LOWER], (int)row[VI_CONSTANT_UPPER]);
    printf("\n");
}

int main(void)
{
    char line[LINE];
    for (unsigned place = 1; fgets(line, sizeof line, stdin) != NULL; place++) {
        uint32_t temperature, viscosity, density;
        const int whole = strchr(line, '\n') != NULL || feof(stdin);
        char *first = line + strspn(line, " \t\r\n");
        if (whole && (*first == '\0' || *first == '#'))
            continue;
        if (!whole || !oil_of(first, &temperature, &viscosity, &density)) {
            line[strcspn(line, "\r\n")] = '\0';
            fprintf(stderr, "line %u: \"%.60s\" is not 40 or 100, a viscosity and a density, whole numbers of at most 32 bits\n", place, line);
            return 2;
        }
        print_record(temperature, viscosity, density);
    }
    if (ferror(stdin) || fflush(stdout) != 0 || ferror(stdout)) {
        fprintf(stderr, "standard input could not be read, or standard output not be written: %s\n", strerror(errno));
        return 2;
    }
    return 0;
}
