/* A line controller: sends a problem and a damaged one, and reads the answers back in words. */
#include <stdio.h>
#include <stdlib.h>
#include <string.h>
#include "../../include/offsets.h"

static long field(const char *line, int at, int bytes)
{
    unsigned long v = 0;
    for (int i = 0; i < 2 * bytes; i++) {
        char c = line[2 * at + i];
        v = 16 * v + (unsigned long)(c <= '9' ? c - '0' : c - 'A' + 10);
    }
    if (bytes == 4 && v >= 0x80000000UL)
        return (long)v - 0x100000000L;
    return (long)v;
}

static void tell(const char *line)
{
    static const char *ends[] = {"done", "spent", "list full", "stack full"};
    switch (field(line, 0, 1)) {
    case 0x10:
        printf("region with point");
        for (int k = 0; k < field(line, 1, 1); k++)
            printf(" %ld", field(line, 2 + 4 * k, 4));
        printf("\n");
        break;
    case 0x01:
        for (int k = 0; k < field(line, 1, 1); k++)
            printf("  setting %d from %ld to %ld\n", k, field(line, 2 + 8 * k, 4), field(line, 6 + 8 * k, 4));
        break;
    case 0x02:
        printf("  nodes %ld and %ld: at most %ld\n", field(line, 1, 1), field(line, 2, 1), field(line, 3, 4));
        break;
    case 0x1F:
        printf("%s after %ld steps, %s\n", ends[field(line, 1, 1)], field(line, 3, 4), field(line, 2, 1) ? "found" : "nothing found");
        break;
    case 0x1E:
        printf("refused: ground %ld, layer %ld, line %ld, place %ld\n", field(line, 1, 1), field(line, 2, 1), field(line, 3, 2), field(line, 5, 2));
        break;
    }
}

static void ask(const char *text)
{
    static uint8_t output[OFFSETS_OUTPUT_MOST];
    size_t count = offsets_solve((const uint8_t *)text, strlen(text), OFFSETS_BUDGET, output, sizeof output);
    for (size_t at = 0; at < count;) {
        size_t end = at;
        while (end < count && output[end] != '\n')
            end++;
        tell((const char *)output + at);
        at = end + 1;
    }
}

int main(void)
{
    ask("01010000000000000003\n06000000000200000001\n");
    ask("01010000000000000003\n06000000000000000001\n");
    return 0;
}
