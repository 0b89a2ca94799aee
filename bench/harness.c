/* Calls offsets_solve on problem texts; linked with the proved library or with the plain C version.

   harness once FILE        solves once and writes the answer
   harness time FILE        solves for a while and writes the nanoseconds of processor time a call, the least of several batches
   harness texts < LINES    each line is a text, two hexadecimal digits a byte: writes all answers one after the other */
#include <stdio.h>
#include <stdlib.h>
#include <string.h>
#include <time.h>
#include "../include/offsets.h"

#define BATCHES 15
#define BATCH_NANOSECONDS 10000000

static uint8_t text[OFFSETS_TEXT_MOST + 2], output[OFFSETS_OUTPUT_MOST];

static size_t solve(size_t size)
{
    return offsets_solve(text, size, OFFSETS_BUDGET, output, sizeof output);
}

static size_t load(const char *name)
{
    FILE *file = fopen(name, "rb");
    if (!file) {
        perror(name);
        exit(1);
    }
    size_t size = fread(text, 1, sizeof text, file);
    fclose(file);
    return size;
}

static double now(void)
{
    struct timespec t;
    clock_gettime(CLOCK_PROCESS_CPUTIME_ID, &t);
    return 1e9 * (double)t.tv_sec + (double)t.tv_nsec;
}

/* A batch is as many calls as take a hundredth of a second. The least batch is the one that other work disturbed least. */
static double least_time(size_t size)
{
    double begun = now(), least = 0;
    long calls = 0;
    for (; now() - begun < BATCH_NANOSECONDS; calls++)
        solve(size);
    for (int batch = 0; batch < BATCHES; batch++) {
        begun = now();
        for (long i = 0; i < calls; i++)
            solve(size);
        double each = (now() - begun) / (double)calls;
        if (batch == 0 || each < least)
            least = each;
    }
    return least;
}

static void answer_lines(void)
{
    int high = -1, c;
    size_t size = 0;
    while ((c = getchar()) != EOF) {
        if (c == '\n') {
            fwrite(output, 1, solve(size), stdout);
            size = 0;
            continue;
        }
        int digit = c <= '9' ? c - '0' : c - 'A' + 10;
        if (high < 0) {
            high = digit;
        } else {
            if (size < sizeof text)
                text[size++] = (uint8_t)(16 * high + digit);
            high = -1;
        }
    }
}

int main(int argc, char **argv)
{
    if (argc == 3 && strcmp(argv[1], "once") == 0)
        fwrite(output, 1, solve(load(argv[2])), stdout);
    else if (argc == 3 && strcmp(argv[1], "time") == 0)
        printf("%.0f\n", least_time(load(argv[2])));
    else if (argc == 2 && strcmp(argv[1], "texts") == 0)
        answer_lines();
    else
        return 1;
    return 0;
}
