/* The offset solver's entry point. docs/FORMAT.md has the text and the answer's lines. */
#ifndef OFFSETS_H
#define OFFSETS_H

#include <stddef.h>
#include <stdint.h>

#define OFFSETS_TEXT_MOST 8192    /* bytes of a text; more is refused */
#define OFFSETS_REGION_MOST 1882  /* bytes of the lines of one region */
#define OFFSETS_END 15            /* bytes of the end line, and of a fault line */
#define OFFSETS_REGIONS 16        /* regions that are written at most */
#define OFFSETS_OUTPUT_LEAST 1897 /* a shorter output gets nothing: 0 is returned */
#define OFFSETS_OUTPUT_MOST 30127 /* room for all 16 regions and the end line */
#define OFFSETS_RULES 32          /* rules of a text at most */
#define OFFSETS_BUDGET 10000      /* the budget that the program uses */

/* outcome in the end line: 1F, outcome, found, steps */
enum offsets_outcome { OFFSETS_DONE = 0, OFFSETS_SPENT = 1, OFFSETS_LIST_FULL = 2, OFFSETS_STACK_FULL = 3 };

/* Solves the problem that the text states, in at most `budget` steps, writes the lines that answer it to
   `output` and returns how many bytes it wrote. Bytes past them stay as they were. */
size_t offsets_solve(const uint8_t *input, size_t input_len, uint32_t budget, uint8_t *output, size_t output_len);

#endif
