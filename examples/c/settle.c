/* Settles a room sheet from C: two cabinets in a corridor that is 10 long, in one that is 7 long, which is
   too short for both, and a sheet that is refused. examples/c/build builds it; settle.out is what it
   prints. */
#include <inttypes.h>
#include <stdio.h>

#include "zivokkal.h"

enum { DIMENSIONS = 2, ROW_WORDS = 1 + 2 * DIMENSIONS, ROWS = 2 };

/* The corridor runs along dimension 0. Its length stands at CORRIDOR_END, the cabinet's depth at DEPTH. */
enum { DEPTH = 7, CORRIDOR_END = 24, BLOCK_WORDS = 27 };

static const int64_t sheet[BLOCK_WORDS] = {
    DIMENSIONS, 2, 2,           /* two boxes, two rules */
    1,  0, 0,  4, 2,            /* shape 1: a cabinet 4 wide and 2 deep */
    2,  0, 0,  2, 4,            /* shape 2: the same, turned */
    1,  3, 3,  0, 0,  0, 0,     /* rows 1 and 2 do not overlap */
    2,  3, 3,  0, 10,  0, 2,    /* rows 1 and 2 lie in the corridor: 0 to 10 long, 0 to 2 deep */
};

static const int64_t rows[ROWS * ROW_WORDS] = {
    1,  0, 1,   0, 5,           /* row 1: shape 1, at the corridor's start */
    3,  0, 10,  0, 5,           /* row 2: either shape, anywhere */
};

static void print_rows(const int64_t *block, const int64_t *table)
{
    for (int64_t row = 1; row <= ROWS; row++) {
        struct zk_span span = zk_row_span(block, BLOCK_WORDS, table, ROWS * ROW_WORDS, row);
        const int64_t *word = table + span.start;
        printf("  row %" PRId64 ": shapes", row);
        for (int shape = 1; shape <= 32; shape++)
            if (word[0] >> (shape - 1) & 1)
                printf(" %d", shape);
        for (int d = 0; d < DIMENSIONS; d++)
            printf(", dimension %d from %" PRId64 " to %" PRId64, d, word[1 + 2 * d], word[2 + 2 * d]);
        printf("\n");
    }
}

static void settle(const char *name, const int64_t *block)
{
    int64_t table[ROWS * ROW_WORDS];
    for (int i = 0; i < ROWS * ROW_WORDS; i++)
        table[i] = rows[i];
    int64_t finding = zk_settle(block, BLOCK_WORDS, table, ROWS * ROW_WORDS);
    if (finding == 0) {
        printf("%s: settled\n", name);
        print_rows(block, table);
    } else if (finding == -1) {
        printf("%s: no layout\n", name);
    } else {
        printf("%s: refused, %" PRId64 "\n", name, finding);
    }
}

int main(void)
{
    int64_t block[BLOCK_WORDS];
    for (int i = 0; i < BLOCK_WORDS; i++)
        block[i] = sheet[i];
    settle("corridor of 10", block);
    block[CORRIDOR_END] = 7;
    settle("corridor of 7", block);
    block[DEPTH] = 0;
    settle("cabinet of depth 0", block);
    return 0;
}
