/* Describes a finished layout in words: how each two cabinets stand to each other along a wall and across the
   room. examples/c/build builds it; describe.out is what it prints. */
#include <inttypes.h>
#include <stdio.h>

#include "zivokkal.h"

enum { DIMENSIONS = 2, BLOCK_WORDS = 18, ROWS = 3, TABLE_WORDS = ROWS * (1 + 2 * DIMENSIONS) };

static const int64_t block[BLOCK_WORDS] = {
    DIMENSIONS, 3, 0,           /* three boxes, no rule */
    1,  0, 0,  1000, 600,       /* shape 1: a cabinet 1000 wide and 600 deep */
    1,  0, 600,  500, 400,      /* and its door, 500 wide, open by 400 */
    2,  0, 0,  800, 600,        /* shape 2: a smaller cabinet */
};

static const int64_t table[TABLE_WORDS] = {
    1,  0, 0,       0, 0,       /* row 1 at the wall's left end */
    2,  1000, 1000, 0, 0,       /* row 2 beside it */
    2,  100, 100,   1200, 1200, /* row 3 across the aisle */
};

static const char *const words[] = {
    "", "precedes", "meets", "overlaps", "contains", "starts", "finishes", "equals", "is started by",
    "is finished by", "lies inside", "is overlapped by", "is met by", "is preceded by",
};

/* The words for what row bears to other, or NULL where the kernel refuses. */
static const char *relation(int64_t row, int64_t other, int64_t dimension)
{
    struct zk_standing x = zk_relation(block, BLOCK_WORDS, table, TABLE_WORDS, row, other, dimension);
    return x.finding == 0 ? words[x.relation] : NULL;
}

int main(void)
{
    for (int64_t row = 1; row <= ROWS; row++)
        for (int64_t other = row + 1; other <= ROWS; other++) {
            const char *along = relation(row, other, 0);
            const char *across = relation(row, other, 1);
            if (along == NULL || across == NULL)
                return 1;
            printf("row %" PRId64 " %s row %" PRId64 " along the wall, ", row, along, other);
            printf("%s it across the room\n", across);
        }
    return 0;
}
