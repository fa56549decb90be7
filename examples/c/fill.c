/* Says how full a room is: the plant room of examples/plant_room.txt with its units placed, at one cell to
   100 millimetres, so that it has 45 by 50 cells. examples/c/build builds it; fill.out is what it prints. */
#include <inttypes.h>
#include <stdio.h>

#include "zivokkal.h"

enum { DIMENSIONS = 2, ROWS = 5, BOXES = 6, RULES = 4, WIDTH = 45, DEPTH = 50, CELLS = WIDTH * DEPTH };
enum { BLOCK_WORDS = 3 + BOXES * (1 + 2 * DIMENSIONS) + RULES * (3 + 2 * DIMENSIONS) };
enum { TABLE_WORDS = ROWS * (1 + 2 * DIMENSIONS) };

static const int64_t block[BLOCK_WORDS] = {
    DIMENSIONS, BOXES, RULES,
    1,  0, 0,    30, 10,                /* shape 1: a pump skid, of two boxes */
    1,  0, 10,   10, 20,
    2,  0, 20,   30, 10,                /* shape 2: the same, turned */
    2,  0, 0,    10, 20,
    3,  0, 0,    15, 15,                /* shape 3: a tank */
    4,  0, 0,    10, 8,                 /* shape 4: a cabinet */
    1,  3, 31,  0, 0,  0, 0,            /* rule 1: no two units overlap */
    2,  3, 31,  0, WIDTH,  0, DEPTH,    /* rule 2: all of them lie in the room */
    2,  3, 3,   0, WIDTH,  0, DEPTH,    /* rule 3: the skids do, rows 1 and 2 */
    2,  3, 24,  0, WIDTH,  0, DEPTH,    /* rule 4: the cabinets do, rows 4 and 5 */
};

/* The cabinet of row 5 stands at `along`. */
static struct zk_share fill(int64_t rule, int64_t along)
{
    const int64_t table[TABLE_WORDS] = {
        1,  0, 0,          0, 0,
        2,  10, 10,        20, 20,
        4,  20, 20,        10, 10,
        8,  10, 10,        10, 10,
        8,  along, along,  42, 42,
    };
    return zk_fill(block, BLOCK_WORDS, table, TABLE_WORDS, rule);
}

static void print_fill(const char *name, struct zk_share x)
{
    if (x.finding == 0)
        printf("%s: %" PRId64 " of %d cells covered, %" PRId64 " per mille\n", name, x.cells, CELLS, x.permille);
    else if (x.finding == 15)
        printf("%s: not a good placement\n", name);
    else
        printf("%s: refused, %" PRId64 "\n", name, x.finding);
}

int main(void)
{
    print_fill("room", fill(2, 0));
    print_fill("skids", fill(3, 0));
    print_fill("cabinets", fill(4, 0));
    print_fill("room, a cabinet on a skid", fill(2, 5));
    print_fill("rule of kind 1", fill(1, 0));
    return 0;
}
