/* Calls every function of zivokkal.h on good, other and refused input and compares what comes back with
   documents 01 and 02, worked out by hand. Prints the number of comparisons; exit status 1 on a difference. */
#include <inttypes.h>
#include <stdio.h>
#include <string.h>

#include "zivokkal.h"

static int compared, differ;

static void same(const char *what, int64_t expected, int64_t got)
{
    compared++;
    if (expected != got) {
        differ++;
        printf("%s: expected %" PRId64 ", got %" PRId64 "\n", what, expected, got);
    }
}

static void same_words(const char *what, const int64_t *expected, const int64_t *got, size_t words)
{
    same(what, 0, memcmp(expected, got, words * sizeof *got));
}

static void same_bound(const char *what, int64_t finding, int64_t value, struct zk_bound got)
{
    same(what, finding, got.finding);
    same(what, value, got.value);
}

static void same_span(const char *what, int64_t start, int64_t length, struct zk_span got)
{
    same(what, start, got.start);
    same(what, length, got.length);
}

static void same_standing(const char *what, int64_t finding, int64_t relation, struct zk_standing got)
{
    same(what, finding, got.finding);
    same(what, relation, got.relation);
}

static void same_share(const char *what, int64_t finding, int64_t cells, int64_t permille, struct zk_share got)
{
    same(what, finding, got.finding);
    same(what, cells, got.cells);
    same(what, permille, got.permille);
}

/* k = 1: A is shape 1 of size 3, B is shape 2 of size 2; rows 1 and 2 do not overlap. No block below has more
   than MOST words. */
enum { BLOCK = 14, TABLE = 6, MOST = 17 };

static const int64_t good[BLOCK] = {1, 2, 1,  1, 0, 3,  2, 0, 2,  1, 1, 3, 0, 0};

static const int64_t wide[TABLE] = {1, 0, 0,  2, -2, 5};     /* A at 0, B in -2..5 */
static const int64_t pushed[TABLE] = {1, 0, 0,  2, -1, 5};   /* B in -1..5 */
static const int64_t blocked[TABLE] = {1, 0, 0,  2, -1, 2};  /* B in -1..2 */
static const int64_t after[TABLE] = {1, 0, 0,  2, 3, 5};     /* pushed, settled */
static const int64_t touching[TABLE] = {1, 0, 0,  2, 3, 3};
static const int64_t overlapping[TABLE] = {1, 0, 0,  2, 2, 2};

/* Every function on a sheet that it refuses: the number, and no word changed. */
static void refused(const char *what, int64_t number, const int64_t *block, size_t block_len,
                    const int64_t *table, size_t table_len)
{
    int64_t b[MOST], t[TABLE];
    memcpy(b, block, block_len * sizeof *b);
    memcpy(t, table, table_len * sizeof *t);
    same(what, number, zk_refusal(b, block_len, t, table_len));
    same(what, number, zk_row_refusal(b, block_len, t, table_len, 1));
    same(what, number, zk_point_allowed(b, block_len, t, table_len, 1, 1, 0, 0, 0, 0));
    same(what, number, zk_check_placement(b, block_len, t, table_len));
    same_bound(what, number, 0, zk_least(b, block_len, t, table_len, 1, 1, 0));
    same_bound(what, number, 0, zk_greatest(b, block_len, t, table_len, 1, 1, 0));
    same(what, number, zk_narrow(b, block_len, t, table_len, 1));
    same(what, number, zk_settle(b, block_len, t, table_len));
    same(what, number, zk_first_layout(b, block_len, t, table_len));
    same_span(what, 0, 0, zk_row_span(b, block_len, t, table_len, 1));
    same_standing(what, number, 0, zk_relation(b, block_len, t, table_len, 1, 2, 0));
    same_share(what, number, 0, 0, zk_fill(b, block_len, t, table_len, 1));
    same_words(what, block, b, block_len);
    same_words(what, table, t, table_len);
}

/* One word of the block, or of the table, is another. */
static void refused_block(const char *what, int64_t number, int at, int64_t word)
{
    int64_t b[BLOCK];
    memcpy(b, good, sizeof b);
    b[at] = word;
    refused(what, number, b, BLOCK, wide, TABLE);
}

static void refused_table(const char *what, int64_t number, int at, int64_t word)
{
    int64_t t[TABLE];
    memcpy(t, wide, sizeof t);
    t[at] = word;
    refused(what, number, good, BLOCK, t, TABLE);
}

static void refusals(void)
{
    int64_t longer[BLOCK + 1] = {0};
    memcpy(longer, good, sizeof good);
    same("accepted", 0, zk_refusal(good, BLOCK, wide, TABLE));
    refused("two words", 2, good, 2, wide, TABLE);
    refused("no words", 2, good, 0, wide, 0);
    refused_block("k 5", 2, 0, 5);
    refused_block("B 129", 3, 1, 129);
    refused_block("R 33", 3, 2, 33);
    refused("a word too many", 4, longer, BLOCK + 1, wide, TABLE);
    refused("half a row", 5, good, BLOCK, wide, TABLE - 1);
    refused("no row", 5, good, BLOCK, wide, 0);
    refused_block("size 0", 6, 5, 0);
    refused_block("offset -10001", 6, 4, -10001);
    refused_block("kind 3", 7, 9, 3);
    refused_block("row 3 named", 7, 11, 4);
    refused_block("clearance 1001", 7, 12, 1001);
    refused_block("clearance -1", 7, 12, -1);
    refused_block("high word 1", 7, 13, 1);
    refused_table("low past high", 8, 4, 6);
    refused_table("shape without a box", 8, 3, 4);
}

static void points(void)
{
    same("B at -2", 0, zk_point_allowed(good, BLOCK, wide, TABLE, 2, 2, -2, 9, 9, 9));
    same("B at -1", -1, zk_point_allowed(good, BLOCK, wide, TABLE, 2, 2, -1, 0, 0, 0));
    same("B at 2", -1, zk_point_allowed(good, BLOCK, wide, TABLE, 2, 2, 2, 0, 0, 0));
    same("B at 3", 0, zk_point_allowed(good, BLOCK, wide, TABLE, 2, 2, 3, 0, 0, 0));
    same("B out of its range", -1, zk_point_allowed(good, BLOCK, wide, TABLE, 2, 2, 6, 0, 0, 0));
    same("row 3", 9, zk_point_allowed(good, BLOCK, wide, TABLE, 3, 2, 0, 0, 0, 0));
    same("row 2 has no shape 1", 10, zk_point_allowed(good, BLOCK, wide, TABLE, 2, 1, 3, 0, 0, 0));
    same("row 1 has no shape 2", 10, zk_point_allowed(good, BLOCK, wide, TABLE, 1, 2, 0, 0, 0, 0));
    same("touching", 0, zk_check_placement(good, BLOCK, touching, TABLE));
    same("overlapping", -1, zk_check_placement(good, BLOCK, overlapping, TABLE));
    same("not fixed", 12, zk_check_placement(good, BLOCK, wide, TABLE));
}

static void bounds(void)
{
    same_bound("least of -2..5", 0, -2, zk_least(good, BLOCK, wide, TABLE, 2, 2, 0));
    same_bound("least of -1..5", 0, 3, zk_least(good, BLOCK, pushed, TABLE, 2, 2, 0));
    same_bound("least of -1..2", -1, 0, zk_least(good, BLOCK, blocked, TABLE, 2, 2, 0));
    same_bound("greatest of -2..5", 0, 5, zk_greatest(good, BLOCK, wide, TABLE, 2, 2, 0));
    same_bound("greatest of -1..2", -1, 0, zk_greatest(good, BLOCK, blocked, TABLE, 2, 2, 0));
    same_bound("row 0", 9, 0, zk_least(good, BLOCK, wide, TABLE, 0, 2, 0));
    same_bound("shape 33", 10, 0, zk_least(good, BLOCK, wide, TABLE, 2, 33, 0));
    same_bound("dimension 1", 11, 0, zk_least(good, BLOCK, wide, TABLE, 2, 2, 1));
    same_bound("dimension -1", 11, 0, zk_greatest(good, BLOCK, wide, TABLE, 2, 2, -1));
    same_span("row 1", 0, 3, zk_row_span(good, BLOCK, wide, TABLE, 1));
    same_span("row 2", 3, 3, zk_row_span(good, BLOCK, wide, TABLE, 2));
    same_span("row 3", 0, 0, zk_row_span(good, BLOCK, wide, TABLE, 3));
    same("row 1 is there", 0, zk_row_refusal(good, BLOCK, wide, TABLE, 1));
    same("row 2 is there", 0, zk_row_refusal(good, BLOCK, wide, TABLE, 2));
    same("row 3 is not", 9, zk_row_refusal(good, BLOCK, wide, TABLE, 3));
    same("row 0 is not", 9, zk_row_refusal(good, BLOCK, wide, TABLE, 0));
    same("no row -1", 9, zk_row_refusal(good, BLOCK, wide, TABLE, -1));
}

static void narrows(const char *what, const int64_t *table, int64_t row, int64_t finding, const int64_t *left)
{
    int64_t b[BLOCK], t[TABLE];
    memcpy(b, good, sizeof b);
    memcpy(t, table, sizeof t);
    same(what, finding, zk_narrow(b, BLOCK, t, TABLE, row));
    same_words(what, left, t, TABLE);
    same_words(what, good, b, BLOCK);
}

static void settles(const char *what, const int64_t *block, size_t block_len, const int64_t *table,
                    int64_t finding, const int64_t *left)
{
    int64_t b[MOST], t[TABLE];
    memcpy(b, block, block_len * sizeof *b);
    memcpy(t, table, sizeof t);
    same(what, finding, zk_settle(b, block_len, t, TABLE));
    same_words(what, left, t, TABLE);
    same_words(what, block, b, block_len);
}

/* Two rows of size 2 in a room 0 to 3 and in a room 0 to 4; and B of size 2 (shape 2) or 1 (shape 3) in
   -1..2. */
static void changes(void)
{
    static const int64_t room3[] = {1, 1, 2,  1, 0, 2,  1, 1, 3, 0, 0,  2, 1, 3, 0, 3};
    static const int64_t room4[] = {1, 1, 2,  1, 0, 2,  1, 1, 3, 0, 0,  2, 1, 3, 0, 4};
    static const int64_t tight[TABLE] = {1, 0, 1,  1, 0, 1};
    static const int64_t loose[TABLE] = {1, 0, 2,  1, 0, 2};
    static const int64_t sizes[MOST] = {1, 3, 1,  1, 0, 3,  2, 0, 2,  3, 0, 1,  1, 1, 3, 0, 0};
    static const int64_t either[TABLE] = {1, 0, 0,  6, -1, 2};
    static const int64_t smaller[TABLE] = {1, 0, 0,  4, -1, -1};
    narrows("narrowed", pushed, 2, 0, after);
    narrows("narrowed, no word moved", wide, 2, 0, wide);
    narrows("no place", blocked, 2, -1, blocked);
    narrows("narrow row 3", pushed, 3, 9, pushed);
    narrows("narrow row 0", pushed, 0, 9, pushed);
    settles("settled", good, BLOCK, pushed, 0, after);
    settles("no layout", good, BLOCK, blocked, -1, blocked);
    settles("room 0 to 3", room3, 16, tight, -1, tight);
    settles("room 0 to 4", room4, 16, loose, 0, loose);
    settles("size 2 or 1", sizes, MOST, either, 0, smaller);
}

/* A and B keep one unit apart, and 1,000. */
static void clearances(void)
{
    static const int64_t unit[BLOCK] = {1, 2, 1,  1, 0, 3,  2, 0, 2,  1, 1, 3, 1, 0};
    static const int64_t most[BLOCK] = {1, 2, 1,  1, 0, 3,  2, 0, 2,  1, 1, 3, 1000, 0};
    static const int64_t before[TABLE] = {1, 0, 0,  2, -3, 5};
    static const int64_t past[TABLE] = {1, 0, 0,  2, 4, 5};
    static const int64_t at4[TABLE] = {1, 0, 0,  2, 4, 4};
    static const int64_t at1003[TABLE] = {1, 0, 0,  2, 1003, 1003};
    same_bound("one unit before A", 0, -3, zk_least(unit, BLOCK, before, TABLE, 2, 2, 0));
    same_bound("one unit past A", 0, 4, zk_least(unit, BLOCK, wide, TABLE, 2, 2, 0));
    same("touching is too near", -1, zk_check_placement(unit, BLOCK, touching, TABLE));
    same("one unit apart", 0, zk_check_placement(unit, BLOCK, at4, TABLE));
    settles("settled past the clearance", unit, BLOCK, wide, 0, past);
    same("1,000 is accepted", 0, zk_check_placement(most, BLOCK, at1003, TABLE));
    same("and too much here", -1, zk_check_placement(most, BLOCK, at4, TABLE));
}

/* A stands at 0 with size 3 or 4, and B has size 2: what both sizes forbid is forbidden. */
static void several_shapes(void)
{
    static const int64_t sizes[MOST] = {1, 3, 1,  1, 0, 3,  2, 0, 4,  3, 0, 2,  1, 1, 3, 0, 0};
    static const int64_t either[TABLE] = {3, 0, 0,  4, -1, 5};
    static const int64_t past[TABLE] = {3, 0, 0,  4, 3, 5};
    same_bound("past size 3", 0, 3, zk_least(sizes, MOST, either, TABLE, 2, 3, 0));
    same("both sizes reach 2", -1, zk_point_allowed(sizes, MOST, either, TABLE, 2, 3, 2, 0, 0, 0));
    same("size 4 alone reaches 3", 0, zk_point_allowed(sizes, MOST, either, TABLE, 2, 3, 3, 0, 0, 0));
    settles("settled past size 3", sizes, MOST, either, 0, past);
}

/* The first row, of size 4, is at x and the second, of size 2, at 0: what the first bears to the second, and
   the second to the first. */
static void stands(int64_t x, int64_t relation, int64_t converse)
{
    static const int64_t block[] = {1, 2, 0,  1, 0, 4,  2, 0, 2};
    int64_t table[TABLE] = {1, x, x,  2, 0, 0};
    same_standing("first and second", 0, relation, zk_relation(block, 9, table, TABLE, 1, 2, 0));
    same_standing("second and first", 0, converse, zk_relation(block, 9, table, TABLE, 2, 1, 0));
    same_standing("a row and itself", 0, ZK_EQUALS, zk_relation(block, 9, table, TABLE, 1, 1, 0));
}

static void relations(void)
{
    /* shape 1 has boxes from 1 to 2 and from 3 to 5; shape 2 one of size 4 */
    static const int64_t gap[] = {1, 3, 0,  1, 1, 1,  1, 3, 2,  2, 0, 4};
    /* shape 1 has boxes from 2 to 5 and from -4 to -3; shape 2 one of size 2 */
    static const int64_t apart[] = {1, 3, 0,  1, 2, 3,  1, -4, 1,  2, 0, 2};
    static const int64_t at1[TABLE] = {1, 0, 0,  2, 1, 1};
    static const int64_t at5[TABLE] = {1, 0, 0,  2, 5, 5};
    /* k = 2: two fixed rows, and one that is not */
    static const int64_t square[] = {2, 1, 0,  1, 0, 0, 2, 2};
    static const int64_t three[] = {1, 0, 0, 0, 0,  1, 2, 2, 1, 1,  1, 0, 1, 0, 0};
    stands(-5, ZK_PRECEDES, ZK_PRECEDED_BY);
    stands(-4, ZK_MEETS, ZK_MET_BY);
    stands(-3, ZK_OVERLAPS, ZK_OVERLAPPED_BY);
    stands(-2, ZK_FINISHED_BY, ZK_FINISHES);
    stands(-1, ZK_CONTAINS, ZK_DURING);
    stands(0, ZK_STARTED_BY, ZK_STARTS);
    stands(1, ZK_OVERLAPPED_BY, ZK_OVERLAPS);
    stands(2, ZK_MET_BY, ZK_MEETS);
    stands(3, ZK_PRECEDED_BY, ZK_PRECEDES);
    same_standing("a gap lies inside", 0, ZK_EQUALS, zk_relation(gap, 12, at1, TABLE, 1, 2, 0));
    same_standing("boxes in any order", 0, ZK_MEETS, zk_relation(apart, 12, at5, TABLE, 1, 2, 0));
    same_standing("dimension 0", 0, ZK_MEETS, zk_relation(square, 8, three, 10, 1, 2, 0));
    same_standing("dimension 1", 0, ZK_OVERLAPS, zk_relation(square, 8, three, 10, 1, 2, 1));
    same_standing("other row 3", 9, 0, zk_relation(square, 8, three, 10, 1, 3, 0));
    same_standing("row 0", 9, 0, zk_relation(square, 8, three, 10, 0, 1, 0));
    same_standing("dimension 2", 11, 0, zk_relation(square, 8, three, 10, 1, 2, 2));
    same_standing("rows before dimensions", 9, 0, zk_relation(square, 8, three, 10, 9, 1, 9));
    same_standing("row 3 is not fixed", 12, 0, zk_relation(square, 8, three, 15, 1, 2, 0));
    same_standing("dimensions before that", 11, 0, zk_relation(square, 8, three, 15, 1, 2, 5));
}

/* k = 2: shape 1 is a unit, shape 2 two squares of side 2 that share a cell, shape 3 a bar 3 long. */
enum { HEAD = 23, RULE = 7, ROW = 5, MOST_RULES = 2 };

static struct zk_share filled(int64_t rules, const int64_t *rule_words, size_t rows, const int64_t *table, int64_t rule)
{
    static const int64_t boxes[] = {1, 0, 0, 1, 1,  2, 0, 0, 2, 2,  2, 1, 1, 2, 2,  3, 0, 0, 3, 1};
    int64_t block[HEAD + MOST_RULES * RULE] = {2, 4, rules};
    memcpy(block + 3, boxes, sizeof boxes);
    memcpy(block + HEAD, rule_words, (size_t)rules * RULE * sizeof *block);
    return zk_fill(block, HEAD + (size_t)rules * RULE, table, rows * ROW, rule);
}

/* One row in a room from (0, 0) to (width, depth), which is the first rule. */
static struct zk_share filled_room(int64_t width, int64_t depth, int64_t shape_set, int64_t x, int64_t y)
{
    const int64_t room[RULE] = {2, 3, 1, 0, width, 0, depth};
    const int64_t row[ROW] = {shape_set, x, x, y, y};
    return filled(1, room, 1, row, 1);
}

/* One row in a room of n cells in a line; it covers c of them. */
static struct zk_share filled_line(int64_t n, int64_t c)
{
    const int64_t block[] = {1, 1, 1,  1, 0, c,  2, 1, 1, 0, n};
    static const int64_t row[] = {1, 0, 0};
    return zk_fill(block, 11, row, 3, 1);
}

static void fills(void)
{
    same_share("a unit", 0, 1, 63, filled_room(4, 4, 1, 0, 0));
    same_share("a bar", 0, 3, 188, filled_room(4, 4, 4, 1, 3));
    same_share("boxes of a shape that share a cell", 0, 7, 438, filled_room(4, 4, 2, 1, 1));
    same_share("64 by 64", 0, 1, 0, filled_room(64, 64, 1, 63, 63));
    same_share("no cell", 14, 0, 0, filled_room(0, 4, 1, 0, 0));
    same_share("4,097 cells", 14, 0, 0, filled_room(17, 241, 1, 0, 0));
    same_share("a million by a million", 14, 0, 0, filled_room(1000000, 1000000, 1, 0, 0));
    same_share("outside the room", 15, 0, 0, filled_room(4, 4, 1, 4, 0));
    same_share("partly outside", 15, 0, 0, filled_room(4, 4, 4, 2, 0));
    same_share("1 of 80", 0, 1, 13, filled_line(80, 1));
    same_share("1 of 2,000", 0, 1, 1, filled_line(2000, 1));
    same_share("3 of 2,000", 0, 3, 2, filled_line(2000, 3));
    same_share("1 of 3", 0, 1, 333, filled_line(3, 1));
    same_share("2 of 3", 0, 2, 667, filled_line(3, 2));
    same_share("4,095 of 4,096", 0, 4095, 1000, filled_line(4096, 4095));
    same_share("all of 4,096", 0, 4096, 1000, filled_line(4096, 4096));
}

/* Two rows; which of them count, and which rules do. */
static void fills_of_two(void)
{
    static const int64_t both[RULE] = {2, 3, 3, 0, 4, 0, 4};
    static const int64_t first[RULE] = {2, 3, 1, 0, 4, 0, 4};
    static const int64_t apart_then_both[] = {1, 3, 3, 0, 0, 0, 0,  2, 3, 3, 0, 4, 0, 4};
    static const int64_t one_dimension[RULE] = {2, 1, 3, 0, 4, 0, 0};
    static const int64_t empty_room[RULE] = {2, 3, 3, 0, 0, 0, 4};
    static const int64_t units[] = {1, 0, 0, 0, 0,  1, 0, 0, 0, 0};
    static const int64_t bars[] = {4, 0, 0, 0, 0,  4, 1, 1, 0, 0};
    static const int64_t beside[] = {1, 0, 0, 0, 0,  4, 0, 0, 1, 1};
    static const int64_t second_open[] = {1, 0, 0, 0, 0,  1, 0, 1, 0, 0};
    static const int64_t no_rules[5] = {0, -1, 2, INT64_MIN, INT64_MAX};
    same_share("two units on one cell", 0, 1, 63, filled(1, both, 2, units, 1));
    same_share("two bars that share two cells", 0, 4, 250, filled(1, both, 2, bars, 1));
    same_share("the second row is not named", 0, 1, 63, filled(1, first, 2, beside, 1));
    same_share("rules of both kinds are counted", 0, 4, 250, filled(2, apart_then_both, 2, beside, 2));
    same_share("the other rule is broken", 15, 0, 0, filled(2, apart_then_both, 2, bars, 2));
    for (int m = 0; m < 5; m++)
        same_share("no such rule", 13, 0, 0, filled(1, both, 2, units, no_rules[m]));
    same_share("a rule of kind 1", 13, 0, 0, filled(2, apart_then_both, 2, beside, 1));
    same_share("one dimension named", 13, 0, 0, filled(1, one_dimension, 2, units, 1));
    same_share("13 before 15", 13, 0, 0, filled(2, apart_then_both, 2, bars, 1));
    same_share("14 before 15", 14, 0, 0, filled(1, empty_room, 2, units, 1));
    same_share("12 before 13", 12, 0, 0, filled(1, both, 2, second_open, 9));
    same_share("12 before 14", 12, 0, 0, filled(1, empty_room, 2, second_open, 1));
}

/* k = 4: a cube of side 2 in a room of side 8, which has 4,096 cells, in one that is 9 wide in the last
   dimension, in the widest, and in one without cells. */
static void fills_in_four(void)
{
    int64_t block[] = {4, 1, 1,  1, 0, 0, 0, 0, 2, 2, 2, 2,  2, 15, 1, 0, 8, 0, 8, 0, 8, 0, 8};
    static const int64_t row[] = {1, 6, 6, 0, 0, 3, 3, 5, 5};
    enum { WORDS = sizeof block / sizeof *block, LAST_HIGH = WORDS - 1 };
    same_share("8 by 8 by 8 by 8", 0, 16, 4, zk_fill(block, WORDS, row, 9, 1));
    block[LAST_HIGH] = 9;
    same_share("8 by 8 by 8 by 9", 14, 0, 0, zk_fill(block, WORDS, row, 9, 1));
    for (int at = LAST_HIGH - 7; at < LAST_HIGH; at += 2) {
        block[at] = -1000000;
        block[at + 1] = 1000000;
    }
    same_share("two million in each of four", 14, 0, 0, zk_fill(block, WORDS, row, 9, 1));
    block[LAST_HIGH] = -1000000;
    same_share("and none in the last", 14, 0, 0, zk_fill(block, WORDS, row, 9, 1));
}

/* No block and no table given to zk_first_layout below has more words than these: k = 4, a box, a rule and eight
   rows. */
enum { LAYOUT_BLOCK = 23, LAYOUT_TABLE = 72 };

static void make_alike(int64_t *table, size_t rows, const int64_t *row, size_t row_words)
{
    for (size_t i = 0; i < rows * row_words; i++)
        table[i] = row[i % row_words];
}

/* The finding, and the words left in the table. No word of the block changes; a placement is good and, given
   again, stays. */
static void lays(const char *what, const int64_t *block, size_t block_len, const int64_t *table,
                 size_t table_len, int64_t finding, const int64_t *left)
{
    int64_t b[LAYOUT_BLOCK], t[LAYOUT_TABLE];
    memcpy(b, block, block_len * sizeof *b);
    memcpy(t, table, table_len * sizeof *t);
    same(what, finding, zk_first_layout(b, block_len, t, table_len));
    same_words(what, left, t, table_len);
    if (finding == 0) {
        same(what, 0, zk_check_placement(b, block_len, t, table_len));
        same(what, 0, zk_first_layout(b, block_len, t, table_len));
        same_words(what, left, t, table_len);
    }
    same_words(what, block, b, block_len);
}

/* A and B, with ranges, fixed, one unit apart, and with several shapes. */
static void layouts_of_two(void)
{
    static const int64_t unit[BLOCK] = {1, 2, 1,  1, 0, 3,  2, 0, 2,  1, 1, 3, 1, 0};
    static const int64_t no_rule[] = {1, 2, 0,  1, 0, 3,  2, 0, 2};
    static const int64_t sizes[MOST] = {1, 3, 1,  1, 0, 3,  2, 0, 4,  3, 0, 2,  1, 1, 3, 0, 0};
    static const int64_t either[TABLE] = {3, 0, 0,  4, -1, 5};
    static const int64_t least[TABLE] = {1, 0, 0,  2, -2, -2};
    static const int64_t at4[TABLE] = {1, 0, 0,  2, 4, 4};
    static const int64_t size_3[TABLE] = {1, 0, 0,  4, 3, 3};
    static const int64_t any[TABLE] = {3, -1000000, 1000000,  3, 0, 9};
    static const int64_t all_least[TABLE] = {1, -1000000, -1000000,  1, 0, 0};
    lays("B before A", good, BLOCK, wide, TABLE, 0, least);
    lays("B past A", good, BLOCK, pushed, TABLE, 0, touching);
    lays("B has no place", good, BLOCK, blocked, TABLE, -1, blocked);
    lays("a good placement stays", good, BLOCK, touching, TABLE, 0, touching);
    lays("a fixed table that is not good", good, BLOCK, overlapping, TABLE, -1, overlapping);
    lays("touching is too near for it", unit, BLOCK, touching, TABLE, -1, touching);
    lays("B past the clearance", unit, BLOCK, wide, TABLE, 0, at4);
    lays("the lower of two shapes", sizes, MOST, either, TABLE, 0, size_3);
    lays("no rule", no_rule, 9, any, TABLE, 0, all_least);
}

/* Rows in a line: three of size 2 in a room 0 to 5 and in one 0 to 6; shape 1 at 2 before shape 2 at 0; the low
   end of row 1 while row 2 gives way; and one that lies in no layout. */
static void layouts_in_line(void)
{
    static const int64_t room5[] = {1, 1, 2,  1, 0, 2,  1, 1, 7, 0, 0,  2, 1, 7, 0, 5};
    static const int64_t room6[] = {1, 1, 2,  1, 0, 2,  1, 1, 7, 0, 0,  2, 1, 7, 0, 6};
    static const int64_t to3[] = {1, 0, 3,  1, 0, 3,  1, 0, 3};
    static const int64_t to4[] = {1, 0, 4,  1, 0, 4,  1, 0, 4};
    static const int64_t filled6[] = {1, 0, 0,  1, 2, 2,  1, 4, 4};
    static const int64_t shapes[] = {1, 2, 1,  1, 0, 3,  2, 0, 1,  1, 1, 3, 0, 0};
    static const int64_t either[TABLE] = {3, 0, 6,  2, 1, 1};
    static const int64_t shape_1[TABLE] = {1, 2, 2,  2, 1, 1};
    static const int64_t pair[] = {1, 1, 1,  1, 0, 2,  1, 1, 3, 0, 0};
    static const int64_t from1[TABLE] = {1, 1, 9,  1, 0, 9};
    static const int64_t row_1_first[TABLE] = {1, 1, 1,  1, 3, 3};
    static const int64_t tens[] = {1, 1, 1,  1, 0, 10,  1, 1, 7, 0, 0};
    static const int64_t to30[] = {1, 0, 30,  1, 0, 15,  1, 0, 15};
    static const int64_t row_1_last[] = {1, 20, 20,  1, 0, 0,  1, 10, 10};
    lays("three in 0 to 5", room5, 16, to3, 9, -1, to3);
    lays("three in 0 to 6", room6, 16, to4, 9, 0, filled6);
    lays("shapes before coordinates", shapes, 14, either, TABLE, 0, shape_1);
    lays("row 1 before row 2", pair, 11, from1, TABLE, 0, row_1_first);
    lays("row 1 not at its low end", tens, 11, to30, 9, 0, row_1_last);
}

/* Bars of 2 by 1 in a line, and five squares of 1,000 in a room of 2,999 by 2,999 and in one of 3,000. */
static void layouts_in_two(void)
{
    enum { ROWS = 5, WORDS = 5, ROOM_WIDTH = 19 };
    static const int64_t bars[] = {2, 1, 1,  1, 0, 0, 2, 1,  1, 3, 7, 0, 0, 0, 0};
    static const int64_t line[] = {1, 0, 6, 0, 0,  1, 0, 2, 0, 0,  1, 0, 2, 0, 0};
    static const int64_t row_1_last[] = {1, 4, 4, 0, 0,  1, 0, 0, 0, 0,  1, 2, 2, 0, 0};
    static const int64_t anywhere[WORDS] = {1, -1000000, 1000000, -1000000, 1000000};
    static const int64_t corners[ROWS * WORDS] = {
        1, 0, 0, 0, 0,  1, 0, 0, 1000, 1000,  1, 1000, 1000, 0, 0,  1, 1000, 1000, 1000, 1000,
        1, 2000, 2000, 0, 0,
    };
    int64_t squares[] = {
        2, 1, 2,  1, 0, 0, 1000, 1000,  1, 3, 31, 0, 0, 0, 0,  2, 3, 31, 0, 2999, 0, 2999,
    };
    int64_t open[ROWS * WORDS];
    make_alike(open, ROWS, anywhere, WORDS);
    lays("bars in a line", bars, 15, line, 15, 0, row_1_last);
    lays("squares in 2,999 by 2,999", squares, 22, open, ROWS * WORDS, -1, open);
    squares[ROOM_WIDTH] = 3000;
    lays("squares in 3,000 by 2,999", squares, 22, open, ROWS * WORDS, 0, corners);
}

/* k = 4: eight boxes of 10,000 a side, anywhere. */
static void layouts_in_four(void)
{
    enum { ROWS = 8, WORDS = 9, LAST_LOW = 7, FAR = 1000000 };
    static const int64_t block[] = {
        4, 1, 1,  1, 0, 0, 0, 0, 10000, 10000, 10000, 10000,  1, 15, 255, 0, 0, 0, 0, 0, 0, 0, 0,
    };
    static const int64_t anywhere[WORDS] = {1, -FAR, FAR, -FAR, FAR, -FAR, FAR, -FAR, FAR};
    static const int64_t corner[WORDS] = {1, -FAR, -FAR, -FAR, -FAR, -FAR, -FAR, -FAR, -FAR};
    int64_t open[ROWS * WORDS], stack[ROWS * WORDS];
    make_alike(open, ROWS, anywhere, WORDS);
    make_alike(stack, ROWS, corner, WORDS);
    for (int i = 0; i < ROWS; i++)
        stack[i * WORDS + LAST_LOW] = stack[i * WORDS + LAST_LOW + 1] = -FAR + 10000 * i;
    lays("eight in four dimensions", block, 23, open, ROWS * WORDS, 0, stack);
}

/* Rows of size 2 in a line, the first eight of them apart: eight are accepted, nine are not; a ground before 16
   is given first. */
static void layouts_of_many(void)
{
    enum { WORDS = 3, MOST_ROWS = 33, MANY_WORDS = MOST_ROWS * WORDS, RULE_KIND = 6 };
    static const int64_t row[WORDS] = {1, 0, 14};
    int64_t block[] = {1, 1, 1,  1, 0, 2,  1, 1, 255, 0, 0};
    int64_t open[MANY_WORDS], t[MANY_WORDS], line[8 * WORDS];
    make_alike(open, MOST_ROWS, row, WORDS);
    make_alike(line, 8, row, WORDS);
    for (int i = 0; i < 8; i++)
        line[i * WORDS + 1] = line[i * WORDS + 2] = 2 * i;
    lays("eight rows", block, 11, open, 8 * WORDS, 0, line);
    lays("nine rows", block, 11, open, 9 * WORDS, 16, open);
    memcpy(t, open, sizeof t);
    same("32 rows", 16, zk_first_layout(block, 11, t, 32 * WORDS));
    same("33 rows", 5, zk_first_layout(block, 11, t, 33 * WORDS));
    same_words("many rows", open, t, MANY_WORDS);
    t[8 * WORDS + 1] = 15;
    lays("nine rows, the last one bad", block, 11, t, 9 * WORDS, 8, t);
    lays("the eight before it", block, 11, t, 8 * WORDS, 0, line);
    block[RULE_KIND] = 3;
    lays("nine rows and a bad rule", block, 11, open, 9 * WORDS, 7, open);
}

int main(void)
{
    refusals();
    points();
    bounds();
    changes();
    clearances();
    several_shapes();
    relations();
    fills();
    fills_of_two();
    fills_in_four();
    layouts_of_two();
    layouts_in_line();
    layouts_in_two();
    layouts_in_four();
    layouts_of_many();
    printf("%d comparisons, %d differ\n", compared, differ);
    return differ ? 1 : 0;
}
