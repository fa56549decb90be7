/* The C interface of the placement kernel. Link crates/capi/out/libcapi.a, which `rt lib` in
   crates/capi writes for x86-64 Linux. Every function is proved to give what this page says, on any words of any
   length (crates/capi/src/lib.rt); what the caller must see to is under "Pointers" below.

   A sheet is two runs of 64-bit words that the caller lends, the block and the table. Outlines are made
   of boxes on a grid of whole numbers in k dimensions. Rows and shapes count from 1, dimensions from 0.

   The block: boxes and rules

     k, B, R                         dimensions 1 to 4, boxes 1 to 128, rules 0 to 32
     then B boxes of 1 + 2k words    shape 1 to 32; k offsets, -10,000 to 10,000; k sizes, 1 to 10,000
     then R rules of 3 + 2k words    kind; dimension set; row set; low and high for each dimension

   A shape is all boxes with its number; they may overlap. In a dimension set bit d stands for dimension
   d, in a row set bit i - 1 for row i; neither is empty, and bits past k and past n are 0.
   Kind 1: no two of the named rows overlap, the test being made in the named dimensions only. The low
   word of a named dimension is its clearance, 0 to 1,000, the high word 0. A box of one row and a box of
   another are clear of each other when in some named dimension one of them starts at or past the other's
   end plus the clearance. Kind 2: each named row lies from low to high in each named dimension,
   -1,000,000 to 1,000,000, low <= high. In both kinds the words of the other dimensions are 0.
   Its length is 3 + B(1 + 2k) + R(3 + 2k) words, at most ZK_BLOCK_WORDS.

   The table: the rows to place

     n rows of 1 + 2k words, n from 1 to 32    shape set; low and high for each dimension

   In a shape set bit s - 1 stands for shape s: the shapes still open for the row; it is not empty, and
   each shape in it has a box. Low to high, -1,000,000 to 1,000,000, low <= high, is the range of the
   row's origin, to which the offsets of its boxes are added. Its length is n(1 + 2k) words, at most
   ZK_TABLE_WORDS.

   Allowed: a row, with a shape, is allowed at a point when the point lies in the row's ranges, every
   kind 2 rule that names the row holds there, and no kind 1 rule that names it forbids the point. One
   does when, for every shape that is open for another named row, a box of the row, there, would not be
   clear of one and the same box of that shape wherever in its ranges that row ends up. With a clearance
   of 0, boxes that touch are clear.

   Findings

      0   the good answer, which each function names
     -1   the other answer
      2   the block has fewer than 3 words, or k is outside 1 to 4
      3   B or R is outside its range
      4   the block's length is not the one above
      5   the table's length is not the one above
      6   a box breaks a range above
      7   a rule breaks a condition above
      8   a row of the table breaks a condition above
      9   the row asked about is outside 1 to n
     10   the shape asked about is not in that row's set
     11   the dimension asked about is outside 0 to k - 1
     12   the placement is not fixed: some range has several numbers or some set several shapes
     13   the rule asked about is outside 1 to R, is of kind 1 or does not name every dimension
     14   that rule's room has no cells or more than 4,096
     15   the placement is not good
     16   the table has more than eight rows

   2 to 16 are refusals; the first that applies is given, in this order. 1 is the refusal of a text and
   is never given here. Every function makes the checks 2 to 8 itself, so zk_refusal need not be called
   first.

   What is written: the block never; the table by zk_narrow, zk_settle and zk_first_layout only, and only
   when they find 0. With -1 or a refusal every word is as it was.

   Pointers: block and table point to as many words as their length says, aligned as int64_t is, and are
   not null, not even with a length of 0. In the three functions that write the table the two may not
   overlap. No other thread may write the words during a call, and in those three none may read the table.
   Nothing else is asked: words and numbers may have any value.

   There is no global state, no memory is allocated and no pointer is kept, so calls on different tables
   may run in different threads at once, also over one block. Nothing is proved about the stack: where
   it was measured (with the kit before the port to today's Rattle) zk_settle, zk_narrow, zk_least and
   zk_greatest used 62 to 66 KB of it (most of it a list of what can forbid a row, and an outline of the
   block), zk_check_placement and zk_point_allowed 13 KB, zk_fill 17 KB, the others but one less than 1
   KB; 128 KB leave room for changes. The one is zk_first_layout, the only function that recurses: each
   level of its search has a copy of the table and takes 768 bytes, beside 73 KB. A level halves a range
   of a row or leaves it one shape, so that there are at most 649, which is 571 KB; the deepest search
   that was measured used 419 KB. 1 MB leaves room for changes.

   Time: every call ends, but there is no limit to it that helps in practice, and a call cannot be
   interrupted. Ordinary sheets settle in microseconds to milliseconds. Beside document 000's filtering in
   plain Rust, its forbidden regions listed, zk_settle takes 0.18 of the time (geometric mean over the
   benchmark's lines with one copy of a rule), 0.87 on the worst line and 1.92 on the worst sheet;
   docs/PERFORMANCE.md has more. A sheet that is made for it can make one search visit a number of
   points that grows as the fourth power of the number of boxes (k = 4), and rows can push each other one
   unit at a time over the whole of their ranges.
   zk_first_layout settles again and again while it searches. Ordinary sheets of eight rows take 37
   microseconds (the benchmark's median, 3.4 milliseconds on the worst), rows that fill a room to 0.75 or
   more, or exactly, up to 55 milliseconds, eight rows in a line that is one unit too short 0.17 seconds.
   The slowest sheet that was met took 1.4 seconds: k = 4, three rows 2 wide in a niche that is one too
   short, and five that may stand anywhere. The search is exponential at worst.
   Where sheets come from outside, call from a thread or a process that can be left. */
#ifndef ZIVOKKAL_H
#define ZIVOKKAL_H

#include <stddef.h>
#include <stdint.h>

#ifdef __cplusplus
extern "C" {
#endif

/* The most words of a block and of a table that is not refused. */
#define ZK_BLOCK_WORDS 1507
#define ZK_TABLE_WORDS 288

/* 0: the sheet is accepted. Never -1. Refusals 2 to 8. */
int64_t zk_refusal(const int64_t *block, size_t block_len, const int64_t *table, size_t table_len);

/* 0: the sheet is accepted and has the row. Never -1. Refusals 2 to 9. Where zk_row_span refuses, this is its
   ground. */
int64_t zk_row_refusal(const int64_t *block, size_t block_len, const int64_t *table, size_t table_len,
                       int64_t row);

/* 0: the row is allowed at the point (p0, p1, p2, p3) with the shape. -1: it is not, also where the point
   lies outside the row's ranges. Coordinates from p_k on are ignored. Refusals 2 to 10. */
int64_t zk_point_allowed(const int64_t *block, size_t block_len, const int64_t *table, size_t table_len,
                         int64_t row, int64_t shape, int64_t p0, int64_t p1, int64_t p2, int64_t p3);

/* A fixed placement is a table in which each range has one number and each set one shape.
   0: it is good, each row is allowed where it stands. -1: it is not good. Refusals 2 to 8 and 12. */
int64_t zk_check_placement(const int64_t *block, size_t block_len, const int64_t *table, size_t table_len);

/* The least, or the greatest, coordinate in the dimension of the points at which the row is allowed with
   the shape. 0: value is that coordinate. -1: it is allowed at no point. Refusals 2 to 11. With -1 and
   with a refusal value is 0. */
struct zk_bound {
    int64_t finding;
    int64_t value;
};

struct zk_bound zk_least(const int64_t *block, size_t block_len, const int64_t *table, size_t table_len,
                         int64_t row, int64_t shape, int64_t dimension);

struct zk_bound zk_greatest(const int64_t *block, size_t block_len, const int64_t *table, size_t table_len,
                            int64_t row, int64_t shape, int64_t dimension);

/* 0: narrowed, also when no word changed: the row's ranges are the smallest that hold all its allowed
   points over all its shapes, and its set has the shapes with such a point; the other rows keep their
   words. -1: no place, the row is allowed at no point. Refusals 2 to 9. */
int64_t zk_narrow(const int64_t *block, size_t block_len, int64_t *table, size_t table_len, int64_t row);

/* 0: settled: the rows are narrowed until nothing moves; the table is the same in whatever order that is
   done. -1: no layout, some row has no place left. A settled table need not contain a layout: ask
   zk_first_layout for one, and zk_check_placement about a fixed placement. Refusals 2 to 8. */
int64_t zk_settle(const int64_t *block, size_t block_len, int64_t *table, size_t table_len);

/* The first whole layout. A good placement lies inside the table when each of its shapes is in the row's set
   and each of its coordinates in the row's range. Placements are compared by row 1's shape number, then by
   its coordinates from dimension 0 up, then by row 2's shape number, and so on; the first in which they
   differ decides, and the lesser comes first.
   0: placed: the table is the first good placement inside the one that was given. -1: none, no good
   placement lies inside it. Refusals 2 to 8 and 16. */
int64_t zk_first_layout(const int64_t *block, size_t block_len, int64_t *table, size_t table_len);

/* How two rows of a fixed placement stand to each other in a dimension. A row runs there from the lowest
   start to the highest end of its boxes, offsets and the row's coordinate included; gaps between boxes
   lie inside. Exactly one of Allen's thirteen interval relations holds, for two rows that overlap too, and
   with row and other exchanged the converse does; a row equals itself. No rule plays a part.
   0: relation is what row bears to other. Never -1. Refusals 2 to 8, 9 for either row, 11 and 12, which
   looks at the whole table. When refused relation is 0. */
enum {
    ZK_PRECEDES = 1,         /* ends before the other starts */
    ZK_MEETS = 2,            /* ends where the other starts */
    ZK_OVERLAPS = 3,         /* starts and ends before the other does, and ends past its start */
    ZK_CONTAINS = 4,         /* starts before the other and ends after it */
    ZK_STARTS = 5,           /* starts with the other and ends before it */
    ZK_FINISHES = 6,         /* starts after the other and ends with it */
    ZK_EQUALS = 7,           /* starts and ends with the other */
    ZK_STARTED_BY = 8,       /* converse of ZK_STARTS */
    ZK_FINISHED_BY = 9,      /* converse of ZK_FINISHES */
    ZK_DURING = 10,          /* converse of ZK_CONTAINS */
    ZK_OVERLAPPED_BY = 11,   /* converse of ZK_OVERLAPS */
    ZK_MET_BY = 12,          /* converse of ZK_MEETS */
    ZK_PRECEDED_BY = 13      /* converse of ZK_PRECEDES */
};

struct zk_standing {
    int64_t finding;
    int64_t relation;
};

struct zk_standing zk_relation(const int64_t *block, size_t block_len, const int64_t *table, size_t table_len,
                               int64_t row, int64_t other, int64_t dimension);

/* How much of a room is filled in a good placement. The room is that of a rule of kind 2 that names every
   dimension; rule is the rule's position among all rules of the block, of both kinds, from 1. The room's
   cells are the unit cubes of the grid in it, width times width over its dimensions. A cell is covered when
   it lies in a box of a row that the rule names, and is counted once, in however many boxes it lies. Rows
   that the rule does not name are not counted.
   0: cells is how many cells are covered, permille how many thousandths of the room's cells they are, to the
   nearest whole number, a half going up. Never -1. Refusals 2 to 8 and 12 to 15; 12 and 15 look at the whole
   placement, 15 at every rule of it. When refused cells and permille are 0. */
struct zk_share {
    int64_t finding;
    int64_t cells;
    int64_t permille;
};

struct zk_share zk_fill(const int64_t *block, size_t block_len, const int64_t *table, size_t table_len,
                        int64_t rule);

/* Where the row stands in its table: table[start] to table[start + length - 1], its shape set first. When
   refused both are 0, and zk_row_refusal gives the refusal. */
struct zk_span {
    int64_t start;
    int64_t length;
};

struct zk_span zk_row_span(const int64_t *block, size_t block_len, const int64_t *table, size_t table_len,
                           int64_t row);

#ifdef __cplusplus
}
#endif

#endif
