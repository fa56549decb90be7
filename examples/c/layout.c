/* Finds the first whole layout of a sheet. Reads the sheet's text on standard input and prints `placed` with
   the shape and the place of every row, or `none`, or `refused` with the number that zivokkal.h explains.
   Exit status: 0 placed, 1 none, 2 refused or a text that is not in the form, whose line is then named on
   standard error. 3 would be a placement that the kernel itself does not judge good.
   examples/c/build builds it and runs it on sheets; layout.out is what it prints for them. */
#include <inttypes.h>
#include <stdbool.h>
#include <stdio.h>

#include "zivokkal.h"

enum { LEAST_K = 1, MOST_K = 4, MOST_NUMBERS = 3 + 2 * MOST_K, MOST_DIGITS = 10, MOST_SHAPES = 32 };
enum { PLACED = 0, NONE = 1, REFUSED = 2, NOT_GOOD = 3 };

struct sheet {
    int64_t block[ZK_BLOCK_WORDS];
    int64_t table[ZK_TABLE_WORDS];
    size_t block_len;
    size_t table_len;
};

/* A letter and the numbers after it. At the end of the text the letter is EOF. */
struct line {
    int letter;
    size_t count;
    int64_t number[MOST_NUMBERS];
};

/* Reads a number that starts with the character *next: 0, or an optional minus and up to ten digits, the
   first of them not 0. *next is then the character after it. */
static bool read_number(int *next, int64_t *number)
{
    bool is_negative = *next == '-';
    int digits = 0;
    if (is_negative)
        *next = getchar();
    bool starts_with_zero = *next == '0';
    for (*number = 0; '0' <= *next && *next <= '9' && digits < MOST_DIGITS; digits++) {
        *number = 10 * *number + (*next - '0');
        *next = getchar();
    }
    if (is_negative)
        *number = -*number;
    return starts_with_zero ? digits == 1 && !is_negative : digits > 0;
}

/* Reads a line: a letter, numbers with a comma before each, and a line feed. */
static bool read_line(struct line *line)
{
    line->count = 0;
    line->letter = getchar();
    if (line->letter == EOF)
        return !ferror(stdin);
    int next = getchar();
    while (next == ',' && line->count < MOST_NUMBERS) {
        next = getchar();
        if (!read_number(&next, &line->number[line->count]))
            return false;
        line->count++;
    }
    return next == '\n';
}

/* Adds the line's numbers to words, which has space for `most`. */
static bool add(int64_t *words, size_t *len, size_t most, const struct line *line)
{
    if (line->count > most - *len)
        return false;
    for (size_t i = 0; i < line->count; i++)
        words[(*len)++] = line->number[i];
    return true;
}

/* Takes a line after the first: B lines come before R lines, and both before O lines. */
static bool take_line(struct sheet *sheet, const struct line *line)
{
    int64_t *block = sheet->block;
    size_t k = (size_t)block[0];
    if (line->letter == 'B' && line->count == 1 + 2 * k && block[2] == 0 && sheet->table_len == 0) {
        block[1]++;
        return add(block, &sheet->block_len, ZK_BLOCK_WORDS, line);
    }
    if (line->letter == 'R' && line->count == 3 + 2 * k && sheet->table_len == 0) {
        block[2]++;
        return add(block, &sheet->block_len, ZK_BLOCK_WORDS, line);
    }
    return line->letter == 'O' && line->count == 1 + 2 * k &&
           add(sheet->table, &sheet->table_len, ZK_TABLE_WORDS, line);
}

/* Reads the whole text, up to the K line only where k is one that the kernel refuses. 0, or the number of the
   first line that is not in the form or for which a sheet has no space. */
static int read_sheet(struct sheet *sheet)
{
    struct line line;
    if (!read_line(&line) || line.letter != 'K' || line.count != 1)
        return 1;
    *sheet = (struct sheet){ .block = { line.number[0], 0, 0 }, .block_len = 3 };
    if (line.number[0] < LEAST_K || line.number[0] > MOST_K)
        return 0;
    for (int number = 2;; number++) {
        if (!read_line(&line))
            return number;
        if (line.letter == EOF)
            return 0;
        if (!take_line(sheet, &line))
            return number;
    }
}

/* Prints a table in which each row has one shape and one place. */
static void print_placement(const struct sheet *sheet)
{
    size_t k = (size_t)sheet->block[0], row_words = 1 + 2 * k;
    for (size_t i = 0; i < sheet->table_len / row_words; i++) {
        const int64_t *row = sheet->table + i * row_words;
        int shape = 1;
        while (shape < MOST_SHAPES && (row[0] >> (shape - 1) & 1) == 0)
            shape++;
        printf("row %zu: shape %d at", i + 1, shape);
        for (size_t d = 0; d < k; d++)
            printf("%s %" PRId64, d == 0 ? "" : ",", row[1 + 2 * d]);
        printf("\n");
    }
}

int main(void)
{
    struct sheet sheet;
    int line = read_sheet(&sheet);
    if (line > 0) {
        fprintf(stderr, "line %d: not in the form of a sheet, or more than a sheet holds\n", line);
        return REFUSED;
    }
    int64_t finding = zk_first_layout(sheet.block, sheet.block_len, sheet.table, sheet.table_len);
    if (finding == -1) {
        printf("none\n");
        return NONE;
    }
    if (finding != 0) {
        printf("refused, %" PRId64 "\n", finding);
        return REFUSED;
    }
    printf("placed\n");
    print_placement(&sheet);
    if (zk_check_placement(sheet.block, sheet.block_len, sheet.table, sheet.table_len) == 0)
        return PLACED;
    printf("not good: this is an error of the kernel\n");
    return NOT_GOOD;
}
