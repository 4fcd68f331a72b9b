/* river_short_months: for each right of a basin, in how many months of a year of a runoff book it is short, from the
   fresh board; before that the months themselves from October to September, those in which it is short as x. */
#include <inttypes.h>
#include <stdio.h>
#include <stdlib.h>
#include "read_file.h"
#include "river.h"

/* Enough for any basin, and too much for many a stack. */
static uint64_t reports[RIVER_REPORTS_LONGEST];

static void print_rights(const uint8_t *file, size_t length, const uint64_t *board)
{
    for (size_t right = 0; right < RIVER_RIGHTS(file); right++) {
        struct river_months told = river_short_months(file, length, board, RIVER_BOARD_LENGTH, right);
        printf("right %zu: ", right);
        for (int month = 0; month < 12; month++)
            putchar(board[RIVER_BOARD_SHORT(right)] >> month & 1 ? 'x' : '.');
        printf(" %" PRIu64 " short months\n", told.months);
    }
}

int main(int count, char **names)
{
    if (count != 4) {
        fprintf(stderr, "usage: %s BASIN BOOK YEAR\n", names[0]);
        return 2;
    }
    size_t length, book_length;
    uint8_t *file = read_file(names[1], &length);
    uint8_t *book = read_file(names[2], &book_length);
    if (file == NULL || book == NULL)
        return 1;
    uint32_t year = (uint32_t)strtoul(names[3], NULL, 10);
    uint64_t board[RIVER_BOARD_LENGTH];
    struct river_answer answer = river_fresh(file, length, board, RIVER_BOARD_LENGTH);
    if (answer.number == RIVER_ACCEPTED)
        answer = river_run_year(file, length, book, book_length, year, board, RIVER_BOARD_LENGTH, reports,
                                RIVER_REPORTS_LONGEST);
    if (answer.number == RIVER_ACCEPTED)
        print_rights(file, length, board);
    else
        printf("refused %" PRIu64 " %" PRIu64 "\n", answer.number, answer.place);
    free(file);
    free(book);
    return answer.number != RIVER_ACCEPTED;
}
