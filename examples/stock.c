/* river_stock: what is stored and what is due on the fresh board of a basin, on that board with a return due at row 0
   in three months, and on a board that no run of months can leave. */
#include <inttypes.h>
#include <stdio.h>
#include <stdlib.h>
#include "read_file.h"
#include "river.h"

static void print_stock(const char *what, struct river_sums sums)
{
    if (sums.number != RIVER_ACCEPTED)
        printf("%s: refused %" PRIu64 " %" PRIu64 "\n", what, sums.number, sums.place);
    else
        printf("%s: stored %" PRIu64 ", due %" PRIu64 "\n", what, sums.storage, sums.due);
}

int main(int count, char **names)
{
    if (count != 2) {
        fprintf(stderr, "usage: %s BASIN\n", names[0]);
        return 2;
    }
    size_t length;
    uint8_t *file = read_file(names[1], &length);
    if (file == NULL)
        return 1;
    uint64_t board[RIVER_BOARD_LENGTH] = {0};
    river_fresh(file, length, board, RIVER_BOARD_LENGTH);
    print_stock("fresh", river_stock(file, length, board, RIVER_BOARD_LENGTH));
    board[RIVER_BOARD_DUE(0, 3)] = 7;
    print_stock("7 on their way", river_stock(file, length, board, RIVER_BOARD_LENGTH));
    board[RIVER_BOARD_MONTH] = 12;
    print_stock("in month 12", river_stock(file, length, board, RIVER_BOARD_LENGTH));
    free(file);
    return 0;
}
