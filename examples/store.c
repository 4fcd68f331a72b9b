/* river_save, river_recall, river_drop: a dry spring tried on October's basin, then March from the same board with
   snow that melts. The board is kept under a name of eight bytes in a store that belongs to the caller. */
#include <inttypes.h>
#include <stdio.h>
#include <stdlib.h>
#include <string.h>
#include "read_file.h"
#include "river.h"

/* All zeros, which is an empty store; too much for many a stack. */
static uint8_t store[RIVER_STORE_LENGTH];
/* Zeros behind it: a name has eight bytes. */
static const uint8_t march[RIVER_NAME_LENGTH] = {'M', 'A', 'R', 'C', 'H'};

static uint8_t *file;
static size_t length;
static uint64_t board[RIVER_BOARD_LENGTH];

/* One month, and what is stored and due afterwards. */
static void run_month(const char *what, uint32_t first, uint32_t second, uint32_t third)
{
    uint32_t runoff[3] = {first, second, third};
    uint64_t report[RIVER_REPORT_LONGEST];
    struct river_answer answer =
        river_month(file, length, runoff, 3, board, RIVER_BOARD_LENGTH, report, RIVER_REPORT_LONGEST);
    struct river_sums sums = river_stock(file, length, board, RIVER_BOARD_LENGTH);
    if (answer.number == RIVER_ACCEPTED)
        printf("%s: %" PRIu64 " rights short, stored %" PRIu64 ", due %" PRIu64 "\n", what, answer.place, sums.storage,
               sums.due);
    else
        printf("%s: refused %" PRIu64 " %" PRIu64 "\n", what, answer.number, answer.place);
}

static void print_answer(const char *what, struct river_answer answer)
{
    if (answer.number == RIVER_ACCEPTED)
        printf("%s\n", what);
    else
        printf("%s: refused %" PRIu64 " %" PRIu64 "\n", what, answer.number, answer.place);
}

static struct river_answer recall(void)
{
    return river_recall(store, RIVER_STORE_LENGTH, march, RIVER_NAME_LENGTH, board, RIVER_BOARD_LENGTH);
}

int main(int count, char **names)
{
    if (count != 2) {
        fprintf(stderr, "usage: %s BASIN\n", names[0]);
        return 2;
    }
    file = read_file(names[1], &length);
    if (file == NULL)
        return 1;
    river_fresh(file, length, board, RIVER_BOARD_LENGTH);
    run_month("October", 2000, 700, 300);
    for (int month = 1; month < 5; month++)
        run_month("winter", 1700, 600, 200);

    print_answer("saved", river_save(store, RIVER_STORE_LENGTH, march, RIVER_NAME_LENGTH, board, RIVER_BOARD_LENGTH));
    uint64_t saved[RIVER_BOARD_LENGTH];
    memcpy(saved, board, sizeof saved);
    run_month("a dry March", 0, 0, 0);
    run_month("a dry April", 100, 0, 0);

    print_answer("recalled", recall());
    printf("%s\n", memcmp(board, saved, sizeof saved) == 0 ? "the board is as it was" : "the board is another");
    run_month("a wet March", 5000, 2500, 900);

    print_answer("dropped", river_drop(store, RIVER_STORE_LENGTH, march, RIVER_NAME_LENGTH));
    print_answer("recalled again", recall());
    free(file);
    return 0;
}
