/* river_find_year, river_run_year: a year of a runoff book, from the fresh board: what leaves the river in each month,
   and what the reservoirs hold at its end. */
#include <inttypes.h>
#include <stdio.h>
#include <stdlib.h>
#include "read_file.h"
#include "river.h"

/* Enough for any basin, and too much for many a stack. */
static uint64_t reports[RIVER_REPORTS_LONGEST];

static void print_year(const uint8_t *file, const uint64_t *board, uint64_t months)
{
    size_t rights = RIVER_RIGHTS(file), stations = RIVER_STATIONS(file), reservoirs = RIVER_RESERVOIRS(file);
    /* Each report has the least length, so that the next one follows it at once. */
    size_t length = RIVER_REPORT_LENGTH(rights, stations, reservoirs);
    for (size_t month = 0; month < months; month++)
        printf("month %zu: outflow %" PRIu64 "\n", month,
               reports[month * length + RIVER_REPORT_FLOW(rights, stations - 1)]);
    for (size_t reservoir = 0; reservoir < reservoirs; reservoir++)
        printf("reservoir %zu holds %" PRIu64 "\n", reservoir, board[RIVER_BOARD_STORAGE(reservoir)]);
}

int main(int count, char **names)
{
    if (count != 4) {
        fprintf(stderr, "usage: %s BASIN BOOK YEAR\n", names[0]);
        return 2;
    }
    size_t length, book_length;
    uint8_t *file = read_file(names[1], &length);
    uint8_t *book = read_file(names[2], &book_length);
    if (file == NULL || book == NULL)
        return 1;
    uint32_t year = (uint32_t)strtoul(names[3], NULL, 10);
    uint64_t board[RIVER_BOARD_LENGTH];
    struct river_answer answer = river_find_year(file, length, book, book_length, year);
    if (answer.number == RIVER_ACCEPTED)
        answer = river_fresh(file, length, board, RIVER_BOARD_LENGTH);
    if (answer.number == RIVER_ACCEPTED)
        answer = river_run_year(file, length, book, book_length, year, board, RIVER_BOARD_LENGTH, reports,
                                RIVER_REPORTS_LONGEST);
    if (answer.number == RIVER_ACCEPTED)
        print_year(file, board, answer.place);
    else
        printf("refused %" PRIu64 " %" PRIu64 "\n", answer.number, answer.place);
    free(file);
    free(book);
    return answer.number != RIVER_ACCEPTED;
}
