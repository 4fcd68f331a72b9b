/* The calls on the worked October: accepted once with a pattern that loses water and once as it is; then with one list
   or number wrong each time, which changes nothing. Every list lies in memory of just its length, so that valgrind sees
   a read or a write beyond it. */
#include <inttypes.h>
#include <stdio.h>
#include <stdlib.h>
#include <string.h>
#include "../../examples/read_file.h"
#include "river.h"

enum { STATIONS = 3, RESERVOIRS = 1, RIGHTS = 5, YEARS = 2 };
#define DEEP_LOSS RIVER_REPORT_DEEP_LOSS(RIGHTS, STATIONS, RESERVOIRS)
#define REPORT_LENGTH RIVER_REPORT_LENGTH(RIGHTS, STATIONS, RESERVOIRS)
#define REPORTS_LENGTH RIVER_REPORTS_LENGTH(RIGHTS, STATIONS, RESERVOIRS)
#define BOOK_LENGTH RIVER_BOOK_LENGTH(STATIONS, YEARS)

static uint8_t *file, *book;
static size_t length;

/* Some numbers, all 99. */
static uint64_t *numbers(size_t count)
{
    uint64_t *list = (uint64_t *)malloc(count * sizeof *list);
    if (list == NULL)
        exit(1);
    for (size_t place = 0; place < count; place++)
        list[place] = 99;
    return list;
}

static uint32_t *runoff_of(size_t count, uint32_t first, uint32_t others)
{
    uint32_t *runoff = (uint32_t *)malloc(count * sizeof *runoff);
    if (runoff == NULL)
        exit(1);
    for (size_t row = 0; row < count; row++)
        runoff[row] = row == 0 ? first : others;
    return runoff;
}

static void print_answer(const char *what, struct river_answer answer)
{
    printf("%s: %" PRIu64 " %" PRIu64 "\n", what, answer.number, answer.place);
}

static void print_stock(const char *what, const uint64_t *board, size_t board_length)
{
    struct river_sums sums = river_stock(file, length, board, board_length);
    printf("%s: %" PRIu64 " %" PRIu64 ", stored %" PRIu64 ", due %" PRIu64 "\n", what, sums.number, sums.place,
           sums.storage, sums.due);
}

static void print_months(const char *what, const uint64_t *board, size_t board_length, size_t right)
{
    struct river_months told = river_short_months(file, length, board, board_length, right);
    printf("%s, short months of right %zu: %" PRIu64 " %" PRIu64 " %" PRIu64 "\n", what, right, told.number, told.place,
           told.months);
}

/* Of every right, and of two that are not there. */
static void print_rights(const char *what, const uint64_t *board)
{
    for (size_t right = 0; right <= RIGHTS; right++)
        print_months(what, board, RIVER_BOARD_LENGTH, right);
    print_months(what, board, RIVER_BOARD_LENGTH, SIZE_MAX);
}

/* A month that is to be refused, on lists that are to stay as they are. */
static void refused(const char *what, size_t runoffs, uint32_t others, const uint64_t *board, size_t board_length,
                    size_t report_length)
{
    uint32_t *runoff = runoff_of(runoffs, RIVER_MOST_RUNOFF, others);
    uint64_t *lent = numbers(board_length), *report = numbers(report_length), *blank = numbers(report_length);
    size_t copied = board_length < RIVER_BOARD_LENGTH ? board_length : RIVER_BOARD_LENGTH;
    memcpy(lent, board, copied * sizeof *lent);
    print_answer(what, river_month(file, length, runoff, runoffs, lent, board_length, report, report_length));
    if (memcmp(lent, board, copied * sizeof *lent) != 0 || (board_length > copied && lent[copied] != 99))
        printf("    the board is changed\n");
    if (memcmp(report, blank, report_length * sizeof *report) != 0)
        printf("    the report is changed\n");
    free(runoff);
    free(lent);
    free(report);
    free(blank);
}

/* October from its fresh board; tells the deep loss too. */
static void october(const char *what, const uint32_t *runoff, uint64_t *board)
{
    uint64_t *report = numbers(REPORT_LENGTH);
    print_answer("fresh", river_fresh(file, length, board, RIVER_BOARD_LENGTH));
    print_stock("stock", board, RIVER_BOARD_LENGTH);
    print_answer(what, river_month(file, length, runoff, STATIONS, board, RIVER_BOARD_LENGTH, report, REPORT_LENGTH));
    printf("deep loss %" PRIu64 "\n", report[DEEP_LOSS]);
    print_stock("stock", board, RIVER_BOARD_LENGTH);
    free(report);
}

/* The pattern of 50, 30 and 20 percent, in the bytes from 124 on, with 21, none and again 20 in the third month. */
static void patterns(const uint32_t *runoff, uint64_t *board)
{
    file[126] = 21;
    print_answer("pattern of 101", river_verdict(file, length));
    file[126] = 0;
    october("October with a pattern of 80", runoff, board);
    file[126] = 20;
}

/* A number of four bytes, the least first. */
static uint8_t *put(uint8_t *at, uint32_t number)
{
    for (int byte = 0; byte < 4; byte++)
        at[byte] = (uint8_t)(number >> 8 * byte);
    return at + 4;
}

/* A book of the years 1964 and 1965, without a drop; in May of 1965 row 2 has more than there can be. */
static uint8_t *write_book(void)
{
    uint8_t *bytes = (uint8_t *)malloc(BOOK_LENGTH);
    if (bytes == NULL)
        exit(1);
    uint8_t *at = put(bytes, YEARS);
    for (uint32_t place = 0; place < YEARS; place++)
        at = put(put(at, 1964 + place), (uint32_t)RIVER_BOOK_BODY(STATIONS, YEARS, place));
    for (int number = 0; number < YEARS * 12 * STATIONS; number++)
        at = put(at, number == (12 + 7) * STATIONS + 2 ? RIVER_MOST_RUNOFF + 1 : 0);
    return bytes;
}

/* A year that is to be refused, on lists that are to stay as they are; of the book so many bytes are lent. */
static void refused_year(const char *what, size_t bytes, uint32_t year, const uint64_t *board, size_t board_length,
                         size_t reports_length)
{
    uint8_t *lent_book = (uint8_t *)malloc(bytes);
    uint64_t *lent = numbers(board_length), *reports = numbers(reports_length), *blank = numbers(reports_length);
    size_t copied = board_length < RIVER_BOARD_LENGTH ? board_length : RIVER_BOARD_LENGTH;
    if (lent_book == NULL)
        exit(1);
    memset(lent_book, 0, bytes);
    memcpy(lent_book, book, bytes < BOOK_LENGTH ? bytes : BOOK_LENGTH);
    memcpy(lent, board, copied * sizeof *lent);
    print_answer(what,
                 river_run_year(file, length, lent_book, bytes, year, lent, board_length, reports, reports_length));
    if (memcmp(lent, board, copied * sizeof *lent) != 0 || (board_length > copied && lent[copied] != 99))
        printf("    the board is changed\n");
    if (memcmp(reports, blank, reports_length * sizeof *reports) != 0)
        printf("    the list is changed\n");
    free(lent_book);
    free(lent);
    free(reports);
    free(blank);
}

/* Look-ups, and years on the board of November: refused, and then run. */
static void years(uint64_t *board)
{
    print_answer("look-up in no file", river_find_year(NULL, 0, book, BOOK_LENGTH, 1964));
    print_answer("look-up in no book", river_find_year(file, length, NULL, 0, 1964));
    print_answer("look-up in part of a book", river_find_year(file, length, book, BOOK_LENGTH - 1, 1964));
    print_answer("look-up of 1963", river_find_year(file, length, book, BOOK_LENGTH, 1963));
    print_answer("look-up of 1964", river_find_year(file, length, book, BOOK_LENGTH, 1964));
    print_answer("look-up of 1965", river_find_year(file, length, book, BOOK_LENGTH, 1965));
    print_answer("year of no list", river_run_year(NULL, 0, NULL, 0, 1964, NULL, 0, NULL, 0));
    print_answer("year of no list but the file", river_run_year(file, length, NULL, 0, 1964, NULL, 0, NULL, 0));
    print_answer("year of a file and a book", river_run_year(file, length, book, BOOK_LENGTH, 1964, NULL, 0, NULL, 0));
    refused_year("book too short", BOOK_LENGTH - 1, 1964, board, RIVER_BOARD_LENGTH, REPORTS_LENGTH);
    refused_year("book too long", BOOK_LENGTH + 1, 1964, board, RIVER_BOARD_LENGTH, REPORTS_LENGTH);
    refused_year("year not listed", BOOK_LENGTH, 1966, board, RIVER_BOARD_LENGTH, REPORTS_LENGTH);
    refused_year("board of a year too short", BOOK_LENGTH, 1964, board, RIVER_BOARD_LENGTH - 1, REPORTS_LENGTH);
    refused_year("board of a year too long", BOOK_LENGTH, 1964, board, RIVER_BOARD_LENGTH + 1, REPORTS_LENGTH);
    refused_year("list too short", BOOK_LENGTH, 1964, board, RIVER_BOARD_LENGTH, REPORTS_LENGTH - 1);
    refused_year("May over its limit", BOOK_LENGTH, 1965, board, RIVER_BOARD_LENGTH, REPORTS_LENGTH);
    board[RIVER_BOARD_MONTH] = 12;
    refused_year("year on a board in month 12", BOOK_LENGTH, 1964, board, RIVER_BOARD_LENGTH, REPORTS_LENGTH);
    refused_year("the same, May over its limit", BOOK_LENGTH, 1965, board, RIVER_BOARD_LENGTH, REPORTS_LENGTH);
    refused_year("the same, list too short", BOOK_LENGTH, 1965, board, RIVER_BOARD_LENGTH, REPORTS_LENGTH - 1);
    board[RIVER_BOARD_MONTH] = 1;

    uint64_t *reports = numbers(REPORTS_LENGTH);
    print_answer("the rest of 1964", river_run_year(file, length, book, BOOK_LENGTH, 1964, board, RIVER_BOARD_LENGTH,
                                                    reports, REPORTS_LENGTH));
    printf("next month %" PRIu64 "\n", board[RIVER_BOARD_MONTH]);
    print_rights("the year", board);
    for (size_t place = 11 * REPORT_LENGTH; place < REPORTS_LENGTH; place++)
        if (reports[place] != 99)
            printf("    the list is changed at %zu\n", place);
    free(reports);
}

/* Boards with a number that is not possible, in the month and in the words of short months; no right is looked at. */
static void impossible(uint64_t *board)
{
    board[RIVER_BOARD_MONTH] = 12;
    refused("board in month 12", STATIONS, 0, board, RIVER_BOARD_LENGTH, REPORT_LENGTH);
    refused("the same, runoff over its limit", STATIONS, UINT32_MAX, board, RIVER_BOARD_LENGTH, REPORT_LENGTH);
    print_stock("stock", board, RIVER_BOARD_LENGTH);
    print_months("month 12", board, RIVER_BOARD_LENGTH, 0);
    print_months("month 12", board, RIVER_BOARD_LENGTH, SIZE_MAX);
    board[RIVER_BOARD_MONTH] = 0;
    board[RIVER_BOARD_SHORT(RIGHTS)] = 1;
    refused("a word of right 5", STATIONS, 0, board, RIVER_BOARD_LENGTH, REPORT_LENGTH);
    print_months("a word of right 5", board, RIVER_BOARD_LENGTH, RIGHTS);
    board[RIVER_BOARD_SHORT(RIGHTS)] = 0;
    board[RIVER_BOARD_SHORT(0)] |= 1 << 12;
    refused("a bit above September's", STATIONS, 0, board, RIVER_BOARD_LENGTH, REPORT_LENGTH);
    print_months("a bit above September's", board, RIVER_BOARD_LENGTH, 0);
    print_stock("stock", board, RIVER_BOARD_LENGTH);
}

int main(int count, char **names)
{
    if (count != 2 || (file = read_file(names[1], &length)) == NULL)
        return 1;
    uint64_t *board = numbers(RIVER_BOARD_LENGTH);
    uint64_t *shorter = numbers(RIVER_BOARD_LENGTH - 1);
    uint32_t *runoff = runoff_of(STATIONS, 2000, 700);
    runoff[2] = 300;

    print_answer("check of no bytes", river_verdict(NULL, 0));
    print_answer("fresh of no file", river_fresh(NULL, 0, board, RIVER_BOARD_LENGTH));
    print_answer("fresh of no board", river_fresh(file, length, NULL, 0));
    print_answer("fresh on a short board", river_fresh(file, length, shorter, RIVER_BOARD_LENGTH - 1));
    print_answer("month of no list", river_month(NULL, 0, NULL, 0, NULL, 0, NULL, 0));
    print_answer("month of no list but the file", river_month(file, length, NULL, 0, NULL, 0, NULL, 0));
    print_stock("stock of no board", NULL, 0);
    print_stock("stock of a board of 99", board, RIVER_BOARD_LENGTH);
    print_months("no board", NULL, 0, 0);
    print_months("a short board", shorter, RIVER_BOARD_LENGTH - 1, 0);
    print_months("a board of 99", board, RIVER_BOARD_LENGTH, 0);
    for (size_t place = 0; place < RIVER_BOARD_LENGTH; place++)
        if (board[place] != 99 || (place + 1 < RIVER_BOARD_LENGTH && shorter[place] != 99))
            printf("    a board is changed at %zu\n", place);

    patterns(runoff, board);
    october("October", runoff, board);
    print_rights("October", board);

    refused("runoff too short", STATIONS - 1, 0, board, RIVER_BOARD_LENGTH, REPORT_LENGTH);
    refused("runoff too long", STATIONS + 1, 0, board, RIVER_BOARD_LENGTH, REPORT_LENGTH);
    refused("board too short", STATIONS, 0, board, RIVER_BOARD_LENGTH - 1, REPORT_LENGTH);
    refused("board too long", STATIONS, 0, board, RIVER_BOARD_LENGTH + 1, REPORT_LENGTH);
    refused("report too short", STATIONS, 0, board, RIVER_BOARD_LENGTH, REPORT_LENGTH - 1);
    refused("runoff over its limit", STATIONS, RIVER_MOST_RUNOFF + 1, board, RIVER_BOARD_LENGTH, REPORT_LENGTH);
    book = write_book();
    years(board);
    impossible(board);

    free(file);
    free(book);
    free(board);
    free(shorter);
    free(runoff);
    return 0;
}
