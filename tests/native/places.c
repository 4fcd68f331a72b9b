/* That the places of river.h follow one another, from the first to the last of a board, of a report, of a book and of a
   store. It is compiled and not run. */
#include <assert.h>
#include "river.h"

static_assert(RIVER_BOARD_MONTH == 0, "a board begins with the month");
static_assert(RIVER_BOARD_STORAGE(0) == RIVER_BOARD_MONTH + 1, "then the storages");
static_assert(RIVER_BOARD_MARKS == RIVER_BOARD_STORAGE(RIVER_MOST_RESERVOIRS), "then the marks");
static_assert(RIVER_BOARD_TAKEN(0) == RIVER_BOARD_MARKS + 1, "then what was taken");
static_assert(RIVER_BOARD_DUE(0, 1) == RIVER_BOARD_TAKEN(RIVER_MOST_RIGHTS), "then the dues");
static_assert(RIVER_BOARD_DUE(1, 1) == RIVER_BOARD_DUE(0, 11) + 1, "row after row");
static_assert(RIVER_BOARD_SHORT(0) == RIVER_BOARD_DUE(RIVER_MOST_STATIONS, 1), "then the short months");
static_assert(RIVER_BOARD_SHORT(1) == RIVER_BOARD_SHORT(0) + 1, "right after right");
static_assert(RIVER_BOARD_LENGTH == RIVER_BOARD_SHORT(RIVER_MOST_RIGHTS), "to the end");
static_assert(RIVER_BOARD_LENGTH == 1226, "of 64 stations, 8 reservoirs and 256 rights");

static_assert(RIVER_REPORT_FROM_RIVER(0) == 0, "a report begins with the first right");
static_assert(RIVER_REPORT_FROM_STORAGE(0) == RIVER_REPORT_FROM_RIVER(0) + 1, "its part from storage");
static_assert(RIVER_REPORT_REASON(0) == RIVER_REPORT_FROM_STORAGE(0) + 1, "its reason");
static_assert(RIVER_REPORT_STATION(0) == RIVER_REPORT_REASON(0) + 1, "its station");
static_assert(RIVER_REPORT_FROM_RIVER(1) == RIVER_REPORT_STATION(0) + 1, "right after right");
static_assert(RIVER_REPORT_FLOW(5, 0) == RIVER_REPORT_FROM_RIVER(5), "then the stations");
static_assert(RIVER_REPORT_AVAILABLE(5, 0) == RIVER_REPORT_FLOW(5, 0) + 1, "two numbers each");
static_assert(RIVER_REPORT_FLOW(5, 1) == RIVER_REPORT_AVAILABLE(5, 0) + 1, "row after row");
static_assert(RIVER_REPORT_EVAPORATION(5, 3, 0) == RIVER_REPORT_FLOW(5, 3), "then the reservoirs");
static_assert(RIVER_REPORT_EVAPORATION(5, 3, 1) == RIVER_REPORT_EVAPORATION(5, 3, 0) + 1, "one number each");
static_assert(RIVER_REPORT_DEEP_LOSS(5, 3, 2) == RIVER_REPORT_EVAPORATION(5, 3, 1) + 1, "then the deep loss");
static_assert(RIVER_REPORT_LENGTH(5, 3, 2) == RIVER_REPORT_DEEP_LOSS(5, 3, 2) + 1, "to the end");
static_assert(RIVER_REPORT_LENGTH(5, 3, 1) == 28, "the worked October's");
static_assert(RIVER_REPORT_LONGEST == 1161, "of 256 rights, 64 stations and 8 reservoirs");

static_assert(RIVER_REPORTS_LENGTH(5, 3, 2) == 12 * RIVER_REPORT_LENGTH(5, 3, 2), "twelve reports");
static_assert(RIVER_REPORTS_LONGEST ==
                  RIVER_REPORTS_LENGTH(RIVER_MOST_RIGHTS, RIVER_MOST_STATIONS, RIVER_MOST_RESERVOIRS),
              "twelve of the longest");

static_assert(RIVER_BOOK_BODY(3, 2, 0) == 4 * (1 + 2 * 2), "a book begins with its contents");
static_assert(RIVER_BOOK_BODY(3, 2, 1) == RIVER_BOOK_BODY(3, 2, 0) + 4 * 12 * 3, "then body after body");
static_assert(RIVER_BOOK_LENGTH(3, 2) == RIVER_BOOK_BODY(3, 2, 2), "to the end");
static_assert(RIVER_BOOK_LENGTH(3, 0) == 4, "a book of no year");
static_assert(RIVER_BOOK_LONGEST == 4 * (1 + 2 * 20 + 20 * 12 * 64), "twenty years of 64 stations");

static_assert(RIVER_STORE_NAME(0) == 0, "a store begins with its names");
static_assert(RIVER_STORE_NAME(1) == RIVER_STORE_NAME(0) + RIVER_NAME_LENGTH, "name after name");
static_assert(RIVER_STORE_BOARD(0) == RIVER_STORE_NAME(RIVER_STORE_ENTRIES), "then its boards");
static_assert(RIVER_STORE_BOARD(1) == RIVER_STORE_BOARD(0) + sizeof(uint64_t) * RIVER_BOARD_LENGTH, "board after board");
static_assert(RIVER_STORE_LENGTH == RIVER_STORE_BOARD(RIVER_STORE_ENTRIES), "to the end");
static_assert(RIVER_STORE_LENGTH == 4 * 8 + 4 * 1226 * 8, "four names and four boards");

static_assert(sizeof(struct river_answer) == 16, "two numbers");
static_assert(sizeof(struct river_sums) == 32, "four numbers");
static_assert(sizeof(struct river_months) == 24, "three numbers");
