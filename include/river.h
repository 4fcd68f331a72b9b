/* The river ledger's calls, for C and C++. All of them are in libledger.a.

   A list is lent as a pointer and a length. Any bytes and any numbers may stand in it; an empty list may have a null
   pointer. The lists of one call must not overlap: what is promised of a call is promised for lists that lie apart.
   No call allocates, and each needs less than 4096 bytes of stack (measured on x86-64, not proved).

   Volumes are hundredths of an acre-foot. Months go from 0, which is October, to 11; a water year is twelve of them,
   from October on. Stations, reservoirs, patterns and rights are counted from 0 in the order of the file, and a
   station's place in it is its row. */
#ifndef RIVER_H
#define RIVER_H

#include <stddef.h>
#include <stdint.h>

#ifdef __cplusplus
extern "C" {
#endif

/* ---- What the calls answer ---- */

struct river_answer {
    uint64_t number; /* a river_refusal */
    uint64_t place;
};

struct river_sums {
    uint64_t number;
    uint64_t place;
    uint64_t storage; /* both sums are 0 where the call is refused */
    uint64_t due;
};

struct river_months {
    uint64_t number;
    uint64_t place;
    uint64_t months; /* 0 where the call is refused */
};

/* The numbers, and the place that goes with each. Of several that apply the lowest is answered, but for 9 and 10, which
   come after 5 and before 6. A refused call writes nothing. */
enum river_refusal {
    RIVER_ACCEPTED = 0,      /* place 0; of a month, how many rights are short; of a year, how many months were run */
    RIVER_BAD_LAYOUT = 1,    /* place 0: a file cut short, a count out of range, parts that do not lie end to end */
    RIVER_BAD_STATION = 2,   /* the first row at fault */
    RIVER_BAD_RESERVOIR = 3, /* the first reservoir at fault */
    RIVER_BAD_PATTERN = 4,   /* the first delay pattern at fault: one whose percents sum to more than 100 */
    RIVER_BAD_RIGHT = 5,     /* the first right at fault */
    RIVER_BAD_LENGTH = 6,    /* place 0: runoff not one to a station, a board of another length, a report too short, a
                                list too short for the reports of twelve months, a store or a name of another length */
    RIVER_BAD_BOARD = 7,     /* place 0: a board that no run of months can leave */
    RIVER_BAD_RUNOFF = 8,    /* the first row whose runoff is above RIVER_MOST_RUNOFF, in the first such month */
    RIVER_BAD_BOOK = 9,      /* place 0: a runoff book that breaks its layout */
    RIVER_NO_YEAR = 10,      /* place 0: a year that the book does not list */
    RIVER_BAD_NAME = 11,     /* place 0: a name of zeros alone, or one to be recalled or dropped that is not there */
    RIVER_STORE_FULL = 12    /* place 0: a new name that finds no empty entry */
};

/* ---- How many records a file has, and the most of each, and of runoff ---- */

/* Only for a file that was accepted. */
#define RIVER_STATIONS(file) ((size_t)(file)[4])
#define RIVER_RESERVOIRS(file) ((size_t)(file)[12])
#define RIVER_RIGHTS(file) ((size_t)(file)[28] + 256 * (size_t)(file)[29])

#define RIVER_MOST_STATIONS 64
#define RIVER_MOST_RESERVOIRS 8
#define RIVER_MOST_RIGHTS 256
#define RIVER_MOST_RUNOFF 1000000000 /* at a row in a month */
#define RIVER_MOST_YEARS 20          /* in a runoff book */

/* ---- The places of a board, which is all that one month hands to the next ---- */

#define RIVER_BOARD_LENGTH 1226
#define RIVER_BOARD_MONTH 0                                      /* the month to be run next */
#define RIVER_BOARD_STORAGE(reservoir) (1 + (size_t)(reservoir)) /* 1 to 8: what it holds */
#define RIVER_BOARD_MARKS 9                                      /* bit v: reservoir v was filled since October */
#define RIVER_BOARD_TAKEN(right) (10 + (size_t)(right))          /* 10 to 265: what it has stored since October */
/* 266 to 969, eleven for each row: what returns there in the month to be run next, k = 1, and in the ten after it, k = 2
   to 11. */
#define RIVER_BOARD_DUE(row, k) (266 + 11 * (size_t)(row) + ((size_t)(k) - 1))
/* 970 to 1225: bit m tells whether the right was short in month m of the water year. A month writes its own bit alone,
   but for October, which clears the others too. */
#define RIVER_BOARD_SHORT(right) (970 + (size_t)(right))

/* ---- The places of a report; `rights` and `stations` are how many there are ---- */

/* Four for each right: granted from the river, granted from storage, the reason, the number of the station it names. */
#define RIVER_REPORT_FROM_RIVER(right) (4 * (size_t)(right))
#define RIVER_REPORT_FROM_STORAGE(right) (RIVER_REPORT_FROM_RIVER(right) + 1)
#define RIVER_REPORT_REASON(right) (RIVER_REPORT_FROM_RIVER(right) + 2)
#define RIVER_REPORT_STATION(right) (RIVER_REPORT_FROM_RIVER(right) + 3)
/* Then two for each station: the river's flow, and what of it is available to later rights. */
#define RIVER_REPORT_FLOW(rights, row) (RIVER_REPORT_FROM_RIVER(rights) + 2 * (size_t)(row))
#define RIVER_REPORT_AVAILABLE(rights, row) (RIVER_REPORT_FLOW(rights, row) + 1)
/* Then one for each reservoir: what evaporated. */
#define RIVER_REPORT_EVAPORATION(rights, stations, reservoir) \
    (RIVER_REPORT_FLOW(rights, stations) + (size_t)(reservoir))
/* Then one for the whole basin: what of the month's returns goes deep and never comes back to the river. It is what the
   patterns' percents leave of them, where these sum to less than 100. */
#define RIVER_REPORT_DEEP_LOSS(rights, stations, reservoirs) RIVER_REPORT_EVAPORATION(rights, stations, reservoirs)

/* A report may be longer than its basin needs; what lies beyond stays as it was. The longest is enough for all. */
#define RIVER_REPORT_LENGTH(rights, stations, reservoirs) (RIVER_REPORT_DEEP_LOSS(rights, stations, reservoirs) + 1)
#define RIVER_REPORT_LONGEST RIVER_REPORT_LENGTH(RIVER_MOST_RIGHTS, RIVER_MOST_STATIONS, RIVER_MOST_RESERVOIRS)

/* The reports of a year stand one after another, each of the least length, in the order of the months that were run.
   The list has room for twelve of them even where fewer months are left; what lies beyond those that were run stays as
   it was. */
#define RIVER_REPORTS_LENGTH(rights, stations, reservoirs) (12 * RIVER_REPORT_LENGTH(rights, stations, reservoirs))
#define RIVER_REPORTS_LONGEST (12 * RIVER_REPORT_LONGEST)

/* Why a right has what it has, and the station that is named. */
enum river_reason {
    RIVER_NOT_SHORT = 0,  /* it has all it asked for; 0 */
    RIVER_CALLED = 1,     /* a senior right is short: at the first such station from its own row downstream */
    RIVER_RIVER_LOW = 2,  /* the river had no more to give: the first station, likewise, where the least was available */
    RIVER_STORAGE_LOW = 3 /* river and reservoir together gave a project right too little; the reservoir's station */
};

/* ---- A runoff book: water years of one basin ---- */

/* All numbers have four bytes, the least first: how many years there are, 0 to RIVER_MOST_YEARS; for each the year,
   1800 to 2200 and above the one before, and the offset of its body; then the bodies in the same order. A body is
   twelve sheets from October on, each of one runoff number for each station. The first body follows the contents, each
   other one the body before it, and with the last the book ends; a book of no year has four bytes. */
#define RIVER_BOOK_BODY(stations, years, place) \
    (4 + 8 * (size_t)(years) + 48 * (size_t)(stations) * (size_t)(place)) /* the offset of the body at a place */
#define RIVER_BOOK_LENGTH(stations, years) RIVER_BOOK_BODY(stations, years, years)
#define RIVER_BOOK_LONGEST RIVER_BOOK_LENGTH(RIVER_MOST_STATIONS, RIVER_MOST_YEARS)

/* ---- A store: boards under names ---- */

/* Four names of eight bytes, then four boards in the same order, each of RIVER_BOARD_LENGTH numbers of eight bytes, the
   least first. A name is any eight bytes but zeros alone, which mark an empty entry; of one that stands twice the
   earlier entry is meant. A store of zeros is empty: `static uint8_t store[RIVER_STORE_LENGTH];` is one. */
#define RIVER_STORE_LENGTH 39264
#define RIVER_STORE_ENTRIES 4
#define RIVER_NAME_LENGTH 8
#define RIVER_STORE_NAME(entry) (RIVER_NAME_LENGTH * (size_t)(entry)) /* the offset of an entry's name */
#define RIVER_STORE_BOARD(entry) \
    (RIVER_STORE_NAME(RIVER_STORE_ENTRIES) + 8 * RIVER_BOARD_LENGTH * (size_t)(entry)) /* and of its board */

/* ---- The calls ---- */

/* Checks a basin file and answers a number alone, 0 to 5.

       if (river_check(file, length) == RIVER_ACCEPTED)
           puts("accepted"); */
uint32_t river_check(const uint8_t *file, size_t length);

/* Checks a basin file and answers number and place.

       struct river_answer answer = river_verdict(file, length);
       if (answer.number == RIVER_BAD_RIGHT)
           printf("right %d is at fault\n", (int)answer.place); */
struct river_answer river_verdict(const uint8_t *file, size_t length);

/* Writes the board on which a basin begins: the storages of the file, nothing taken, nothing due, no right short.
   Refusals 1 to 6.

       uint64_t board[RIVER_BOARD_LENGTH];
       struct river_answer answer = river_fresh(file, length, board, RIVER_BOARD_LENGTH); */
struct river_answer river_fresh(const uint8_t *file, size_t length, uint64_t *board, size_t board_length);

/* Runs the next month of a board with one runoff number for each station; writes the board it leaves and its report.
   What it reports of a right depends on no right after it in the file.

       uint32_t runoff[3] = {2000, 700, 300};
       uint64_t report[RIVER_REPORT_LONGEST];
       struct river_answer answer =
           river_month(file, length, runoff, 3, board, RIVER_BOARD_LENGTH, report, RIVER_REPORT_LONGEST);
       if (answer.number == RIVER_ACCEPTED && report[RIVER_REPORT_REASON(2)] == RIVER_CALLED)
           puts("right 2 is called"); */
struct river_answer river_month(const uint8_t *file, size_t length, const uint32_t *runoff, size_t runoff_length,
                                uint64_t *board, size_t board_length, uint64_t *report, size_t report_length);

/* Adds up what a board has in storage and what is due, over the whole basin. Refusals 1 to 7.

       struct river_sums sums = river_stock(file, length, board, RIVER_BOARD_LENGTH);
       if (sums.number == RIVER_ACCEPTED)
           printf("%llu stored\n", (unsigned long long)sums.storage); */
struct river_sums river_stock(const uint8_t *file, size_t length, const uint64_t *board, size_t board_length);

/* Counts the months of the water year in which a right was short, as a board has kept them: after September those of
   the whole year, until October is run. Refusals 1 to 7; a right that the basin does not have is no refusal and has 0
   months.

       struct river_months told = river_short_months(file, length, board, RIVER_BOARD_LENGTH, 4);
       if (told.number == RIVER_ACCEPTED)
           printf("right 4 was short in %d months\n", (int)told.months); */
struct river_months river_short_months(const uint8_t *file, size_t length, const uint64_t *board, size_t board_length,
                                       size_t right);

/* Looks a year up in a runoff book of the basin. Refusals 1 to 5, 9 and 10; no runoff number is looked at.

       struct river_answer answer = river_find_year(file, length, book, book_length, 1964);
       if (answer.number == RIVER_NO_YEAR)
           puts("1964 is not in the book"); */
struct river_answer river_find_year(const uint8_t *file, size_t length, const uint8_t *book, size_t book_length,
                                    uint32_t year);

/* Runs the months of a year, with the sheets of a runoff book, from the month that the board has come to up to
   September: the board is left as after these months, and their reports stand one after another from the beginning of
   the list. Sheets of months before are not looked at. All months are run or none.

       static uint64_t reports[RIVER_REPORTS_LONGEST];
       struct river_answer answer = river_run_year(file, length, book, book_length, 1964, board, RIVER_BOARD_LENGTH,
                                                   reports, RIVER_REPORTS_LONGEST);
       if (answer.number == RIVER_ACCEPTED)
           printf("%d months\n", (int)answer.place); */
struct river_answer river_run_year(const uint8_t *file, size_t length, const uint8_t *book, size_t book_length,
                                   uint32_t year, uint64_t *board, size_t board_length, uint64_t *reports,
                                   size_t reports_length);

/* Saves a board in a store: in place of the one under that name, or in the earliest empty entry. No basin is taken, so
   that any numbers are saved. Refusals 6, 11 and 12.

       static uint8_t store[RIVER_STORE_LENGTH];
       const uint8_t march[RIVER_NAME_LENGTH] = {'M', 'A', 'R', 'C', 'H'};
       struct river_answer answer = river_save(store, RIVER_STORE_LENGTH, march, RIVER_NAME_LENGTH, board,
                                               RIVER_BOARD_LENGTH);
       if (answer.number == RIVER_STORE_FULL)
           puts("four other boards are saved"); */
struct river_answer river_save(uint8_t *store, size_t store_length, const uint8_t *name, size_t name_length,
                               const uint64_t *board, size_t board_length);

/* Writes the numbers of a saved board, exactly as they were saved. Whether they are possible for a basin the next call
   on the board judges. Refusals 6 and 11.

       struct river_answer answer = river_recall(store, RIVER_STORE_LENGTH, march, RIVER_NAME_LENGTH, board,
                                                 RIVER_BOARD_LENGTH);
       if (answer.number == RIVER_BAD_NAME)
           puts("no board is saved under that name"); */
struct river_answer river_recall(const uint8_t *store, size_t store_length, const uint8_t *name, size_t name_length,
                                 uint64_t *board, size_t board_length);

/* Drops a saved board: the entry's name is set to zeros, its other bytes stay, and the entry serves again. Refusals 6
   and 11.

       struct river_answer answer = river_drop(store, RIVER_STORE_LENGTH, march, RIVER_NAME_LENGTH); */
struct river_answer river_drop(uint8_t *store, size_t store_length, const uint8_t *name, size_t name_length);

#ifdef __cplusplus
}
#endif

#endif
