/* river_month: the months of a runoff file, sheet after sheet of one number for each station, from the fresh board. */
#include <inttypes.h>
#include <stdio.h>
#include <stdlib.h>
#include "read_file.h"
#include "river.h"

/* A number of four bytes, the least first. */
static uint32_t number_at(const uint8_t *bytes)
{
    return bytes[0] | (uint32_t)bytes[1] << 8 | (uint32_t)bytes[2] << 16 | (uint32_t)bytes[3] << 24;
}

static void print_report(const uint8_t *file, const uint64_t *report)
{
    size_t rights = RIVER_RIGHTS(file), stations = RIVER_STATIONS(file), reservoirs = RIVER_RESERVOIRS(file);
    for (size_t right = 0; right < rights; right++)
        printf("right %zu: river %" PRIu64 ", storage %" PRIu64 ", reason %" PRIu64 ", station %" PRIu64 "\n", right,
               report[RIVER_REPORT_FROM_RIVER(right)], report[RIVER_REPORT_FROM_STORAGE(right)],
               report[RIVER_REPORT_REASON(right)], report[RIVER_REPORT_STATION(right)]);
    for (size_t row = 0; row < stations; row++)
        printf("row %zu: flow %" PRIu64 ", available %" PRIu64 "\n", row, report[RIVER_REPORT_FLOW(rights, row)],
               report[RIVER_REPORT_AVAILABLE(rights, row)]);
    for (size_t reservoir = 0; reservoir < reservoirs; reservoir++)
        printf("reservoir %zu: evaporation %" PRIu64 "\n", reservoir,
               report[RIVER_REPORT_EVAPORATION(rights, stations, reservoir)]);
    printf("deep loss %" PRIu64 "\n", report[RIVER_REPORT_DEEP_LOSS(rights, stations, reservoirs)]);
}

/* Answers what the first refused call does, or the last call of all. */
static struct river_answer run_months(const uint8_t *file, size_t length, const uint8_t *months, size_t bytes)
{
    uint64_t board[RIVER_BOARD_LENGTH], report[RIVER_REPORT_LONGEST];
    uint32_t runoff[RIVER_MOST_STATIONS];
    struct river_answer answer = river_fresh(file, length, board, RIVER_BOARD_LENGTH);
    for (size_t at = 0; answer.number == RIVER_ACCEPTED && at < bytes;) {
        /* A last sheet that is cut short is lent as it is, and refused. */
        size_t stations = 0;
        for (; stations < RIVER_STATIONS(file) && bytes - at >= 4; stations++, at += 4)
            runoff[stations] = number_at(months + at);
        answer = river_month(file, length, runoff, stations, board, RIVER_BOARD_LENGTH, report, RIVER_REPORT_LONGEST);
        if (answer.number != RIVER_ACCEPTED)
            break;
        printf("%" PRIu64 " rights short, next month %" PRIu64 "\n", answer.place, board[RIVER_BOARD_MONTH]);
        print_report(file, report);
    }
    return answer;
}

int main(int count, char **names)
{
    if (count != 3) {
        fprintf(stderr, "usage: %s BASIN MONTHS\n", names[0]);
        return 2;
    }
    size_t length, bytes;
    uint8_t *file = read_file(names[1], &length);
    uint8_t *months = read_file(names[2], &bytes);
    if (file == NULL || months == NULL)
        return 1;
    struct river_answer answer = run_months(file, length, months, bytes);
    if (answer.number != RIVER_ACCEPTED)
        printf("refused %" PRIu64 " %" PRIu64 "\n", answer.number, answer.place);
    free(file);
    free(months);
    return answer.number != RIVER_ACCEPTED;
}
