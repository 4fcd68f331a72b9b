/* river_fresh: the board on which a basin begins. */
#include <inttypes.h>
#include <stdio.h>
#include <stdlib.h>
#include "read_file.h"
#include "river.h"

int main(int count, char **names)
{
    if (count != 2) {
        fprintf(stderr, "usage: %s BASIN\n", names[0]);
        return 2;
    }
    size_t length;
    uint8_t *file = read_file(names[1], &length);
    if (file == NULL)
        return 1;
    uint64_t board[RIVER_BOARD_LENGTH];
    struct river_answer answer = river_fresh(file, length, board, RIVER_BOARD_LENGTH);
    if (answer.number != RIVER_ACCEPTED) {
        printf("refused %" PRIu64 " %" PRIu64 "\n", answer.number, answer.place);
    } else {
        printf("next month %" PRIu64 "\n", board[RIVER_BOARD_MONTH]);
        for (size_t reservoir = 0; reservoir < RIVER_RESERVOIRS(file); reservoir++)
            printf("reservoir %zu holds %" PRIu64 "\n", reservoir, board[RIVER_BOARD_STORAGE(reservoir)]);
    }
    free(file);
    return answer.number != RIVER_ACCEPTED;
}
