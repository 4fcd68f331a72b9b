/* The calls on a store: two boards saved, recalled and dropped; then with one list wrong each time, which changes
   nothing. Every list lies in memory of just its length, so that valgrind sees a read or a write beyond it; store and
   names lie at odd addresses too. */
#include <inttypes.h>
#include <stdio.h>
#include <stdlib.h>
#include <string.h>
#include "river.h"

/* Memory of just this length behind so many bytes more. */
static uint8_t *bytes(size_t before, size_t length)
{
    uint8_t *list = (uint8_t *)malloc(before + length);
    if (list == NULL)
        exit(1);
    memset(list, 0, before + length);
    return list;
}

/* Some numbers, each another, the highest near 2^64. */
static uint64_t *numbers(size_t count, uint64_t from)
{
    uint64_t *list = (uint64_t *)malloc(count * sizeof *list);
    if (list == NULL)
        exit(1);
    for (size_t place = 0; place < count; place++)
        list[place] = from - place;
    return list;
}

static void print_answer(const char *what, struct river_answer answer)
{
    printf("%s: %" PRIu64 " %" PRIu64 "\n", what, answer.number, answer.place);
}

/* A name of so many bytes, of the letter, with zeros behind it. */
static uint8_t *name_of(char letter, size_t length)
{
    uint8_t *name = bytes(0, length);
    if (length > 0)
        name[0] = (uint8_t)letter;
    return name;
}

/* All three calls under one name, with lists of these lengths that are to stay as they are. */
static void refused(const char *what, const uint8_t *store, size_t store_length, char letter, size_t name_length,
                    size_t board_length)
{
    uint8_t *lent = bytes(0, store_length), *name = name_of(letter, name_length);
    uint64_t *board = numbers(board_length, 5000), *blank = numbers(board_length, 5000);
    size_t copied = store_length < RIVER_STORE_LENGTH ? store_length : RIVER_STORE_LENGTH;
    memcpy(lent, store, copied);
    printf("%s, ", what);
    print_answer("save", river_save(lent, store_length, name, name_length, board, board_length));
    printf("%s, ", what);
    print_answer("recall", river_recall(lent, store_length, name, name_length, board, board_length));
    if (board_length == RIVER_BOARD_LENGTH) {
        printf("%s, ", what);
        print_answer("drop", river_drop(lent, store_length, name, name_length));
    }
    if (memcmp(lent, store, copied) != 0)
        printf("    the store is changed\n");
    if (memcmp(board, blank, board_length * sizeof *board) != 0)
        printf("    the board is changed\n");
    free(lent);
    free(name);
    free(board);
    free(blank);
}

/* Saves a board of these numbers and tells whether it is recalled as it was. */
static void save(const char *what, uint8_t *store, const uint8_t *name, uint64_t from)
{
    uint64_t *board = numbers(RIVER_BOARD_LENGTH, from), *recalled = numbers(RIVER_BOARD_LENGTH, 0);
    print_answer(what, river_save(store, RIVER_STORE_LENGTH, name, RIVER_NAME_LENGTH, board, RIVER_BOARD_LENGTH));
    print_answer(what,
                 river_recall(store, RIVER_STORE_LENGTH, name, RIVER_NAME_LENGTH, recalled, RIVER_BOARD_LENGTH));
    if (memcmp(board, recalled, RIVER_BOARD_LENGTH * sizeof *board) != 0)
        printf("    another board is recalled\n");
    free(board);
    free(recalled);
}

/* Entry by entry, the last too; what is told of it lies where river.h has its place. */
static void fill(uint8_t *store)
{
    for (size_t entry = 0; entry < RIVER_STORE_ENTRIES; entry++) {
        uint8_t *memory = bytes(entry, RIVER_NAME_LENGTH), *name = memory + entry;
        name[0] = (uint8_t)('A' + entry);
        name[7] = (uint8_t)entry;
        save("a new name", store, name, UINT64_MAX - entry);
        save("the same name", store, name, UINT64_MAX - 256 * entry);
        printf("entry %zu: %c, %d, %d\n", entry, store[RIVER_STORE_NAME(entry)], store[RIVER_STORE_NAME(entry) + 7],
               store[RIVER_STORE_BOARD(entry) + 1]);
        free(memory);
    }
}

int main(void)
{
    for (size_t before = 0; before < 9; before += 3) {
        uint8_t *memory = bytes(before, RIVER_STORE_LENGTH), *store = memory + before;
        fill(store);
        uint8_t *name = name_of('A', RIVER_NAME_LENGTH);
        print_answer("drop", river_drop(store, RIVER_STORE_LENGTH, name, RIVER_NAME_LENGTH));
        printf("entry 0: %d, %d\n", store[RIVER_STORE_NAME(0)], store[RIVER_STORE_BOARD(0)]);
        print_answer("drop again", river_drop(store, RIVER_STORE_LENGTH, name, RIVER_NAME_LENGTH));
        save("save again", store, name, 5);
        free(name);
        if (before == 0) {
            refused("no name of four", store, RIVER_STORE_LENGTH, 'Z', 8, 1226);
            refused("name of zeros", store, RIVER_STORE_LENGTH, 0, 8, 1226);
            refused("store too short", store, RIVER_STORE_LENGTH - 1, 'A', 8, 1226);
            refused("store too long", store, RIVER_STORE_LENGTH + 1, 'A', 8, 1226);
            refused("name too short", store, RIVER_STORE_LENGTH, 'A', 7, 1226);
            refused("name too long", store, RIVER_STORE_LENGTH, 'A', 9, 1226);
            refused("board too short", store, RIVER_STORE_LENGTH, 'A', 8, 1225);
            refused("board too long", store, RIVER_STORE_LENGTH, 'A', 8, 1227);
            refused("name of zeros, board too long", store, RIVER_STORE_LENGTH, 0, 8, 1227);
        }
        free(memory);
    }
    print_answer("save of no list", river_save(NULL, 0, NULL, 0, NULL, 0));
    print_answer("recall of no list", river_recall(NULL, 0, NULL, 0, NULL, 0));
    print_answer("drop of no list", river_drop(NULL, 0, NULL, 0));
    return 0;
}
