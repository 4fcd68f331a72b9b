/* river_verdict: a line for each basin file named, as the program rivercheck prints it. With no file named it is the
   verdict on no bytes at all. */
#include <inttypes.h>
#include <stdio.h>
#include <stdlib.h>
#include "read_file.h"
#include "river.h"

static void print_verdict(const char *name, const uint8_t *file, size_t length)
{
    struct river_answer answer = river_verdict(file, length);
    if (answer.number == RIVER_ACCEPTED)
        printf("%s accepted\n", name);
    else
        printf("%s refused %" PRIu64 " %" PRIu64 "\n", name, answer.number, answer.place);
}

int main(int count, char **names)
{
    if (count < 2)
        print_verdict("no bytes", NULL, 0);
    for (int i = 1; i < count; i++) {
        size_t length;
        uint8_t *file = read_file(names[i], &length);
        if (file == NULL)
            printf("%s cannot be read\n", names[i]);
        else
            print_verdict(names[i], file, length);
        free(file);
    }
    return 0;
}
