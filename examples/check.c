/* river_check: the number of each basin file named, 0 for one that is accepted. */
#include <stdio.h>
#include <stdlib.h>
#include "read_file.h"
#include "river.h"

int main(int count, char **names)
{
    for (int i = 1; i < count; i++) {
        size_t length;
        uint8_t *file = read_file(names[i], &length);
        if (file == NULL)
            return 1;
        printf("%s: %d\n", names[i], (int)river_check(file, length));
        free(file);
    }
    return 0;
}
