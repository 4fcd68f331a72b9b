/* Reading a whole file, as every example needs it. */
#ifndef READ_FILE_H
#define READ_FILE_H

#include <stdint.h>
#include <stdio.h>
#include <stdlib.h>

/* All bytes of a file, of any length and from a pipe too, in memory of just their number, to be freed by the caller.
   NULL where they cannot be read to their end; the reason is then on standard error. */
static uint8_t *read_file(const char *path, size_t *length)
{
    uint8_t *bytes = NULL, *moved;
    size_t room = 0, got = 0;
    FILE *file = fopen(path, "rb");
    if (file == NULL) {
        perror(path);
        return NULL;
    }
    do {
        room = 2 * room + 4096;
        moved = (uint8_t *)realloc(bytes, room);
        if (moved == NULL)
            goto failed;
        bytes = moved;
        got += fread(bytes + got, 1, room - got, file);
    } while (got == room);
    if (ferror(file))
        goto failed;
    fclose(file);
    *length = got;
    /* No room is left over, so that a tool sees a read beyond the file. */
    moved = (uint8_t *)realloc(bytes, got == 0 ? 1 : got);
    return moved == NULL ? bytes : moved;
failed:
    perror(path);
    free(bytes);
    fclose(file);
    return NULL;
}

#endif
