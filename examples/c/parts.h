/* What the examples share: reading a file. */
#ifndef PARTS_H
#define PARTS_H

#include "tokenfinch.h"

#include <stdio.h>
#include <stdlib.h>

/* All bytes of a file, which the caller frees; null where they can't be had. */
static uint8_t *read_all(FILE *file, size_t *length)
{
    size_t room = 4096;
    uint8_t *bytes = malloc(room);
    *length = 0;
    while (bytes != NULL) {
        *length += fread(bytes + *length, 1, room - *length, file);
        if (*length < room)
            break;
        uint8_t *more = realloc(bytes, room *= 2);
        if (more == NULL)
            free(bytes);
        bytes = more;
    }
    if (bytes != NULL && ferror(file)) {
        free(bytes);
        bytes = NULL;
    }
    return bytes;
}

#endif
