/* Reads a whole file, or standard input, into memory. */
#ifndef LOAD_H
#define LOAD_H

#include <stdint.h>
#include <stdio.h>
#include <stdlib.h>

/* The bytes of an open file, from malloc, and how many they are; NULL where reading or memory fails. */
static uint8_t *load_from(FILE *file, size_t *length) {
    size_t room = 65536, got;
    uint8_t *text = malloc(room);
    *length = 0;
    while (text && (got = fread(text + *length, 1, room - *length, file)) > 0) {
        *length += got;
        if (*length == room) {
            uint8_t *more = realloc(text, room *= 2);
            if (!more)
                free(text);
            text = more;
        }
    }
    if (text && ferror(file)) {
        free(text);
        text = NULL;
    }
    return text;
}

/* The bytes of the file of this name. */
static uint8_t *load(const char *path, size_t *length) {
    FILE *file = fopen(path, "rb");
    uint8_t *text = file ? load_from(file, length) : NULL;
    if (file)
        fclose(file);
    return text;
}

#endif
