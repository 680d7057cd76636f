/* Compares what an implementation printed of a turns script with the right text, and prints the first line that differs.

   gcc example.c $(pkg-config --cflags --libs gakyhera) -o example && ./example SCRIPT.json TEXT */
#include "gakyhera.h"
#include <stdio.h>
#include <stdlib.h>
#include <string.h>

/* Room for `length` bytes and a zero byte after them. */
static uint8_t *resized(uint8_t *bytes, size_t length) {
    bytes = realloc(bytes, length + 1);
    if (!bytes) exit(2);
    return bytes;
}

/* The bytes of a file, with a zero byte after them. */
static uint8_t *read_file(const char *path, size_t *length) {
    FILE *file = fopen(path, "rb");
    if (!file || fseek(file, 0, SEEK_END)) exit(2);
    *length = (size_t)ftell(file);
    uint8_t *bytes = resized(NULL, *length);
    rewind(file);
    if (fread(bytes, 1, *length, file) != *length) exit(2);
    bytes[*length] = 0;
    fclose(file);
    return bytes;
}

int main(int count, char **words) {
    if (count != 3) return 2;
    size_t length, own_length, room, made = 4096, at = 0, line = 0, number = 1;
    uint8_t *script = read_file(words[1], &length), *own = read_file(words[2], &own_length), *text = NULL;
    int status;
    do {
        room = made;
        text = resized(text, room);
        status = gakyhera_turns(script, length, text, room, &made);
    } while (status == GAKYHERA_TOO_SMALL);
    if (status != GAKYHERA_DONE && status != GAKYHERA_REFUSED) return 2;
    text[made] = 0;
    for (; at < made && text[at] == own[at]; at++) {
        if (text[at] == '\n') line = at + 1, number++;
    }
    int differs = at < made || own_length != made;
    if (differs) printf("line %zu must be: %.*s\n", number, (int)strcspn((char *)text + line, "\n"), text + line);
    else puts("the same");
    free(script), free(own), free(text);
    return differs;
}
