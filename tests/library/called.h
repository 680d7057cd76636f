/* What the C callers have in common: blocks of just the length that they need, and allocations of the library's calls
   that are refused, or given back and kept. It is linked with --wrap=malloc, --wrap=realloc and --wrap=free. */
#ifndef CALLED_H
#define CALLED_H

#include <stdint.h>
#include <stdio.h>
#include <stdlib.h>
#include <string.h>

enum { NEVER = -1, MARK = 0xa5, BEHIND = 16, UNMADE = 12345 };

typedef struct { uint8_t *bytes; size_t length; } text;

/* which allocation fails, which freed block is kept, and how many there were since the last `begin` */
static long fail_at = NEVER, keep_at = NEVER, asked, freed;
/* whether the library runs (volatile, since a compiler takes it that malloc does not read it), and how many blocks it has */
static volatile int in_call;
static long held;

void *__real_malloc(size_t), *__real_realloc(void *, size_t);
void __real_free(void *);

/* the block that an allocation gave, in place of none or of an older one */
static void *counted(void *given, const void *older) {
    held += in_call && given && !older;
    return given;
}

void *__wrap_malloc(size_t size) {
    return in_call && asked++ == fail_at ? NULL : counted(__real_malloc(size), NULL);
}
void *__wrap_realloc(void *block, size_t size) {
    return in_call && asked++ == fail_at ? NULL : counted(__real_realloc(block, size), block);
}
void __wrap_free(void *block) {
    if (in_call && block && freed++ == keep_at) return;
    held -= in_call && block;
    __real_free(block);
}

static void begin(void) { asked = freed = 0; }

static void must(int holds, const char *what, const char *where) {
    if (holds) return;
    printf("%s: %s\n", where, what);
    exit(1);
}

/* The bytes of a file, in a block of just their length. */
static text read_file(const char *path) {
    FILE *file = fopen(path, "rb");
    must(file && !fseek(file, 0, SEEK_END), "cannot be read", path);
    text read = { NULL, (size_t)ftell(file) };
    rewind(file);
    read.bytes = malloc(read.length ? read.length : 1);
    must(fread(read.bytes, 1, read.length, file) == read.length, "cannot be read", path);
    fclose(file);
    return read;
}

/* A block of just this length, every byte of which has the mark. */
static uint8_t *marked(size_t length) {
    uint8_t *out = malloc(length ? length : 1);
    memset(out, MARK, length);
    return out;
}

static int is_marked(const uint8_t *bytes, size_t length) {
    for (size_t at = 0; at < length; at++) {
        if (bytes[at] != MARK) return 0;
    }
    return 1;
}

#endif
