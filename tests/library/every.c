/* Calls the library on each script of a list on standard input, whose lines are MODE STATUS SCRIPT TEXT, and compares
   what it gives with the text. With the word `fail` every allocation of a call fails in turn, and with the word `leak`
   one block that a call gives back is kept. */
#include "called.h"
#include "gakyhera.h"

enum { KEPT_BLOCK = 3 };

typedef int call(const uint8_t *, size_t, uint8_t *, size_t, size_t *);

static int called(call *run, text script, uint8_t *out, size_t room, size_t *made) {
    begin();
    in_call = 1;
    int status = run(script.bytes, script.length, out, room, made);
    in_call = 0;
    return status;
}

/* Gives the call so much room, in a block of just that length, and looks at all that it leaves. */
static int tried(call *run, text script, text right, int status, size_t room, const char *path) {
    uint8_t *out = marked(room);
    size_t made = UNMADE;
    int given = called(run, script, out, room, &made);
    if (given == GAKYHERA_OUT_OF_MEMORY) {
        must(fail_at != NEVER && made == UNMADE && is_marked(out, room), "changed without memory", path);
    } else if (room < right.length) {
        must(given == GAKYHERA_TOO_SMALL && made == right.length, "must be too small", path);
        must(is_marked(out, room), "changed where it is too small", path);
    } else {
        must(given == status && made == right.length, "another status or length", path);
        must(!memcmp(out, right.bytes, made), "another text", path);
        must(is_marked(out + made, room - made), "changed behind the text", path);
    }
    free(out);
    return given;
}

/* Lets each allocation of a call fail in turn, and returns how many calls lacked memory. */
static long failed(call *run, text script, text right, int status, const char *path) {
    long lacked = 0, last = 0;
    for (fail_at = 0; fail_at <= last; fail_at++) {
        lacked += tried(run, script, right, status, right.length, path) == GAKYHERA_OUT_OF_MEMORY;
        last = asked;
    }
    fail_at = NEVER;
    return lacked;
}

int main(int count, char **words) {
    char mode[8], path[512], text_path[512];
    long scripts = 0, lacked = 0;
    int status, fails = count > 1 && !strcmp(words[1], "fail");
    if (count > 1 && !strcmp(words[1], "leak")) keep_at = KEPT_BLOCK;
    while (scanf("%7s %d %511s %511s", mode, &status, path, text_path) == 4) {
        call *run = strcmp(mode, "fold") ? gakyhera_turns : gakyhera_fold;
        text script = read_file(path), right = read_file(text_path);
        tried(run, script, right, status, right.length, path);
        tried(run, script, right, status, right.length + BEHIND, path);
        tried(run, script, right, status, right.length - 1, path);
        tried(run, script, right, status, 0, path);
        if (fails) lacked += failed(run, script, right, status, path);
        free(script.bytes), free(right.bytes);
        scripts++;
    }
    printf("%ld scripts, %ld calls without memory\n", scripts, lacked);
}
