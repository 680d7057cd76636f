/* Gives the library the lines of each session of a list on standard input, whose lines are LINES ANSWERS, and compares
   each answer. With the word `fail` some fifty allocations of each session fail in turn, or all of a small one, and the
   line is given again; with the word `leak` no session is freed. */
#include "called.h"
#include "gakyhera.h"

enum { SAMPLE = 50 };

static int forgets;
static long lacked, lost;

/* The next line without its line feed, or the next answer with its empty line. */
static text next(text whole, size_t *at, int feeds) {
    text part = { whole.bytes + *at, 0 };
    size_t end = *at;
    while (!(whole.bytes[end] == '\n' && (feeds == 1 || whole.bytes[end + 1] == '\n'))) end++;
    part.length = end - *at + (feeds == 1 ? 0 : 2);
    *at = end + feeds;
    return part;
}

/* The kept answer, in a block of just its length; in a smaller one it does not fit. */
static void must_keep(gakyhera_session *session, text right, const char *path) {
    for (size_t less = 0; less < 2 && less <= right.length; less++) {
        uint8_t *out = marked(right.length - less);
        size_t made = UNMADE;
        int status = gakyhera_session_answer(session, out, right.length - less, &made);
        must(status == (less ? GAKYHERA_TOO_SMALL : GAKYHERA_DONE), "another status of a kept answer", path);
        must(made == right.length, "another kept length", path);
        must(less ? is_marked(out, right.length - 1) : !memcmp(out, right.bytes, made), "another kept answer", path);
        free(out);
    }
}

/* Gives a line with so much room, and looks at all that the call leaves. */
static int given(gakyhera_session *session, text line, text right, size_t room, const char *path) {
    uint8_t *out = marked(room), *bytes = malloc(line.length ? line.length : 1);
    size_t made = UNMADE;
    memcpy(bytes, line.bytes, line.length);
    in_call = 1;
    int status = gakyhera_session_line(session, bytes, line.length, out, room, &made);
    in_call = 0;
    if (status == GAKYHERA_OUT_OF_MEMORY || status == GAKYHERA_ANSWER_LOST) {
        must(fail_at != NEVER && made == UNMADE && is_marked(out, room), "changed without memory", path);
        must(status == GAKYHERA_OUT_OF_MEMORY || room < right.length, "an answer that fits is lost", path);
    } else if (room < right.length) {
        must(status == GAKYHERA_TOO_SMALL && made == right.length, "must be too small", path);
        must(is_marked(out, room), "changed where it is too small", path);
    } else {
        must(status == GAKYHERA_DONE && made == right.length, "another status or length", path);
        must(!memcmp(out, right.bytes, made), "another answer", path);
        must(is_marked(out + made, room - made), "changed behind the answer", path);
    }
    free(out), free(bytes);
    return status;
}

/* A line that lacks memory changes nothing: the answer before is kept, and the line is given again. */
static void carried_out(
    gakyhera_session *session, text line, text right, text before, size_t room, const char *path) {
    int status;
    while ((status = given(session, line, right, room, path)) == GAKYHERA_OUT_OF_MEMORY) {
        lacked++;
        must_keep(session, before, path);
    }
    lost += status == GAKYHERA_ANSWER_LOST;
    if (status == GAKYHERA_ANSWER_LOST) right.length = 0;
    must_keep(session, right, path);
}

/* Without a session every call says so, and changes nothing. */
static void must_be_none(gakyhera_session *session, text line, const char *path) {
    uint8_t *out = marked(BEHIND);
    size_t made = UNMADE;
    int status = gakyhera_session_line(session, line.bytes, line.length, out, BEHIND, &made);
    must(status == GAKYHERA_NO_SESSION, "answers without a session", path);
    must(gakyhera_session_answer(session, out, BEHIND, &made) == status, "has an answer without a session", path);
    must(made == UNMADE && is_marked(out, BEHIND), "changed without a session", path);
    free(out);
}

/* Begins a session in place of the one that is there, which is freed; without memory it goes on. */
static void begin_again(gakyhera_session *session, text before, const char *path) {
    text none = { before.bytes, 0 };
    for (in_call = 1; gakyhera_session_new(session); in_call = 1) {
        in_call = 0;
        must(fail_at != NEVER, "must begin again", path);
        must_keep(session, before, path);
    }
    in_call = 0;
    must_keep(session, none, path);
}

/* A whole session, each line with as much room as its answer needs and so much more; or with none, if `more` is NEVER. */
static void whole_session(text lines, text answers, int more, const char *path) {
    gakyhera_session session = GAKYHERA_SESSION_INIT;
    text before = { answers.bytes, 0 };
    size_t at = 0, answer_at = 0;
    begin();
    must_be_none(&session, lines, path);
    for (in_call = 1; gakyhera_session_new(&session); in_call = 1) {
        must(fail_at != NEVER && !session.opaque, "must begin", path);
    }
    in_call = 0;
    must_keep(&session, before, path);
    while (at < lines.length) {
        text line = next(lines, &at, 1), right = next(answers, &answer_at, 2);
        size_t room = more == NEVER ? 0 : right.length + (size_t)more;
        long lost_before = lost;
        carried_out(&session, line, right, before, room, path);
        before = right;
        if (lost > lost_before) before.length = 0;
    }
    must(answer_at == answers.length, "too few lines", path);
    if (forgets) return;
    begin_again(&session, before, path);
    in_call = 1;
    gakyhera_session_free(&session), gakyhera_session_free(&session);
    in_call = 0;
    must_be_none(&session, lines, path);
}

/* Lets each allocation of a session fail in turn, or so many of them. */
static void failed(text lines, text answers, int more, const char *path) {
    long last = 0;
    for (fail_at = 0; fail_at <= last; fail_at += 1 + last / SAMPLE) {
        whole_session(lines, answers, more, path);
        last = asked;
    }
    fail_at = NEVER;
}

int main(int count, char **words) {
    char path[512], answers_path[512];
    long sessions = 0;
    int fails = count > 1 && !strcmp(words[1], "fail");
    forgets = count > 1 && !strcmp(words[1], "leak");
    while (scanf("%511s %511s", path, answers_path) == 2) {
        text lines = read_file(path), answers = read_file(answers_path);
        whole_session(lines, answers, 0, path);
        whole_session(lines, answers, BEHIND, path);
        whole_session(lines, answers, NEVER, path);
        if (fails) failed(lines, answers, 0, path), failed(lines, answers, NEVER, path);
        free(lines.bytes), free(answers.bytes);
        sessions++;
    }
    printf("%ld sessions, %ld calls without memory, %ld answers lost\n", sessions, lacked, lost);
}
