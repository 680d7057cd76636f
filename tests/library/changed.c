/* Gives the library texts with changed bytes: COUNT times one of the scripts of a list on standard input, whose lines are
   MODE SCRIPT, is changed in a few places and called; SEED decides which, and how. MODE is fold, turns or session, of which
   each line is given to a session. Each call must end as its header says, with a text of lines, and leave no block behind.
   With the word `leak` one block that a call gives back is kept, and with the word `lie` one status is taken for another.

   usage: changed COUNT SEED [leak | lie] < LIST */
#include "called.h"
#include "gakyhera.h"
#include <unistd.h>

enum { MOST = 1 << 16, ROOM = 2048, CHANGES = 8, KEPT_BLOCK = 3, LIE_AT = 1000, STATUSES = 16, NUMBERS = 100 };

/* after how many texts a terminal is told */
enum { STEP = 100000 };

typedef struct { char mode; text script; } seed_text;

static seed_text *seeds;
static size_t seed_count;
static uint64_t state;
static long calls, lie_at = NEVER, statuses[STATUSES], numbers[NUMBERS];
static uint8_t changed[2 * MOST];
static char where[64];

/* the next number below a limit (xorshift64*) */
static size_t below(size_t limit) {
    state ^= state >> 12, state ^= state << 25, state ^= state >> 27;
    return limit ? (size_t)((state * 2685821657736338717u) >> 33) % limit : 0;
}

/* Stops the run, and keeps the text that had a wrong answer. */
static void must_answer(int holds, const char *what, const uint8_t *bytes, size_t length) {
    if (holds) return;
    FILE *file = fopen("changed_text.json", "wb");
    if (file) fwrite(bytes, 1, length, file), fclose(file);
    must(0, what, where);
}

static void read_seeds(void) {
    char mode[16], path[512];
    while (scanf("%15s %511s", mode, path) == 2) {
        seeds = realloc(seeds, (seed_count + 1) * sizeof *seeds);
        seeds[seed_count++] = (seed_text){ mode[0], read_file(path) };
        must(seeds[seed_count - 1].script.length <= MOST, "is too long", path);
    }
    must(seed_count > 0, "no scripts", "the list");
}

/* Takes out `less` bytes at a place, and puts `more` others there. Returns the new length. */
static size_t replaced(size_t length, size_t at, size_t less, const uint8_t *others, size_t more) {
    if (length - less + more > sizeof changed) return length;
    memmove(changed + at + more, changed + at + less, length - at - less);
    memcpy(changed + at, others, more);
    return length - less + more;
}

/* Makes another digit of the first one from a place on. */
static size_t changed_digit(size_t length, size_t at) {
    while (at < length && (changed[at] < '0' || changed[at] > '9')) at++;
    if (at < length) changed[at] = (uint8_t)('0' + below(10));
    return length;
}

/* Makes one change of the text. */
static size_t change(size_t length) {
    static const char WORDS[] = "{}[]:,\"\\ \n0123456789eE+-.tfnu\xff\xc3\xed\x80";
    static uint8_t span[64];
    uint8_t byte = below(3) ? (uint8_t)WORDS[below(sizeof WORDS - 1)] : (uint8_t)below(256);
    size_t at = below(length + 1), left = length - at, less = below(left < 40 ? left + 1 : 40);
    text other = seeds[below(seed_count)].script;
    size_t from = below(other.length), more = below(other.length - from < 64 ? other.length - from + 1 : 64);
    switch (below(7)) {
    case 0: return replaced(length, at, left ? 1 : 0, &byte, 1);
    case 1: return replaced(length, at, 0, &byte, 1);
    case 2: return replaced(length, at, less, &byte, 0);
    case 3: return replaced(length, at, 0, other.bytes + from, more);
    case 4: memcpy(span, changed + at, less); return replaced(length, at, 0, span, less);
    case 5: return changed_digit(length, at);
    default: return below(8) ? length : at;
    }
}

/* The number of a refusal, whose line the text begins with. */
static size_t refusal_number(const uint8_t *out, size_t made) {
    size_t at = sizeof "refused " - 1, number = 0;
    if (made <= at || memcmp(out, "refused ", at)) return NUMBERS;
    while (at < made && out[at] >= '0' && out[at] <= '9' && number < NUMBERS) number = 10 * number + (out[at++] - '0');
    return number;
}

static int are_lines(const uint8_t *out, size_t made) {
    for (size_t at = 0; at < made; at++) {
        if (out[at] != '\n' && (out[at] < ' ' || out[at] > '~')) return 0;
    }
    return made && out[made - 1] == '\n';
}

/* Looks at what a call left in a block of so much room, with a mark behind it. */
static void look(int status, const uint8_t *out, size_t room, size_t made, const uint8_t *bytes, size_t length) {
    if (++calls == lie_at) status = GAKYHERA_OUT_OF_MEMORY;
    int is_known = status == GAKYHERA_DONE || status == GAKYHERA_REFUSED || status == GAKYHERA_TOO_SMALL;
    must_answer(is_known, "another status", bytes, length);
    statuses[status]++;
    if (status == GAKYHERA_TOO_SMALL) {
        must_answer(made > room && is_marked(out, room + BEHIND), "changed where it is too small", bytes, length);
        return;
    }
    must_answer(made <= room && is_marked(out + made, room + BEHIND - made), "changed behind the text", bytes, length);
    must_answer(are_lines(out, made), "no lines", bytes, length);
    size_t number = refusal_number(out, made);
    must_answer(status == GAKYHERA_DONE || number < NUMBERS, "a refusal without its number", bytes, length);
    if (number < NUMBERS) numbers[number]++;
}

typedef int call(const uint8_t *, size_t, uint8_t *, size_t, size_t *);

/* Calls with so much room, and again with what it needs if that is more. */
static void give_script(call *run, const uint8_t *bytes, size_t length) {
    size_t room = below(4) ? ROOM : below(ROOM), made = UNMADE;
    for (int status = GAKYHERA_TOO_SMALL; status == GAKYHERA_TOO_SMALL; room = made) {
        uint8_t *out = marked(room + BEHIND);
        in_call = 1;
        status = run(bytes, length, out, room, &made);
        in_call = 0;
        look(status, out, room, made, bytes, length);
        free(out);
    }
}

static void give_line(gakyhera_session *session, const uint8_t *bytes, size_t length) {
    size_t room = below(4) ? ROOM : below(ROOM), made = UNMADE;
    uint8_t *out = marked(room + BEHIND);
    in_call = 1;
    int status = gakyhera_session_line(session, bytes, length, out, room, &made);
    in_call = 0;
    look(status, out, room, made, bytes, length);
    free(out);
    if (status != GAKYHERA_TOO_SMALL) return;
    out = marked(made + BEHIND), room = made;
    status = gakyhera_session_answer(session, out, room, &made);
    look(status, out, room, made, bytes, length);
    free(out);
}

/* Gives each line of the text to a session of its own. */
static void give_lines(const uint8_t *bytes, size_t length) {
    gakyhera_session session = GAKYHERA_SESSION_INIT;
    in_call = 1;
    must_answer(gakyhera_session_new(&session) == GAKYHERA_DONE, "no session begins", bytes, length);
    in_call = 0;
    for (size_t begin = 0, end; begin < length; begin = end + 1) {
        const uint8_t *feed = memchr(bytes + begin, '\n', length - begin);
        end = feed ? (size_t)(feed - bytes) : length;
        give_line(&session, bytes + begin, end - begin);
    }
    in_call = 1;
    gakyhera_session_free(&session);
    in_call = 0;
}

/* One text, in a block of just its length. */
static void give_one(void) {
    seed_text given = seeds[below(seed_count)];
    size_t length = given.script.length;
    memcpy(changed, given.script.bytes, length);
    for (size_t times = 1 + below(CHANGES); times; times--) length = change(length);
    uint8_t *bytes = malloc(length ? length : 1);
    memcpy(bytes, changed, length);
    if (given.mode == 's') give_lines(bytes, length);
    else give_script(given.mode == 'f' ? gakyhera_fold : gakyhera_turns, bytes, length);
    free(bytes);
}

static void print_counts(long count) {
    printf("%ld texts, %ld calls: %ld done, %ld refused, %ld too small for the answer\n", count, calls,
        statuses[GAKYHERA_DONE], statuses[GAKYHERA_REFUSED], statuses[GAKYHERA_TOO_SMALL]);
    for (size_t number = 0; number < NUMBERS; number++) {
        if (numbers[number]) printf("refused %zu: %ld\n", number, numbers[number]);
    }
}

int main(int words_count, char **words) {
    must(words_count > 2, "usage: changed COUNT SEED [leak | lie] < LIST", words[0]);
    long count = atol(words[1]);
    state = 2 * (uint64_t)atol(words[2]) + 1;
    int leaks = words_count > 3 && !strcmp(words[3], "leak");
    if (words_count > 3 && !strcmp(words[3], "lie")) lie_at = LIE_AT;
    read_seeds();
    begin();
    if (leaks) keep_at = KEPT_BLOCK;
    for (long number = 0; number < count; number++) {
        snprintf(where, sizeof where, "text %ld", number);
        give_one();
        if (isatty(2) && number % STEP == 0) fprintf(stderr, "\r%ld of %ld texts", number, count);
    }
    print_counts(count);
    must(held == 0, "blocks are left", "at the end");
    for (size_t at = 0; at < seed_count; at++) free(seeds[at].script.bytes);
    free(seeds);
}
