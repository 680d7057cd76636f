/* Runs fold and turns scripts in memory, the bytes of a script in, its whole text out; and sessions, which answer
   line by line. docs/FORMATS.md of Gakyhera has the forms; proxy_run and proxy_session print the same texts.

   size_t made;
   int status = gakyhera_turns(script, length, out, room, &made);

   A call for a script returns one of

     GAKYHERA_DONE           the script was carried out, and out[0..made) is its whole text;
     GAKYHERA_REFUSED        the script is wrong, and out[0..made) is one line, `refused NUMBER NAME`;
     GAKYHERA_TOO_SMALL      the text needs `made` bytes, which is more than `room`: `out` is unchanged;
     GAKYHERA_OUT_OF_MEMORY  an allocation failed: `out` and `made` are unchanged;
     GAKYHERA_TOO_LONG       the script is longer than 4,294,963,200 bytes: `out` and `made` are unchanged.

   What follows the text in `out` is unchanged; no zero byte ends it. Such calls keep nothing from one to the next, so
   threads may call at the same time, and free all their memory before they return. What a session keeps is freed with
   it. All memory comes from malloc and realloc.

   A caller must see to it that
     - no pointer is null, even if its length is 0;
     - `script`, or `line` and `session`, `out` and `made` do not overlap, and no other thread writes to them
       during the call;
     - `length` and `room` are at most PTRDIFF_MAX;
     - no call comes from a signal handler, or from a child that a process with threads has forked. */
#ifndef GAKYHERA_H
#define GAKYHERA_H

#include <stddef.h>
#include <stdint.h>

#ifdef __cplusplus
extern "C" {
#endif

enum {
    GAKYHERA_DONE = 0,
    GAKYHERA_REFUSED = 1,
    GAKYHERA_TOO_LONG = 3,
    GAKYHERA_OUT_OF_MEMORY = 4,
    GAKYHERA_TOO_SMALL = 6,
    GAKYHERA_NO_SESSION = 7,
    GAKYHERA_ANSWER_LOST = 8
};

/* The text of a fold script: the routing that its rows fold to, and the tags of the keys that it asks for. */
int gakyhera_fold(const uint8_t *script, size_t length, uint8_t *out, size_t room, size_t *made);

/* The text of a turns script: the lines of its events, and then those of each proxy. */
int gakyhera_turns(const uint8_t *script, size_t length, uint8_t *out, size_t room, size_t *made);

/* A session, in the caller's memory. Begin it as `gakyhera_session session = GAKYHERA_SESSION_INIT;`, all bytes zero.
   One thread at a time may use it. Never copy one that holds a session: pass its address. */
typedef struct gakyhera_session {
    void *opaque;
} gakyhera_session;

#define GAKYHERA_SESSION_INIT { 0 }

/* Begins a session without a cluster, in place of one that was there, which is freed. Returns GAKYHERA_DONE, or
   GAKYHERA_OUT_OF_MEMORY, and then nothing is changed. */
int gakyhera_session_new(gakyhera_session *session);

/* Carries out a line, and answers it as proxy_session does: the answer ends with an empty line, and that to a refused
   line begins with `refused `. A line feed at the end is not needed; those within are white space of the JSON value.
   Returns one of

     GAKYHERA_DONE           out[0..made) is the answer;
     GAKYHERA_TOO_SMALL      the answer needs `made` bytes, which is more than `room`: `out` is unchanged. The line is
                             carried out, once, and gakyhera_session_answer gives its answer;
     GAKYHERA_OUT_OF_MEMORY  an allocation failed: the session, `out` and `made` are unchanged;
     GAKYHERA_ANSWER_LOST    the line is carried out, but an allocation failed for its answer, which is longer than
                             `room`: `out` and `made` are unchanged;
     GAKYHERA_NO_SESSION     before gakyhera_session_new, or after gakyhera_session_free: nothing is changed.

   It allocates `room` bytes first, so an answer that fits is never lost. A room of a few KB is best. */
int gakyhera_session_line(
    gakyhera_session *session, const uint8_t *line, size_t length, uint8_t *out, size_t room, size_t *made);

/* Gives the answer to the last line that was carried out. It is empty before the first line, and if it was lost.
   Returns GAKYHERA_DONE, GAKYHERA_TOO_SMALL or GAKYHERA_NO_SESSION, as above. */
int gakyhera_session_answer(gakyhera_session *session, uint8_t *out, size_t room, size_t *made);

/* Frees the session. Without one it does nothing, so it may be called twice. */
void gakyhera_session_free(gakyhera_session *session);

#ifdef __cplusplus
}
#endif

#endif
