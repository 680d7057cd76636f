/* Runs a toy proxy beside a session, and stops at the first answer that differs.

   gcc toy_proxy.c $(pkg-config --cflags --libs gakyhera) -o toy_proxy && ./toy_proxy [late]

   The toy keeps the version of each key's last write. With `late` it takes a write at the snapshot for a later one. */
#include "gakyhera.h"
#include <stdio.h>
#include <string.h>

static gakyhera_session session = GAKYHERA_SESSION_INIT;
static int asked;

/* Whether the session answers a line as the toy does. */
static int agrees(const char *line, const char *own) {
    char answer[4096], right[4096];
    size_t made;
    asked++;
    int status = gakyhera_session_line(&session, (const uint8_t *)line, strlen(line), (uint8_t *)answer, 4096, &made);
    int length = snprintf(right, sizeof right, "%s\n\n", own);
    if (!status && made == (size_t)length && !memcmp(answer, right, made)) return 1;
    if (status) printf("answer %d has status %d\n", asked, status);
    else printf("answer %d must be: %.*s\n", asked, (int)made - 2, answer);
    return 0;
}

int main(int count, char **words) {
    int late = count > 1 && !strcmp(words[1], "late"), snapshot = 0, written[4] = { -1, -1, -1, -1 };
    char line[512], own[512];
    if (gakyhera_session_new(&session)) return 2;
    int same = agrees("{\"cluster\":{\"proxies\":1,\"resolvers\":1,\"window\":1000000,\"step\":10}}", "cluster");
    for (int row = 0, draw = 1; same && row < 1000; row++) {
        int key = (draw = draw * 75 % 65537) % 4, version = 10 * row + 10;
        snprintf(line, sizeof line,
            "{\"sequence\":{\"proxy\":0,\"batch\":[{\"snapshot\":%d,\"reads\":[[\"%c\",\"%c\"]],"
            "\"writes\":[[\"%c\",\"%c\"]],\"mutations\":[],\"lock_aware\":false}]}}", snapshot, 'a' + key, 'b' + key, 'a' + key, 'b' + key);
        snprintf(own, sizeof own, "sequence row %d version %d", row, version);
        same = agrees(line, own);
        int conflict = written[key] > snapshot - late;
        snprintf(line, sizeof line, "{\"offer\":{\"row\":%d,\"resolver\":0}}", row);
        snprintf(own, sizeof own,
            "offer row %d resolver 0 judged %s unseen none", row, conflict ? "conflict" : "committed");
        same = same && agrees(line, own);
        if (conflict) snprintf(own, sizeof own, "finish proxy 0 version %d\ntxn 0 conflict 1020", version);
        else snprintf(own, sizeof own, "finish proxy 0 version %d\ntxn 0 committed %d 0", version, version);
        same = same && agrees("{\"finish\":{\"proxy\":0}}", own);
        /* after a conflict the client reads anew */
        if (conflict) snapshot = version - 10;
        else written[key] = version;
    }
    if (same) printf("%d answers are the same\n", asked);
    gakyhera_session_free(&session);
    return !same;
}
