/*
 * The console of docs/CONSOLE.md in C, over the exported calls alone. It is held to the ordinary receiver's console,
 * line by line, over random scripts, as the proved console is.
 */
#include "console.h"

#include <stdio.h>
#include <stdlib.h>
#include <string.h>

/* The bytes of a word, in a buffer that has not one byte more; null for none. Answers 0 if the word is no bytes. */
static int bytes_of(const char *word, uint8_t **bytes, size_t *length) {
    static uint8_t all[MOST_BYTES];
    *bytes = NULL;
    if (!from_hex(word, all, sizeof all, length)) {
        return 0;
    }
    if (*length > 0) {
        *bytes = malloc(*length);
        if (*bytes == NULL) {
            abort();
        }
        memcpy(*bytes, all, *length);
    }
    return 1;
}

static const char help[] =
    "start; lend N; lend queue N; step HEX; next HEX; feed SIZE HEX; value R NAME FALLBACK; pair R K; walk R; list R; "
    "request R; say R stdout|stderr HEX ROOM; end R stdout|stderr ROOM; owed ROOM; put NAME VALUE ROOM; "
    "finish R STATUS ROOM; queue say R stdout|stderr HEX; queue end R stdout|stderr; queue finish R STATUS; "
    "pump K ROOM; active; area R; counts R; waits R; numbers; store; reading LOG T RAW ROOM; read HEX; body end; "
    "body new; correct CARD CARD T RAW; poke FIELD ..; help";

/* Commands of one word, and those that lend. */
static int short_command(console *c, const words *w) {
    uint64_t n;
    if (w->count == 1 && is(w->word[0], "start")) {
        start(c);
    } else if (w->count == 1 && is(w->word[0], "active")) {
        active(c);
    } else if (w->count == 1 && is(w->word[0], "help")) {
        say("%s", help);
    } else if (w->count == 2 && is(w->word[0], "lend") && number(w->word[1], WHOLE_STORE, &n)) {
        c->lent = n;
        say("ok");
    } else if (w->count == 3 && is(w->word[0], "lend") && is(w->word[1], "queue")
               && number(w->word[2], WHOLE_QUEUE, &n)) {
        c->lent_queue = n;
        say("ok");
    } else if (w->count == 2 && is(w->word[0], "owed") && number(w->word[1], MOST_BYTES, &n)) {
        owed(c, n);
    } else {
        return 0;
    }
    return 1;
}

/* Commands that take bytes. */
static int bytes_command(console *c, const words *w) {
    uint8_t *a = NULL, *b = NULL, stream;
    size_t n, m;
    uint64_t size;
    uint16_t id;
    int done = 1;
    const char *first = w->word[0];
    if (w->count == 2 && is(first, "step") && bytes_of(w->word[1], &a, &n)) {
        step(c, yot_step, a, n);
    } else if (w->count == 2 && is(first, "next") && bytes_of(w->word[1], &a, &n)) {
        step(c, yot_next_event, a, n);
    } else if (w->count == 3 && is(first, "feed") && number(w->word[1], 65536, &size) && size > 0
               && bytes_of(w->word[2], &a, &n)) {
        feed(c, size, a, n);
    } else if (w->count == 4 && is(first, "value") && id_number(w->word[1], &id) && bytes_of(w->word[2], &a, &n)
               && bytes_of(w->word[3], &b, &m)) {
        value(c, id, a, n, b, m);
    } else if (w->count == 5 && is(first, "say") && id_number(w->word[1], &id) && stream_number(w->word[2], &stream)
               && number(w->word[4], MOST_BYTES, &size) && bytes_of(w->word[3], &a, &n)) {
        write_for(c, id, stream, a, n, size);
    } else if (w->count == 4 && is(first, "put") && number(w->word[3], MOST_BYTES, &size)
               && bytes_of(w->word[1], &a, &n) && bytes_of(w->word[2], &b, &m)) {
        put(a, n, b, m, size);
    } else {
        done = 0;
    }
    free(a);
    free(b);
    return done;
}

/* Commands that name a request, or the pump, and take no bytes. */
static int request_command(console *c, const words *w) {
    uint64_t n, status;
    uint16_t id;
    uint8_t stream;
    const char *first = w->word[0];
    if (w->count == 3 && is(first, "pump") && number(w->word[1], UINT64_MAX, &n)
        && number(w->word[2], MOST_BYTES, &status)) {
        pump(c, n, status);
        return 1;
    }
    if (w->count < 2 || !id_number(w->word[1], &id)) {
        return 0;
    }
    if (w->count == 3 && is(first, "pair") && number(w->word[2], UINT64_MAX, &n)) {
        pair(c, id, n);
    } else if (w->count == 2 && is(first, "walk")) {
        walk(c, id);
    } else if (w->count == 2 && is(first, "list")) {
        list(c, id);
    } else if (w->count == 2 && is(first, "request")) {
        request(c, id);
    } else if (w->count == 4 && is(first, "end") && stream_number(w->word[2], &stream)
               && number(w->word[3], MOST_BYTES, &n)) {
        end_for(c, id, stream, n);
    } else if (w->count == 4 && is(first, "finish") && number(w->word[2], UINT32_MAX, &status)
               && number(w->word[3], MOST_BYTES, &n)) {
        finish(c, id, (uint32_t)status, n);
    } else {
        return 0;
    }
    return 1;
}

/* Commands by which output comes to wait. */
static int queue_command(console *c, const words *w) {
    memory *m = &c->now;
    uint8_t *bytes = NULL, stream;
    size_t length;
    uint64_t status;
    uint16_t id;
    if (w->count < 4 || !is(w->word[0], "queue") || !id_number(w->word[2], &id)) {
        return 0;
    }
    keep(c);
    if (w->count == 5 && is(w->word[1], "say") && stream_number(w->word[3], &stream)
        && bytes_of(w->word[4], &bytes, &length)) {
        queued(c, yot_queue_output(m->state, m->waits, m->marks, m->queue, c->lent_queue, id, stream, bytes, length));
        free(bytes);
    } else if (w->count == 4 && is(w->word[1], "end") && stream_number(w->word[3], &stream)) {
        queued(c, yot_queue_end(m->state, m->waits, m->marks, id, stream));
    } else if (w->count == 4 && is(w->word[1], "finish") && number(w->word[3], UINT32_MAX, &status)) {
        queued(c, yot_queue_finish(m->state, m->waits, m->marks, id, (uint32_t)status));
    } else {
        return 0;
    }
    return 1;
}

/* Cuts a line at its single spaces. A line with too many words is no command. */
static int cut(char *line, words *w) {
    w->count = 0;
    for (char *at = line; at != NULL && w->count < MOST_WORDS; w->count++) {
        w->word[w->count] = at;
        at = strchr(at, ' ');
        if (at != NULL) {
            *at++ = '\0';
        }
        if (at != NULL && w->count + 1 == MOST_WORDS) {
            return 0;
        }
    }
    return 1;
}

static void answer(console *c, char *line, size_t length) {
    words w;
    begin_answer();
    if (length > LONGEST_LINE) {
        say("long");
    } else if (memchr(line, '\0', length) != NULL || !cut(line, &w)
               || !(short_command(c, &w) || bytes_command(c, &w) || request_command(c, &w) || queue_command(c, &w)
                    || look_command(c, &w) || poke_command(c, &w) || body_command(c, &w))) {
        say("what");
    }
    end_answer();
}

int main(void) {
    static console c;
    char *line = NULL;
    size_t room = 0;
    ssize_t length;
    c.lent = YOT_STORE;
    c.lent_queue = YOT_QUEUE;
    /* A start that is refused answers a closed connection. */
    c.now.state = yot_start(NULL, 0, c.now.gathered, c.now.waits).state;
    c.reader = yot_new_reader();
    while ((length = getline(&line, &room, stdin)) > 0) {
        if (line[length - 1] == '\n') {
            line[--length] = '\0';
        }
        if (length > 0 && line[length - 1] == '\r') {
            line[--length] = '\0';
        }
        answer(&c, line, (size_t)length);
    }
    free(line);
    return fflush(stdout) == 0 ? 0 : 1;
}
