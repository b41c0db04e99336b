/* The console of docs/CONSOLE.md in C, over the exported calls alone: what its files share. */
#ifndef CONSOLE_H
#define CONSOLE_H

#include "yotnaghez.h"

enum {
    LONGEST_LINE = 140000,       /* characters of a line that is read, its newline not counted */
    MOST_BYTES = 70000,          /* bytes that a command takes at most */
    WHOLE_STORE = YOT_STORE + 1, /* one more than a connection takes, so that a store that is too long can be lent */
    WHOLE_QUEUE = YOT_QUEUE + 1, /* the same for the queue */
    MOST_WORDS = 8,
    FILL = 0xee                  /* what a lent buffer is filled with before the call */
};

/* All that calls read and write, and what they must not change if they are refused. */
typedef struct memory {
    yot_state state;
    uint16_t waits[YOT_WAITS];
    uint8_t gathered[YOT_QUERY];
    uint8_t marks[YOT_QUEUE];
    uint8_t queue[WHOLE_QUEUE];
    uint8_t store[WHOLE_STORE];
} memory;

/* Lent are the first bytes of the store and of the queue. */
typedef struct console {
    memory now;
    memory before;
    size_t lent;
    size_t lent_queue;
    yot_event event; /* the one that `owed` replies to */
    yot_reader reader;
} console;

/* A line's words, without the spaces between them. */
typedef struct words {
    char *word[MOST_WORDS];
    int count;
} words;

/* words.c: each answers 0 if the word is not of its kind. */
int is(const char *word, const char *text);
int number(const char *word, uint64_t most, uint64_t *n);
int signed_number(const char *word, int32_t *n);
int id_number(const char *word, uint16_t *id);
int stream_number(const char *word, uint8_t *stream);
int from_hex(const char *word, uint8_t *bytes, size_t room, size_t *length);

/* words.c: the answer to a line, as it grows. */
void begin_answer(void);
void say(const char *format, ...);
void say_hex(const uint8_t *bytes, size_t length);
void end_answer(void);

/* calls.c: each makes its call and tells the answer. */
typedef yot_stepped reads(yot_state, uint8_t *, size_t, uint8_t *, uint16_t *, const uint8_t *, size_t);
void start(console *c);
void step(console *c, reads *call, const uint8_t *piece, size_t length);
void feed(console *c, size_t size, const uint8_t *bytes, size_t length);
void value(console *c, uint16_t id, const uint8_t *name, size_t length, const uint8_t *fallback, size_t size);
void pair(console *c, uint16_t id, size_t k);
void walk(console *c, uint16_t id);
void list(console *c, uint16_t id);
void request(console *c, uint16_t id);
void active(console *c);
void write_for(console *c, uint16_t id, uint8_t stream, const uint8_t *bytes, size_t length, size_t room);
void end_for(console *c, uint16_t id, uint8_t stream, size_t room);
void finish(console *c, uint16_t id, uint32_t status, size_t room);
void pump(console *c, size_t allowance, size_t room);
void queued(console *c, yot_queued q);
void owed(console *c, size_t room);
void put(const uint8_t *name, size_t name_len, const uint8_t *text, size_t text_len, size_t room);

/* memory.c: what is looked at, and what is poked. Each answers 0 if the words are none of its commands. */
int look_command(console *c, const words *w);
int poke_command(console *c, const words *w);
void keep(console *c);
void say_refused(console *c, uint8_t refusal);

/* bodies.c: readings and their correction. */
int body_command(console *c, const words *w);

/* bodies.c: what a writer answers, and whether it left the bytes behind alone. */
void say_wrote(const uint8_t *buffer, size_t room, size_t written, const char *end);
void say_touched(const uint8_t *buffer, size_t room);
uint8_t *filled(size_t room);

#endif
