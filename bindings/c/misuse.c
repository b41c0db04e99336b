/*
 * Calls with what no caller should hand over: null pointers with a length of 0, a state of zeros, of ones, of random
 * bytes, with each code out of range, and an old state with newer memory. Every call has to answer; a refused one must
 * have changed nothing, and an unknown code is refused by 9. Prints how many calls were made, or what went wrong.
 *
 *     misuse [ROUNDS]
 */
#include "yotnaghez.h"

#include <stdio.h>
#include <stdlib.h>
#include <string.h>

enum { OUT = 1100, PIECE = 600 };

/* All that is lent. Each part is allocated by itself, so that a tool sees what is touched past its end. */
typedef struct lent {
    uint8_t *store, *gathered, *marks, *queue, *out, *piece;
    uint16_t *waits;
} lent;

static lent now, before;
static unsigned long calls, refused, unknown;
static const char *what = "";

static void *some(size_t size) {
    void *p = calloc(size, 1);
    if (p == NULL) {
        abort();
    }
    return p;
}

static lent allocated(void) {
    lent l = { some(YOT_STORE), some(YOT_QUERY), some(YOT_QUEUE), some(YOT_QUEUE), some(OUT), some(PIECE),
               some(YOT_WAITS * sizeof(uint16_t)) };
    return l;
}

static void release(lent l) {
    free(l.store);
    free(l.gathered);
    free(l.marks);
    free(l.queue);
    free(l.out);
    free(l.piece);
    free(l.waits);
}

/* The same sequence of random numbers in each run. */
static uint64_t chance(void) {
    static uint64_t x = 88172645463325252u;
    x ^= x << 13;
    x ^= x >> 7;
    x ^= x << 17;
    return x;
}

static void randomize(void *bytes, size_t size) {
    uint8_t *b = bytes;
    for (size_t i = 0; i < size; i++) {
        b[i] = (uint8_t)(chance() >> 24);
    }
}

static void copied(lent *to, const lent *from) {
    memcpy(to->store, from->store, YOT_STORE);
    memcpy(to->gathered, from->gathered, YOT_QUERY);
    memcpy(to->marks, from->marks, YOT_QUEUE);
    memcpy(to->queue, from->queue, YOT_QUEUE);
    memcpy(to->out, from->out, OUT);
    memcpy(to->waits, from->waits, YOT_WAITS * sizeof(uint16_t));
}

static int is_same(const lent *a, const lent *b) {
    return memcmp(a->store, b->store, YOT_STORE) == 0 && memcmp(a->gathered, b->gathered, YOT_QUERY) == 0
        && memcmp(a->marks, b->marks, YOT_QUEUE) == 0 && memcmp(a->queue, b->queue, YOT_QUEUE) == 0
        && memcmp(a->out, b->out, OUT) == 0 && memcmp(a->waits, b->waits, YOT_WAITS * sizeof(uint16_t)) == 0;
}

static void wrong(const char *call, const char *why) {
    printf("%s, %s: %s\n", what, call, why);
    exit(1);
}

/* A state has no gap before its last field. */
static int is_state(const yot_state *a, const yot_state *b) {
    return memcmp(a, b, offsetof(yot_state, open) + 1) == 0;
}

/* A call was answered: by a refusal that it has, having changed nothing; by 9 if a code is unknown. */
static void answered(const char *call, uint8_t refusal, const yot_state *given, const yot_state *after,
                     int is_unknown) {
    calls++;
    if (refusal > 10) {
        wrong(call, "there is no such refusal");
    }
    if (is_unknown && refusal != YOT_REFUSAL_OUT_OF_SHAPE) {
        wrong(call, "an unknown code is not refused by 9");
    }
    if (refusal) {
        refused++;
        unknown += (unsigned long)is_unknown;
        if (after != NULL && !is_state(given, after)) {
            wrong(call, "refused, and the state is another");
        }
        if (!is_same(&now, &before)) {
            wrong(call, "refused, and something that was lent has changed");
        }
    }
    copied(&now, &before);
}

static int is_known(const yot_state *s) {
    int known = s->open <= 1 && s->target <= 5 && ((s->target != 0 && s->target != 2) || s->target_number == 0)
        && (s->target < 3 || s->target_number < 256);
    for (int i = 0; i < YOT_SLOTS; i++) {
        known = known && s->roles[i] >= 1 && s->roles[i] <= 3 && s->turns[i] <= 3 && s->lives[i] <= 2;
    }
    return known;
}

/* Calls that read. A length of 0 comes with a null pointer. */
static void try_reading(yot_state s, uint16_t id, size_t size) {
    lent *m = &now;
    int un = !is_known(&s);
    const uint8_t *piece = size ? m->piece : NULL;
    uint8_t *store = size % 5 == 1 ? NULL : m->store;
    size_t length = store ? YOT_STORE : 0;
    yot_stepped a = yot_step(s, store, length, m->gathered, m->waits, piece, size);
    answered("yot_step", a.refusal, &s, &a.state, un);
    a = yot_next_event(s, store, length, m->gathered, m->waits, piece, size);
    if (a.used > size || (a.refusal && (a.used || a.event.kind))) {
        wrong("yot_next_event", "bytes used");
    }
    answered("yot_next_event", a.refusal, &s, &a.state, un);
    yot_place p = yot_value(s, m->waits, store, length, id, piece, size);
    if (p.found && (p.offset > length || p.length > length - p.offset)) {
        wrong("yot_value", "the value is not in the store");
    }
    answered("yot_value", p.refusal, NULL, NULL, un);
    p = yot_list(s, m->waits, store, length, id);
    if (p.found && (p.offset > length || p.length > length - p.offset)) {
        wrong("yot_list", "the list is not in the store");
    }
    answered("yot_list", p.refusal, NULL, NULL, un);
    answered("yot_pair_at", yot_pair_at(s, m->waits, store, length, id, size).refusal, NULL, NULL, un);
    answered("yot_pair_from", yot_pair_from(s, m->waits, store, length, id, size).refusal, NULL, NULL, un);
    answered("yot_request", yot_request(s, m->waits, id).refusal, NULL, NULL, un);
    answered("yot_active_count", yot_active_count(s, m->waits).refusal, NULL, NULL, un);
}

/* Calls that write. */
static void try_writing(yot_state s, uint16_t id, uint8_t stream, size_t size) {
    lent *m = &now;
    int un = !is_known(&s), odd = un || (stream != YOT_STDOUT && stream != YOT_STDERR);
    const uint8_t *bytes = size ? m->piece : NULL;
    uint8_t *queue = size % 7 == 1 ? NULL : m->queue, *out = size % 3 == 1 ? NULL : m->out;
    size_t room = out ? OUT : 0, length = queue ? YOT_QUEUE : 0;
    yot_queued q = yot_queue_output(s, m->waits, m->marks, queue, length, id, stream, bytes, size);
    answered("yot_queue_output", q.refusal, &s, &q.state, odd);
    q = yot_queue_end(s, m->waits, m->marks, id, stream);
    answered("yot_queue_end", q.refusal, &s, &q.state, odd);
    q = yot_queue_finish(s, m->waits, m->marks, id, 7);
    answered("yot_queue_finish", q.refusal, &s, &q.state, un);
    yot_pumped p = yot_pump(s, m->store, YOT_STORE, m->waits, m->marks, queue, length, size % 4, out, room);
    answered("yot_pump", p.refusal, &s, &p.state, un);
    yot_written w = yot_write_output(s, m->waits, id, stream, bytes, size, out, room);
    answered("yot_write_output", w.refusal, &s, &w.state, odd);
    w = yot_end_output(s, m->waits, id, stream, out, room);
    answered("yot_end_output", w.refusal, &s, &w.state, odd);
    yot_finished f = yot_finish(s, m->waits, m->store, YOT_STORE, id, 7, out, room);
    answered("yot_finish", f.refusal, &s, &f.state, un);
}

/* Calls that take no connection, with random bytes. */
static void try_others(void) {
    yot_event e;
    yot_reader r;
    yot_card thawed, frozen;
    uint8_t n = (uint8_t)(chance() >> 20), *out = n % 3 ? now.out : NULL, refusal;
    size_t room = out ? n : 0;
    randomize(&e, sizeof e);
    randomize(&r, sizeof r);
    randomize(&thawed, sizeof thawed);
    randomize(&frozen, sizeof frozen);
    e.kind = (uint8_t)(chance() % 13);
    r.field %= 4;
    answered("yot_owed_reply", yot_owed_reply(e, out, room).refusal, NULL, NULL, e.kind > 10);
    answered("yot_write_pair", yot_write_pair(out, room, NULL, 0, now.piece, n).refusal, NULL, NULL, 0);
    refusal = yot_write_reading(out, room, (uint32_t)chance(), (int32_t)(chance() % 1200) - 700, n).refusal;
    answered("yot_write_reading", refusal == 33 ? 6 : refusal, NULL, NULL, 0);
    yot_read read = yot_read_reading(r, n % 2 ? now.piece : NULL, n % 2 ? n : 0);
    if ((r.field > 2 || (r.standing && (r.standing < 31 || r.standing > 34))) != (read.refusal == 9)) {
        wrong("yot_read_reading", "an unknown reader");
    }
    yot_ended ended = yot_end_body(r);
    if ((read.refusal == 9) != (ended.refusal == 9)) {
        wrong("yot_end_body", "an unknown reader");
    }
    if (yot_correct(thawed, frozen, 0, n).refusal == 0 && (thawed.kind != 1 || frozen.kind != 2)) {
        wrong("yot_correct", "a card of no known kind");
    }
    calls += 3;
}

static void try_all(yot_state s, const char *of) {
    uint64_t dice = chance();
    uint16_t id = dice % 4 ? s.ids[dice / 4 % YOT_SLOTS] : (uint16_t)(dice >> 16);
    size_t size = dice >> 32 & 1 ? 0 : dice >> 40 & 1 ? dice >> 48 & 15 : dice >> 48 & 511;
    uint8_t stream = dice >> 33 & 7 ? (dice >> 36 & 1 ? YOT_STDOUT : YOT_STDERR) : (uint8_t)(dice >> 52);
    what = of;
    try_reading(s, id, size);
    try_writing(s, id, stream, size);
    try_others();
}

/* A random state whose codes are all known, so that it gets past the first test. */
static yot_state with_codes(yot_state s) {
    for (int i = 0; i < YOT_SLOTS; i++) {
        s.roles[i] = (uint8_t)(1 + s.roles[i] % 3);
        s.turns[i] %= 4;
        s.lives[i] %= 3;
        s.lengths[i] %= 300;
        s.ids[i] = (uint16_t)(i + 1);
    }
    s.open %= 2;
    s.target %= 6;
    s.target_number = s.target == 0 || s.target == 2 ? 0 : s.target_number % 20;
    s.held %= 9;
    s.content %= 600;
    s.padding %= 300;
    s.gathered %= 520;
    return s;
}

/* Each code of a state that is in order, put out of range. */
static void try_codes(yot_state s) {
    for (int i = 0; i < YOT_SLOTS * 3 + 3; i++) {
        yot_state odd = s;
        switch (i / YOT_SLOTS) {
        case 0: odd.roles[i % YOT_SLOTS] = i % 2 ? 0 : 4; break;
        case 1: odd.turns[i % YOT_SLOTS] = i % 2 ? 4 : 255; break;
        case 2: odd.lives[i % YOT_SLOTS] = i % 2 ? 3 : 255; break;
        default:
            odd.open = i % 3 == 0 ? 2 : odd.open;
            odd.target = i % 3 == 1 ? 6 : odd.target;
            odd.target_number = i % 3 == 2 ? 256 : odd.target_number;
            odd.target = i % 3 == 2 ? 4 : odd.target;
        }
        if (is_known(&odd)) {
            wrong("the test", "a code in range");
        }
        try_all(odd, "a code out of range");
    }
}

/* Some records: two requests that send parameters and input. */
static size_t traffic(uint8_t *bytes, uint8_t id) {
    const uint8_t records[] = { 1, 1, 0, id, 0, 8, 0, 0, 0, 1, 1, 0, 0, 0, 0, 0,
                                1, 4, 0, id, 0, 5, 3, 0, 1, 2, 'A', 'x', 'y', 0, 0, 0,
                                1, 4, 0, id, 0, 0, 0, 0, 1, 5, 0, id, 0, 3, 0, 0, 1, 2, 3 };
    memcpy(bytes, records, sizeof records);
    return sizeof records;
}

/* Old states with newer memory, in a run of steps, and those of the run itself. */
static void try_stale(void) {
    yot_state old[40], s = yot_start(before.store, YOT_STORE, before.gathered, before.waits).state;
    uint8_t bytes[200];
    size_t length = traffic(bytes, 1), used = 0;
    length += traffic(bytes + length, 2);
    int count = 0;
    copied(&now, &before);
    try_codes(s);
    while (used < length) {
        yot_stepped a = yot_step(s, before.store, YOT_STORE, before.gathered, before.waits, bytes + used,
                                 length - used);
        used += a.used;
        old[count++ % 40] = s;
        s = a.state;
        copied(&now, &before);
        memcpy(now.piece, bytes, PIECE < sizeof bytes ? PIECE : sizeof bytes);
        for (int i = 0; i < 4; i++) {
            try_all(old[chance() % (unsigned)(count < 40 ? count : 40)], "a stale state");
            try_all(s, "a state of a run");
        }
    }
    try_codes(s);
}

int main(int argc, char **argv) {
    long rounds = argc > 1 ? strtol(argv[1], NULL, 10) : 2000;
    yot_state s;
    now = allocated();
    before = allocated();
    memset(&s, 0, sizeof s);
    if (is_known(&s) || yot_start(NULL, 0, now.gathered, now.waits).refusal != YOT_REFUSAL_STORE_SIZE) {
        wrong("yot_start", "a store of no bytes");
    }
    try_all(s, "a state of zeros");
    memset(&s, 255, sizeof s);
    try_all(s, "a state of ones");
    for (long i = 0; i < rounds; i++) {
        randomize(&s, sizeof s);
        try_all(s, "random bytes");
        try_all(with_codes(s), "random numbers with known codes");
        if (i % 16 == 0) {
            /* Random numbers of what waits are mostly out of shape, so every other time nothing waits. */
            memset(before.waits, 0, YOT_WAITS * sizeof(uint16_t));
            if (i % 32 == 0) {
                randomize(before.waits, YOT_WAITS * sizeof(uint16_t));
            }
            randomize(before.store, 5000);
            randomize(now.piece, PIECE);
            copied(&now, &before);
        }
        if (i % 100 == 0) {
            try_stale();
        }
    }
    printf("%lu calls: all answered; %lu refused, and nothing changed; %lu of them for an unknown code\n", calls,
           refused, unknown);
    release(now);
    release(before);
    return 0;
}
