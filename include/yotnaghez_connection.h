/*
 * yotnaghez_connection.h: a connection in one struct, over the calls of yotnaghez.h, which includes this file.
 *
 * The order of things is
 *
 *     yot_conn_open(c);
 *     for each piece of bytes that the web server sends, until told.event.kind is YOT_EVENT_NOTHING:
 *         told = yot_conn_next(c, piece, length); piece += told.used; length -= told.used;
 *         see what told.event is; send yot_owed_reply at once; answer with yot_conn_say and yot_conn_finish
 *     send what yot_conn_pump writes, until it writes nothing
 *     and leave when yot_conn_is_open says 0
 */
#ifndef YOTNAGHEZ_CONNECTION_H
#define YOTNAGHEZ_CONNECTION_H

#include "yotnaghez.h"

#include <string.h>

/* A connection with all of its memory, some 97 KB: make it static or allocate it. Its fields are for the functions
 * below alone. */
typedef struct yot_connection {
    yot_state state;
    uint16_t waits[YOT_WAITS];
    uint8_t gathered[YOT_QUERY];
    uint8_t marks[YOT_QUEUE];
    uint8_t queue[YOT_QUEUE];
    uint8_t store[YOT_STORE];
} yot_connection;

/* Some bytes that lie elsewhere. `data` is null if there are none to point at. */
typedef struct yot_bytes {
    const uint8_t *data;
    size_t length;
} yot_bytes;

/* What yot_conn_next answers. `data` are the bytes of a YOT_EVENT_DATA, a part of the piece. */
typedef struct yot_told {
    size_t used;
    yot_event event;
    yot_bytes data;
    uint8_t refusal;
} yot_told;

/* Opens a connection, whatever the struct held before. The queue and the marks need not be cleared. */
static inline void yot_conn_open(yot_connection *c) {
    c->state = yot_start(c->store, YOT_STORE, c->gathered, c->waits).state;
}

/* 1 while the connection is open. */
static inline int yot_conn_is_open(const yot_connection *c) {
    return c->state.open == 1;
}

/* Goes on to the next event of a piece. Refusal 1 once the connection is closed. */
static inline yot_told yot_conn_next(yot_connection *c, const uint8_t *piece, size_t length) {
    yot_stepped s = yot_next_event(c->state, c->store, YOT_STORE, c->gathered, c->waits, piece, length);
    yot_told told;
    c->state = s.state;
    told.used = s.used;
    told.event = s.event;
    told.data.data = NULL;
    told.data.length = 0;
    told.refusal = s.refusal;
    if (s.event.kind == YOT_EVENT_DATA) {
        told.data.data = piece + (s.used - s.event.count);
        told.data.length = s.event.count;
    }
    return told;
}

/* The value of a parameter, by its name as a C string. `data` is null if there is none, and if the call is refused.
 * The bytes lie in the connection until the END of the request is written or the connection closes. */
static inline yot_bytes yot_conn_value(const yot_connection *c, uint16_t id, const char *name) {
    yot_place p = yot_value(c->state, c->waits, c->store, YOT_STORE, id, (const uint8_t *)name, strlen(name));
    yot_bytes b;
    b.data = p.found ? c->store + p.offset : NULL;
    b.length = p.length;
    return b;
}

/* Reads the pair at *place of a request's list and moves *place past it: 1 for a pair, 0 at the end. A list that is
 * ready is well-formed, so there is no other way to end. Begin with a place of 0. */
static inline int yot_conn_pair(const yot_connection *c, uint16_t id, size_t *place, yot_bytes *name,
                                yot_bytes *value) {
    yot_pair p = yot_pair_from(c->state, c->waits, c->store, YOT_STORE, id, *place);
    const uint8_t *list;
    if (p.kind != YOT_PAIR_IS) {
        return 0;
    }
    list = c->store + yot_list(c->state, c->waits, c->store, YOT_STORE, id).offset;
    name->data = list + p.name;
    name->length = p.name_len;
    value->data = list + p.value;
    value->length = p.value_len;
    *place = p.next;
    return 1;
}

/* What a request is. */
static inline yot_request_info yot_conn_request(const yot_connection *c, uint16_t id) {
    return yot_request(c->state, c->waits, id);
}

/* How many requests are active; 0 on a connection that is closed. */
static inline uint32_t yot_conn_active(const yot_connection *c) {
    return yot_active_count(c->state, c->waits).count;
}

/* Says something on YOT_STDOUT or YOT_STDERR; it waits for the pump. Answers the refusal, 0 for none. If that is
 * YOT_REFUSAL_WAITING, nothing of it waits: pump and try again. At most YOT_ROOM bytes can be said at once. */
static inline uint8_t yot_conn_say(yot_connection *c, uint16_t id, uint8_t stream, const void *bytes, size_t length) {
    yot_queued q = yot_queue_output(c->state, c->waits, c->marks, c->queue, YOT_QUEUE, id, stream,
                                    (const uint8_t *)bytes, length);
    c->state = q.state;
    return q.refusal;
}

/* Ends YOT_STDOUT or YOT_STDERR of a request that goes on. Answers the refusal. */
static inline uint8_t yot_conn_end(yot_connection *c, uint16_t id, uint8_t stream) {
    yot_queued q = yot_queue_end(c->state, c->waits, c->marks, id, stream);
    c->state = q.state;
    return q.refusal;
}

/* Finishes a request with an application status, once it is answered. Answers the refusal. */
static inline uint8_t yot_conn_finish(yot_connection *c, uint16_t id, uint32_t status) {
    yot_queued q = yot_queue_finish(c->state, c->waits, c->marks, id, status);
    c->state = q.state;
    return q.refusal;
}

/* Writes of what waits as much as is sure to fit, in turns. Answers how many bytes are to be sent: 0 if nothing waits,
 * if the connection is closed, or if the buffer has fewer than YOT_PUMPED bytes. The END of a request without
 * KEEP_CONN closes the connection, so send the bytes and look at yot_conn_is_open then. */
static inline size_t yot_conn_pump(yot_connection *c, uint8_t *out, size_t length) {
    yot_pumped p = yot_pump(c->state, c->store, YOT_STORE, c->waits, c->marks, c->queue, YOT_QUEUE,
                            length / YOT_PUMPED, out, length);
    c->state = p.state;
    return p.written;
}

#endif
