/* The functions over a connection in one struct (yotnaghez_connection.h), as a program uses them. Prints how many
 * facts were asked, or the first that is wrong. */
#include "yotnaghez.h"

#include <stdio.h>
#include <stdlib.h>

static yot_connection conn;
static int asked;

#define ASK(fact) ask(fact, #fact, __LINE__)

static void ask(int fact, const char *text, int line) {
    asked++;
    if (!fact) {
        printf("connection.c:%d: not so: %s\n", line, text);
        exit(1);
    }
}

static int is_text(yot_bytes b, const char *text) {
    return b.data != NULL && b.length == strlen(text) && memcmp(b.data, text, b.length) == 0;
}

/* Adds a record to some bytes. */
static size_t record(uint8_t *bytes, size_t at, uint8_t kind, uint8_t id, const char *content, uint8_t length) {
    const uint8_t header[8] = { 1, kind, 0, id, 0, length, 0, 0 };
    memcpy(bytes + at, header, 8);
    memcpy(bytes + at + 8, content, length);
    return at + 8 + length;
}

/* A request up to the end of its parameters, and some of its body. */
static size_t opening(uint8_t *bytes, size_t at, uint8_t id, char keep) {
    const char begin[8] = { 0, 1, keep, 0, 0, 0, 0, 0 };
    at = record(bytes, at, 1, id, begin, 8);
    at = record(bytes, at, 4, id, "\4\5NAMEvalue\5\0EMPTY", 18);
    at = record(bytes, at, 4, id, "", 0);
    return record(bytes, at, 5, id, "body", 4);
}

static void try_events(void) {
    uint8_t bytes[512];
    size_t length = opening(bytes, 0, 7, 1), from = 0;
    const uint8_t kinds[] = { YOT_EVENT_OPEN, YOT_EVENT_READY, YOT_EVENT_DATA };
    yot_told told;
    yot_conn_open(&conn);
    ASK(yot_conn_is_open(&conn));
    ASK(yot_conn_active(&conn) == 0);
    for (int i = 0; i < 3; i++) {
        told = yot_conn_next(&conn, bytes + from, length - from);
        from += told.used;
        ASK(told.refusal == 0 && told.event.kind == kinds[i] && told.event.id == 7);
        ASK((told.event.kind == YOT_EVENT_DATA) == (told.data.data != NULL));
    }
    ASK(is_text(told.data, "body") && told.data.data == bytes + length - 4);
    ASK(from == length);
    told = yot_conn_next(&conn, NULL, 0);
    ASK(told.used == 0 && told.event.kind == YOT_EVENT_NOTHING && told.refusal == 0);
    ASK(yot_conn_active(&conn) == 1);
}

static void try_parameters(void) {
    yot_bytes name, value;
    size_t place = 0;
    yot_request_info info = yot_conn_request(&conn, 7);
    ASK(is_text(yot_conn_value(&conn, 7, "NAME"), "value"));
    ASK(is_text(yot_conn_value(&conn, 7, "EMPTY"), ""));
    ASK(yot_conn_value(&conn, 7, "name").data == NULL);
    ASK(yot_conn_value(&conn, 8, "NAME").data == NULL);
    ASK(yot_conn_pair(&conn, 7, &place, &name, &value) == 1 && is_text(name, "NAME") && is_text(value, "value"));
    ASK(yot_conn_pair(&conn, 7, &place, &name, &value) == 1 && is_text(name, "EMPTY") && is_text(value, ""));
    ASK(place == 18 && yot_conn_pair(&conn, 7, &place, &name, &value) == 0 && place == 18);
    place = 0;
    ASK(yot_conn_pair(&conn, 8, &place, &name, &value) == 0);
    ASK(info.refusal == 0 && info.length == 18 && info.stdin_shown == 4);
    ASK(info.turn == YOT_TURN_STDIN && info.life == YOT_LIFE_LIVE && info.keep == 1);
    ASK(yot_conn_request(&conn, 8).refusal == YOT_REFUSAL_NOT_ACTIVE);
}

static void try_output(void) {
    static uint8_t out[YOT_SLOTS * YOT_PUMPED], long_text[YOT_ROOM + 1];
    const uint8_t said[] = { 1, 6, 0, 7, 0, 5, 3, 0, 'h', 'e', 'l', 'l', 'o', 0, 0, 0 };
    const uint8_t end[] = { 1, 3, 0, 7, 0, 8, 0, 0, 0, 0, 0, 9, 0, 0, 0, 0 };
    ASK(yot_conn_say(&conn, 8, YOT_STDOUT, "x", 1) == YOT_REFUSAL_NOT_ACTIVE);
    ASK(yot_conn_say(&conn, 7, YOT_STDIN, "x", 1) == YOT_REFUSAL_OUT_OF_SHAPE);
    ASK(yot_conn_say(&conn, 7, YOT_STDOUT, long_text, sizeof long_text) == YOT_REFUSAL_WAITING);
    ASK(yot_conn_pump(&conn, out, sizeof out) == 0);
    ASK(yot_conn_say(&conn, 7, YOT_STDOUT, "hello", 5) == 0);
    ASK(yot_conn_pump(&conn, out, YOT_PUMPED - 1) == 0);
    ASK(yot_conn_pump(&conn, out, 2 * YOT_PUMPED - 1) == sizeof said && memcmp(out, said, sizeof said) == 0);
    ASK(yot_conn_end(&conn, 7, YOT_STDOUT) == 0);
    ASK(yot_conn_end(&conn, 7, YOT_STDOUT) == YOT_REFUSAL_ENDED);
    ASK(yot_conn_pump(&conn, out, sizeof out) == 8 && out[1] == YOT_STDOUT && out[5] == 0);
    ASK(yot_conn_finish(&conn, 7, 9) == 0);
    ASK(yot_conn_finish(&conn, 7, 9) == YOT_REFUSAL_ENDED);
    ASK(yot_conn_active(&conn) == 1);
    ASK(yot_conn_pump(&conn, out, sizeof out) == sizeof end && memcmp(out, end, sizeof end) == 0);
    ASK(yot_conn_active(&conn) == 0 && yot_conn_is_open(&conn));
    const yot_event query = { .kind = YOT_EVENT_QUERY,
                              .number = YOT_QUERY_MAX_CONNS + YOT_QUERY_MAX_REQS + YOT_QUERY_MPXS_CONNS };
    ASK(yot_owed_reply(query, out, YOT_REPLY - 1).refusal == YOT_REFUSAL_NO_ROOM);
    ASK(yot_owed_reply(query, out, YOT_REPLY).written == YOT_REPLY);
}

/* The end of a request without KEEP_CONN closes the connection, and a bad record does. */
static void try_closing(void) {
    uint8_t bytes[512], out[YOT_PUMPED];
    size_t length = opening(bytes, 0, 1, 0);
    yot_conn_open(&conn);
    for (size_t from = 0; from < length;) {
        from += yot_conn_next(&conn, bytes + from, length - from).used;
    }
    ASK(yot_conn_finish(&conn, 1, 0) == 0 && yot_conn_is_open(&conn));
    while (yot_conn_pump(&conn, out, sizeof out) > 0) {
    }
    ASK(!yot_conn_is_open(&conn));
    ASK(yot_conn_next(&conn, bytes, length).refusal == YOT_REFUSAL_CLOSED);
    ASK(yot_conn_say(&conn, 1, YOT_STDOUT, "x", 1) == YOT_REFUSAL_CLOSED && yot_conn_active(&conn) == 0);
    yot_conn_open(&conn);
    bytes[0] = 2;
    yot_told told = yot_conn_next(&conn, bytes, length);
    ASK(told.event.kind == YOT_EVENT_CLOSED && told.event.number == YOT_CLOSE_VERSION && !yot_conn_is_open(&conn));
}

int main(void) {
    try_events();
    try_parameters();
    try_output();
    try_closing();
    printf("%d facts about a connection in one struct\n", asked);
    return 0;
}
