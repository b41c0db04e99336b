/* A whole input fed from C, and all that is told mixed into one number, as crates/digest does it. */
#include "yotnaghez.h"

static uint64_t weight(yot_event e) {
    uint64_t what = e.kind == YOT_EVENT_DATA || e.kind == YOT_EVENT_END ? e.stream : e.number;
    /* The words of an end are counted from another one on there. */
    uint64_t n = e.kind == YOT_EVENT_OPEN ? e.keep
        : e.kind == YOT_EVENT_END ? (e.number + 3u) % 4
        : e.kind == YOT_EVENT_FAULT || e.kind == YOT_EVENT_CLOSED ? e.place
        : e.count % 65536;
    return e.kind + ((uint64_t)e.id << 8) + (what << 24) + (n << 32);
}

typedef yot_stepped reads(yot_state, uint8_t *, size_t, uint8_t *, uint16_t *, const uint8_t *, size_t);

static inline uint64_t digest(reads *call, uint8_t *store, const uint8_t *input, size_t length, size_t piece) {
    static uint8_t gathered[YOT_QUERY];
    static uint16_t waits[YOT_WAITS];
    yot_state state = yot_start(store, YOT_STORE, gathered, waits).state;
    uint64_t sum = 0;
    for (size_t at = 0, end = 0; at < length;) {
        if (at == end) {
            end = length - at < piece ? length : at + piece;
        }
        yot_stepped s = call(state, store, YOT_STORE, gathered, waits, input + at, end - at);
        if (s.used == 0) {
            break;
        }
        state = s.state;
        at += s.used;
        sum = (sum * 33 + weight(s.event)) % ((uint64_t)1 << 56);
    }
    return sum;
}

uint64_t c_step_digest(uint8_t *store, const uint8_t *input, size_t length, size_t piece) {
    return digest(yot_step, store, input, length, piece);
}

uint64_t c_next_digest(uint8_t *store, const uint8_t *input, size_t length, size_t piece) {
    return digest(yot_next_event, store, input, length, piece);
}

/* The same with a connection in one struct. */
uint64_t conn_next_digest(yot_connection *c, const uint8_t *input, size_t length, size_t piece) {
    uint64_t sum = 0;
    yot_conn_open(c);
    for (size_t at = 0, end = 0; at < length;) {
        if (at == end) {
            end = length - at < piece ? length : at + piece;
        }
        yot_told told = yot_conn_next(c, input + at, end - at);
        if (told.used == 0) {
            break;
        }
        at += told.used;
        sum = (sum * 33 + weight(told.event)) % ((uint64_t)1 << 56);
    }
    return sum;
}
