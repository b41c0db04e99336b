/* The console's calls, each with its answer. */
#include "console.h"

#include <stdlib.h>

static const char *const roles[] = { "", "responder", "authorizer", "filter" };

static const char *stream_text(uint8_t stream) {
    return stream == YOT_STDIN ? "stdin" : "data";
}

/* The line of an event. The bytes are those that the call used. */
static void say_event(yot_event e, const uint8_t *used, size_t length) {
    static const char *const measures[] = { "unstated", "short", "exact", "over" };
    int n = e.number;
    switch (e.kind) {
    case YOT_EVENT_OPEN: say("open %d %s %s", e.id, roles[n], e.keep ? "keep" : "drop"); break;
    case YOT_EVENT_READY: say("ready %d %zu", e.id, e.count); break;
    case YOT_EVENT_DATA:
        say("data %d %s ", e.id, stream_text(e.stream));
        say_hex(used + length - e.count, e.count);
        break;
    case YOT_EVENT_END: say("end %d %s %s", e.id, stream_text(e.stream), measures[n]); break;
    case YOT_EVENT_ABORT: say("abort %d", e.id); break;
    case YOT_EVENT_REFUSE: say("refuse %d %d", e.id, n); break;
    case YOT_EVENT_FAULT: say("fault %d %d", e.id, n); break;
    case YOT_EVENT_QUERY: say("query %d%d%d", n & 1, n >> 1 & 1, n >> 2 & 1); break;
    case YOT_EVENT_UNKNOWN: say("unknown %d", n); break;
    case YOT_EVENT_CLOSED: say("closed %d", n); break;
    default: say("no event"); break;
    }
    if ((e.kind == YOT_EVENT_FAULT && n == YOT_FAULT_MALFORMED)
        || (e.kind == YOT_EVENT_CLOSED && n == YOT_CLOSE_QUERY_MALFORMED)) {
        say(" at %d", e.place);
    }
}

void start(console *c) {
    memory *m = &c->now;
    yot_started started = yot_start(m->store, c->lent, m->gathered, m->waits);
    m->state = started.state;
    c->event = (yot_event){ 0 };
    if (started.refusal) {
        say("refused %d", started.refusal);
    } else {
        say("open");
    }
}

static yot_stepped stepped(console *c, reads *call, const uint8_t *piece, size_t length) {
    memory *m = &c->now;
    keep(c);
    yot_stepped s = call(m->state, m->store, c->lent, m->gathered, m->waits, piece, length);
    m->state = s.state;
    return s;
}

void step(console *c, reads *call, const uint8_t *piece, size_t length) {
    yot_stepped s = stepped(c, call, piece, length);
    if (s.refusal) {
        say_refused(c, s.refusal);
        return;
    }
    c->event = s.event;
    say("used %zu", s.used);
    if (s.event.kind != YOT_EVENT_NOTHING) {
        say(" ");
        say_event(s.event, piece, s.used);
    }
}

/* Data of one stream that follows each other is told as one. */
static int goes_on(yot_event last, yot_event e) {
    return last.kind == YOT_EVENT_DATA && e.kind == YOT_EVENT_DATA && last.id == e.id && last.stream == e.stream;
}

void feed(console *c, size_t size, const uint8_t *bytes, size_t length) {
    size_t used = 0;
    yot_event last = { 0 };
    uint8_t refusal = 0;
    while (used < length) {
        size_t end = (used / size + 1) * size;
        yot_stepped s = stepped(c, yot_next_event, bytes + used, (end < length ? end : length) - used);
        refusal = s.refusal;
        if (refusal) {
            break;
        }
        if (goes_on(last, s.event)) {
            say_hex(bytes + used + s.used - s.event.count, s.event.count);
        } else if (s.event.kind != YOT_EVENT_NOTHING) {
            say(last.kind == YOT_EVENT_NOTHING ? "" : "; ");
            say_event(s.event, bytes + used, s.used);
        }
        last = s.event.kind == YOT_EVENT_NOTHING ? last : s.event;
        used += s.used;
        if (s.used == 0 || s.event.kind == YOT_EVENT_CLOSED) {
            break;
        }
    }
    say(last.kind == YOT_EVENT_NOTHING ? "" : "; ");
    if (used > 0 || !refusal) {
        c->event = last;
    }
    if (refusal) {
        say_refused(c, refusal);
    } else {
        say("used %zu", used);
    }
}

void value(console *c, uint16_t id, const uint8_t *name, size_t length, const uint8_t *fallback, size_t size) {
    memory *m = &c->now;
    yot_place p = yot_value(m->state, m->waits, m->store, c->lent, id, name, length);
    if (p.refusal) {
        say("refused %d ", p.refusal);
    } else {
        say(p.found ? "store " : "fallback ");
    }
    say_hex(p.found ? m->store + p.offset : fallback, p.found ? p.length : size);
}

void pair(console *c, uint16_t id, size_t k) {
    memory *m = &c->now;
    yot_pair p = yot_pair_at(m->state, m->waits, m->store, c->lent, id, k);
    if (p.refusal) {
        say("refused %d", p.refusal);
    } else {
        say("pair %zu %zu %zu %zu", p.name, p.name_len, p.value, p.value_len);
    }
}

void walk(console *c, uint16_t id) {
    memory *m = &c->now;
    yot_place list = yot_list(m->state, m->waits, m->store, c->lent, id);
    yot_pair p = yot_pair_from(m->state, m->waits, m->store, c->lent, id, 0);
    size_t place = 0;
    if (list.refusal || p.refusal) {
        say(list.refusal == p.refusal ? "refused %d" : "refused %d by one of two", list.refusal);
        return;
    }
    say("walk %zu", list.length);
    while (p.kind == YOT_PAIR_IS) {
        say(" %zu,%zu,%zu,%zu", p.name, p.name_len, p.value, p.value_len);
        place = p.next;
        p = yot_pair_from(m->state, m->waits, m->store, c->lent, id, place);
    }
    if (p.kind == YOT_PAIR_END) {
        say(" end %zu", place);
    } else {
        say(" malformed at %zu", p.next);
    }
}

void list(console *c, uint16_t id) {
    memory *m = &c->now;
    yot_place p = yot_list(m->state, m->waits, m->store, c->lent, id);
    if (p.refusal) {
        say("refused %d", p.refusal);
        return;
    }
    say("list ");
    say_hex(m->store + p.offset, p.length);
}

void request(console *c, uint16_t id) {
    static const char *const turns[] = { "params", "stdin", "data", "done" };
    static const char *const lives[] = { "live", "faulted", "aborted" };
    yot_request_info r = yot_request(c->now.state, c->now.waits, id);
    if (r.refusal) {
        say("refused %d", r.refusal);
        return;
    }
    say("request id %d length %d role %s keep %d", r.id, r.length, roles[r.role], r.keep);
    say(" turn %s life %s", turns[r.turn], lives[r.life]);
    say(" out_ended %d err_used %d err_ended %d", r.out_ended, r.err_used, r.err_ended);
    say(" stdin_shown %lu data_shown %lu", (unsigned long)r.stdin_shown, (unsigned long)r.data_shown);
}

void active(console *c) {
    yot_count n = yot_active_count(c->now.state, c->now.waits);
    if (n.refusal) {
        say("refused %d", n.refusal);
    } else {
        say("active %lu", (unsigned long)n.count);
    }
}

/* What a call that writes for a request comes to: the state goes on, and its answer is told. */
static void wrote(console *c, yot_state state, uint8_t refusal, const uint8_t *buffer, size_t room, size_t written,
                  const char *end) {
    c->now.state = state;
    if (refusal) {
        say_refused(c, refusal);
        say_touched(buffer, room);
    } else {
        say_wrote(buffer, room, written, end);
    }
}

void write_for(console *c, uint16_t id, uint8_t stream, const uint8_t *bytes, size_t length, size_t room) {
    uint8_t *buffer = filled(room);
    keep(c);
    yot_written w = yot_write_output(c->now.state, c->now.waits, id, stream, bytes, length, buffer, room);
    say(w.refusal ? "" : "wrote ");
    wrote(c, w.state, w.refusal, buffer, room, w.written, "");
    free(buffer);
}

void end_for(console *c, uint16_t id, uint8_t stream, size_t room) {
    uint8_t *buffer = filled(room);
    keep(c);
    yot_written w = yot_end_output(c->now.state, c->now.waits, id, stream, buffer, room);
    say(w.refusal ? "" : "wrote ");
    wrote(c, w.state, w.refusal, buffer, room, w.written, "");
    free(buffer);
}

void finish(console *c, uint16_t id, uint32_t status, size_t room) {
    uint8_t *buffer = filled(room);
    keep(c);
    yot_finished f = yot_finish(c->now.state, c->now.waits, c->now.store, c->lent, id, status, buffer, room);
    say(f.refusal ? "" : "wrote ");
    wrote(c, f.state, f.refusal, buffer, room, f.written, f.closed ? " closed" : " open");
    free(buffer);
}

void pump(console *c, size_t allowance, size_t room) {
    uint8_t *buffer = filled(room);
    memory *m = &c->now;
    keep(c);
    yot_pumped p = yot_pump(m->state, m->store, c->lent, m->waits, m->marks, m->queue, c->lent_queue, allowance,
                            buffer, room);
    if (!p.refusal) {
        say("pumped %zu ", p.records);
    }
    wrote(c, p.state, p.refusal, buffer, room, p.written, p.closed ? " closed" : " open");
    free(buffer);
}

void queued(console *c, yot_queued q) {
    c->now.state = q.state;
    if (q.refusal) {
        say_refused(c, q.refusal);
    } else {
        say("waits");
    }
}

void owed(console *c, size_t room) {
    uint8_t *buffer = filled(room);
    yot_wrote w = yot_owed_reply(c->event, buffer, room);
    if (w.refusal) {
        say("refused %d", w.refusal);
        say_touched(buffer, room);
    } else {
        say("wrote ");
        say_wrote(buffer, room, w.written, "");
    }
    free(buffer);
}

void put(const uint8_t *name, size_t name_len, const uint8_t *text, size_t text_len, size_t room) {
    uint8_t *buffer = filled(room);
    yot_wrote w = yot_write_pair(buffer, room, name, name_len, text, text_len);
    if (w.refusal) {
        say("refused %d", w.refusal);
        say_touched(buffer, room);
    } else {
        say("wrote ");
        say_wrote(buffer, room, w.written, "");
    }
    free(buffer);
}
