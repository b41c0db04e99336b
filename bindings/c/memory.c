/* What the console looks at and pokes: the state, the store, and what waits. */
#include "console.h"

#include <string.h>

/* What calls must not change if they are refused. The state has no gap before its last field. */
void keep(console *c) {
    memcpy(&c->before, &c->now, sizeof c->now);
}

static int is_kept(const console *c) {
    const memory *a = &c->before, *b = &c->now;
    return memcmp(&a->state, &b->state, offsetof(yot_state, open) + 1) == 0
        && memcmp(a->waits, b->waits, sizeof a->waits) == 0
        && memcmp(a->gathered, b->gathered, sizeof a->gathered) == 0
        && memcmp(a->marks, b->marks, sizeof a->marks) == 0 && memcmp(a->queue, b->queue, sizeof a->queue) == 0
        && memcmp(a->store, b->store, sizeof a->store) == 0;
}

void say_refused(console *c, uint8_t refusal) {
    say("refused %d%s", refusal, is_kept(c) ? "" : " changed");
}

/* The first taken slot with that id, -1 if there is none. */
static int slot_of(const yot_state *s, uint16_t id) {
    for (int i = 0; i < YOT_SLOTS; i++) {
        if ((s->occupied >> i & 1) == 1 && s->ids[i] == id) {
            return i;
        }
    }
    return -1;
}

static void say_area(const console *c, int i) {
    size_t length = c->now.state.lengths[i];
    say("area ");
    say_hex(c->now.store + i * YOT_AREA, length < YOT_AREA ? length : YOT_AREA);
}

static void say_counts(const console *c, int i) {
    const yot_state *s = &c->now.state;
    say("counts %lu %lu", (unsigned long)s->stdin_shown[i], (unsigned long)s->data_shown[i]);
}

static void say_waits(const console *c, int i) {
    static const char *const ends[] = { "-", "out", "err", "out,err", "-", "out", "err", "err,out" };
    const uint16_t *n = c->now.waits;
    size_t count = (n[48] >> i & 1) ? (size_t)n[i] + 1 : 0;
    size_t shown = count < YOT_ROOM ? count : YOT_ROOM;
    int front = (n[49] >> i & 1) + 2 * (n[50] >> i & 1) + 4 * (n[51] >> i & 1);
    say("waits %zu %s ", count, ends[front]);
    if (n[52] >> i & 1) {
        say("%lu ", (unsigned long)n[16 + i] * 65536 + n[32 + i]);
    } else {
        say("- ");
    }
    say_hex(c->now.queue + i * YOT_ROOM, shown);
    say(" ");
    say_hex(c->now.marks + i * YOT_ROOM, shown);
}

static void say_numbers(const console *c) {
    say("numbers");
    for (int i = 0; i < YOT_WAITS; i++) {
        say(" %d", c->now.waits[i]);
    }
}

static void say_store(const console *c) {
    size_t count = 0, first = 0, last = 0;
    for (size_t i = 0; i < WHOLE_STORE; i++) {
        if (c->now.store[i] != 0) {
            first = count ? first : i;
            last = i;
            count++;
        }
    }
    if (count) {
        say("store %zu %zu %zu", count, first, last);
    } else {
        say("store 0");
    }
}

int look_command(console *c, const words *w) {
    uint16_t id;
    int i;
    if (w->count == 1 && is(w->word[0], "numbers")) {
        say_numbers(c);
        return 1;
    }
    if (w->count == 1 && is(w->word[0], "store")) {
        say_store(c);
        return 1;
    }
    if (w->count != 2 || !(is(w->word[0], "area") || is(w->word[0], "counts") || is(w->word[0], "waits"))
        || !id_number(w->word[1], &id)) {
        return 0;
    }
    i = slot_of(&c->now.state, id);
    if (i < 0) {
        say("none");
    } else if (is(w->word[0], "area")) {
        say_area(c, i);
    } else if (is(w->word[0], "counts")) {
        say_counts(c, i);
    } else {
        say_waits(c, i);
    }
    return 1;
}

/* A bit of a word, by a word that is 0 or 1 to the letter. */
static int poke_bit(uint16_t *bits, uint64_t slot, const char *value) {
    if (!is(value, "0") && !is(value, "1")) {
        return 0;
    }
    *bits = (uint16_t)((*bits & ~(1u << slot)) | (value[0] == '1' ? 1u << slot : 0));
    return 1;
}

/* The place of a word in a list that ends with a null. */
static int poke_code(uint8_t *code, const char *const names[], const char *value) {
    for (uint8_t i = 0; names[i] != NULL; i++) {
        if (is(value, names[i])) {
            *code = i;
            return 1;
        }
    }
    return 0;
}

static int poke_slot(yot_state *s, const char *field, uint64_t slot, const char *value) {
    static const char *const roles[] = { "", "1", "2", "3", NULL };
    static const char *const turns[] = { "params", "stdin", "data", "done", NULL };
    static const char *const lives[] = { "live", "faulted", "aborted", NULL };
    return is(field, "id") ? id_number(value, &s->ids[slot])
        : is(field, "length") ? id_number(value, &s->lengths[slot])
        : is(field, "role") ? value[0] != '\0' && poke_code(&s->roles[slot], roles, value)
        : is(field, "turn") ? poke_code(&s->turns[slot], turns, value)
        : is(field, "spent") ? poke_code(&s->lives[slot], lives, value)
        : is(field, "keep") ? poke_bit(&s->keep, slot, value)
        : is(field, "out_ended") ? poke_bit(&s->out_ended, slot, value)
        : is(field, "err_used") ? poke_bit(&s->err_used, slot, value)
        : is(field, "err_ended") ? poke_bit(&s->err_ended, slot, value)
        : 0;
}

static int poke_target(yot_state *s, const words *w) {
    static const char *const kinds[] = { "skip", "begin", "query", "params", "stdin", "data", NULL };
    uint8_t kind;
    uint64_t n = 0;
    if (w->count < 3 || !poke_code(&kind, kinds, w->word[2])) {
        return 0;
    }
    if (kind == 0 || kind == 2 ? w->count != 3 : w->count != 4 || !number(w->word[3], kind == 1 ? 65535 : 255, &n)) {
        return 0;
    }
    s->target = kind;
    s->target_number = (uint16_t)n;
    return 1;
}

static int poke_size(size_t *size, const char *value) {
    uint64_t n;
    if (!number(value, UINT64_MAX, &n)) {
        return 0;
    }
    *size = n;
    return 1;
}

/* At most so many bytes, and zeros after them. */
static int poke_bytes(uint8_t *bytes, size_t size, const char *value) {
    uint8_t given[YOT_QUERY];
    size_t length;
    if (!from_hex(value, given, size, &length)) {
        return 0;
    }
    memset(bytes, 0, size);
    memcpy(bytes, given, length);
    return 1;
}

static int poke_byte(uint8_t *bytes, uint64_t size, const char *place, const char *value) {
    uint64_t at, n;
    if (!number(place, size - 1, &at) || !number(value, 255, &n)) {
        return 0;
    }
    bytes[at] = (uint8_t)n;
    return 1;
}

static int poke_body(memory *m, const char *value) {
    if (!poke_bytes(m->gathered, YOT_QUERY, value)) {
        return 0;
    }
    memcpy(m->state.body, m->gathered, sizeof m->state.body);
    return 1;
}

static int poke_open(yot_state *s, const char *value) {
    s->open = is(value, "1") ? 1 : is(value, "0") ? 0 : s->open;
    return is(value, "0") || is(value, "1");
}

static int poke_shown(yot_state *s, const words *w) {
    uint64_t slot, n;
    int in = is(w->word[3], "stdin");
    if ((!in && !is(w->word[3], "data")) || !number(w->word[2], YOT_SLOTS - 1, &slot)
        || !number(w->word[4], UINT32_MAX, &n)) {
        return 0;
    }
    (in ? s->stdin_shown : s->data_shown)[slot] = (uint32_t)n;
    return 1;
}

static int poke_place(memory *m, const words *w) {
    const char *field = w->word[1], *place = w->word[2], *value = w->word[3];
    uint64_t at;
    if (is(field, "byte")) {
        return poke_byte(m->store, YOT_STORE, place, value);
    }
    if (is(field, "mark")) {
        return poke_byte(m->marks, YOT_QUEUE, place, value);
    }
    if (is(field, "queue")) {
        return poke_byte(m->queue, YOT_QUEUE, place, value);
    }
    if (is(field, "number")) {
        return number(place, YOT_WAITS - 1, &at) && id_number(value, &m->waits[at]);
    }
    return number(place, YOT_SLOTS - 1, &at) && poke_slot(&m->state, field, at, value);
}

static int poke_one(memory *m, const words *w) {
    yot_state *s = &m->state;
    const char *field = w->word[1], *value = w->word[2];
    return is(field, "open") ? poke_open(s, value)
        : is(field, "occupied") ? id_number(value, &s->occupied)
        : is(field, "held") ? poke_size(&s->held, value)
        : is(field, "content") ? poke_size(&s->content, value)
        : is(field, "padding") ? poke_size(&s->padding, value)
        : is(field, "gathered") ? poke_size(&s->gathered, value)
        : is(field, "header") ? poke_bytes(s->header, sizeof s->header, value)
        : is(field, "body") ? poke_body(m, value)
        : 0;
}

int poke_command(console *c, const words *w) {
    yot_state *s = &c->now.state;
    if (w->count < 2 || !is(w->word[0], "poke")) {
        return 0;
    }
    if (is(w->word[1], "target") ? !poke_target(s, w)
        : w->count == 3 ? !poke_one(&c->now, w)
        : w->count == 4 ? !poke_place(&c->now, w)
        : w->count == 5 ? !is(w->word[1], "shown") || !poke_shown(s, w)
        : 1) {
        return 0;
    }
    say("ok");
    return 1;
}
