/* The console's writers, its readings and their correction. */
#include "console.h"

#include <stdlib.h>
#include <string.h>

uint8_t *filled(size_t room) {
    /* A buffer of its own for each call: then a tool sees a byte that is written past its end. */
    uint8_t *buffer = malloc(room ? room : 1);
    if (buffer == NULL) {
        abort();
    }
    memset(buffer, FILL, room);
    return buffer;
}

void say_touched(const uint8_t *buffer, size_t room) {
    for (size_t i = 0; i < room; i++) {
        if (buffer[i] != FILL) {
            say(" touched");
            return;
        }
    }
}

void say_wrote(const uint8_t *buffer, size_t room, size_t written, const char *end) {
    say("%zu ", written);
    say_hex(buffer, written);
    say("%s", end);
    say_touched(buffer + written, room - written);
}

static int reading_command(const words *w) {
    uint64_t log, raw, room;
    int32_t tenths;
    if (!number(w->word[1], UINT32_MAX, &log) || !signed_number(w->word[2], &tenths)
        || !number(w->word[3], UINT32_MAX, &raw) || !number(w->word[4], MOST_BYTES, &room)) {
        return 0;
    }
    uint8_t *buffer = filled(room);
    yot_wrote wrote = yot_write_reading(buffer, room, (uint32_t)log, tenths, (uint32_t)raw);
    if (wrote.refusal) {
        say("refused %d", wrote.refusal);
        say_touched(buffer, room);
    } else {
        say("wrote ");
        say_wrote(buffer, room, wrote.written, "");
    }
    free(buffer);
    return 1;
}

/* Reads until the bytes are used up or the body is refused; once if there are none. */
static int read_command(console *c, const words *w) {
    static uint8_t bytes[MOST_BYTES];
    size_t length, used = 0;
    if (!from_hex(w->word[1], bytes, sizeof bytes, &length)) {
        return 0;
    }
    do {
        yot_read read = yot_read_reading(c->reader, length ? bytes + used : NULL, length - used);
        c->reader = read.reader;
        used += read.used;
        if (read.refusal) {
            say("refused %d at %zu", read.refusal, used);
            return 1;
        }
        if (read.kind == 1) {
            say("reading %lu %ld %lu; ", (unsigned long)read.log, (long)read.tenths, (unsigned long)read.raw);
        }
    } while (used < length);
    say("used %zu", used);
    return 1;
}

static int body_ends(console *c) {
    yot_ended ended = yot_end_body(c->reader);
    c->reader = ended.reader;
    if (ended.refusal) {
        say("refused %d", ended.refusal);
    } else {
        say("clean");
    }
    return 1;
}

static double float_of(const uint8_t *bytes) {
    uint64_t bits = 0;
    double d;
    for (int i = 0; i < 8; i++) {
        bits = bits * 256 + bytes[i];
    }
    memcpy(&d, &bits, sizeof d);
    return d;
}

/* A first byte for the kind, then one float or two. */
static int card_of(const char *word, yot_card *card) {
    uint8_t bytes[17];
    size_t length;
    if (!from_hex(word, bytes, sizeof bytes, &length)) {
        return 0;
    }
    memset(card, 0, sizeof *card);
    if (length == 9 && bytes[0] == 0) {
        card->kind = YOT_CARD_THAWED;
        card->first = float_of(bytes + 1);
        return 1;
    }
    if (length == 17 && bytes[0] == 1) {
        card->kind = YOT_CARD_FROZEN;
        card->first = float_of(bytes + 1);
        card->second = float_of(bytes + 9);
        return 1;
    }
    return 0;
}

static int correct_command(const words *w) {
    yot_card thawed, frozen;
    int32_t tenths;
    uint64_t raw, bits;
    if (!card_of(w->word[1], &thawed) || !card_of(w->word[2], &frozen) || !signed_number(w->word[3], &tenths)
        || !number(w->word[4], UINT32_MAX, &raw)) {
        return 0;
    }
    yot_corrected corrected = yot_correct(thawed, frozen, tenths, (uint32_t)raw);
    if (corrected.refusal) {
        say("refused %d", corrected.refusal);
        return 1;
    }
    memcpy(&bits, &corrected.count, sizeof bits);
    say("count %016llx", (unsigned long long)bits);
    return 1;
}

int body_command(console *c, const words *w) {
    const char *first = w->word[0];
    if (w->count == 5 && is(first, "reading")) {
        return reading_command(w);
    }
    if (w->count == 2 && is(first, "read")) {
        return read_command(c, w);
    }
    if (w->count == 2 && is(first, "body") && is(w->word[1], "end")) {
        return body_ends(c);
    }
    if (w->count == 2 && is(first, "body") && is(w->word[1], "new")) {
        c->reader = yot_new_reader();
        say("ok");
        return 1;
    }
    if (w->count == 5 && is(first, "correct")) {
        return correct_command(w);
    }
    return 0;
}
