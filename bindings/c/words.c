/* What a line is made of, and the answer to it. */
#include "console.h"

#include <stdarg.h>
#include <stdio.h>
#include <stdlib.h>
#include <string.h>

int is(const char *word, const char *text) {
    return strcmp(word, text) == 0;
}

/* A decimal number of one to twenty digits, up to `most`. */
int number(const char *word, uint64_t most, uint64_t *n) {
    size_t length = strlen(word);
    *n = 0;
    if (length == 0 || length > 20) {
        return 0;
    }
    for (size_t i = 0; i < length; i++) {
        uint64_t digit = (uint64_t)(word[i] - '0');
        if (word[i] < '0' || word[i] > '9' || *n > (UINT64_MAX - digit) / 10) {
            return 0;
        }
        *n = *n * 10 + digit;
    }
    return *n <= most;
}

/* A minus sign stands right before the digits. */
int signed_number(const char *word, int32_t *n) {
    int below = word[0] == '-';
    uint64_t size;
    if (!number(word + below, (uint64_t)INT32_MAX + (uint64_t)below, &size)) {
        return 0;
    }
    *n = (int32_t)(below ? -(int64_t)size : (int64_t)size);
    return 1;
}

int id_number(const char *word, uint16_t *id) {
    uint64_t n;
    if (!number(word, UINT16_MAX, &n)) {
        return 0;
    }
    *id = (uint16_t)n;
    return 1;
}

int stream_number(const char *word, uint8_t *stream) {
    *stream = is(word, "stdout") ? YOT_STDOUT : YOT_STDERR;
    return is(word, "stdout") || is(word, "stderr");
}

static int digit_of(char c) {
    return c >= '0' && c <= '9' ? c - '0' : c >= 'a' && c <= 'f' ? c - 'a' + 10 : -1;
}

/* Lower-case hex, two digits a byte; `-` is no bytes. */
int from_hex(const char *word, uint8_t *bytes, size_t room, size_t *length) {
    size_t digits = strlen(word);
    *length = 0;
    if (is(word, "-")) {
        return 1;
    }
    if (digits == 0 || digits % 2 == 1 || digits / 2 > room) {
        return 0;
    }
    for (size_t i = 0; i < digits; i += 2) {
        int high = digit_of(word[i]), low = digit_of(word[i + 1]);
        if (high < 0 || low < 0) {
            return 0;
        }
        bytes[(*length)++] = (uint8_t)(high * 16 + low);
    }
    return 1;
}

static char *answer;
static size_t answered, answer_room;

/* Makes room for so many characters more. */
static void grow(size_t more) {
    if (answered + more + 1 > answer_room) {
        answer_room = (answered + more + 1) * 2;
        answer = realloc(answer, answer_room);
        if (answer == NULL) {
            abort();
        }
    }
}

void begin_answer(void) {
    answered = 0;
}

void say(const char *format, ...) {
    va_list values;
    int length;
    grow(1000);
    va_start(values, format);
    length = vsnprintf(answer + answered, 1000, format, values);
    va_end(values);
    if (length < 0 || length >= 1000) {
        abort();
    }
    answered += (size_t)length;
}

void say_hex(const uint8_t *bytes, size_t length) {
    static const char digits[] = "0123456789abcdef";
    if (length == 0) {
        say("-");
        return;
    }
    grow(length * 2);
    for (size_t i = 0; i < length; i++) {
        answer[answered++] = digits[bytes[i] / 16];
        answer[answered++] = digits[bytes[i] % 16];
    }
}

void end_answer(void) {
    grow(1);
    answer[answered++] = '\n';
    if (fwrite(answer, 1, answered, stdout) != answered) {
        exit(1);
    }
}
