/*
 * Holds the archive to what include/bogtassel.h promises of counts and lent memory, for each length of `out` around
 * the number of events, on frames that are read and frames that are refused.
 * Prints each broken promise; exit status 1 if any.
 */
#include "bogtassel.h"

#include <stdio.h>
#include <stdlib.h>
#include <string.h>

/* A copy in a block of its own, of just this length, so that valgrind sees a byte read or written beside it. */
static void *heap(const void *from, size_t length) {
    void *const copy = malloc(length);

    if (copy == NULL) exit(3);
    if (length) memcpy(copy, from, length);
    return copy;
}

enum { ROOM = 64, SPARE = 0x5A };

struct question {
    const char *type;
    const char *bytes;
    size_t length;
    size_t position;
    uint8_t refusal;
    size_t used;
    size_t count;
};

#define FRAME(bytes) bytes, sizeof bytes - 1

/* The frames of tests/c/run and of document 01, with the answer that document 01 gives. */
static const struct question questions[] = {
    {"amn", FRAME("\xD7\0\0\0\2\2\4"), 0, BOGTASSEL_DONE, 7, 7},
    {"amn", FRAME("\0\0\0"), 0, BOGTASSEL_DONE, 3, 5},
    {"amn", FRAME(""), 0, BOGTASSEL_DONE, 0, 2},
    {"s", FRAME(""), 0, BOGTASSEL_DONE, 0, 1},
    {"as", FRAME("\1"), 0, BOGTASSEL_DONE, 0, 2},
    {"(ymn)", FRAME("\7\0\5\0"), 0, BOGTASSEL_DONE, 4, 5},
    {"a{sy}", FRAME("k\0\11\2\4"), 0, BOGTASSEL_DONE, 5, 4},
    {"v", FRAME("\7\0\0\0\0u"), 0, BOGTASSEL_DONE, 6, 4},
    {"y", FRAME("\7"), 65536, BOGTASSEL_DONE, 1, 1},
    {"()", FRAME(""), 0, BOGTASSEL_TYPE, 0, 0},
    {"", FRAME(""), 0, BOGTASSEL_TYPE, 0, 0},
    {"y", FRAME("\7"), 65537, BOGTASSEL_LIMITS, 0, 0},
    {"y", FRAME("\7"), SIZE_MAX, BOGTASSEL_LIMITS, 0, 0},
    {"amn", FRAME("\2"), 0, BOGTASSEL_BOUNDS, 0, 0},
    {"(ymn)", FRAME("\7\1"), 0, BOGTASSEL_PADDING, 0, 0},
    {"as", FRAME("a\0b\0\2\4"), 0, BOGTASSEL_DONE, 6, 4},
    {"as", FRAME("\2"), 0, BOGTASSEL_BOUNDS, 0, 0},
    {"(ss)", FRAME("a\0\xFF\2"), 0, BOGTASSEL_UTF8, 0, 0},
    {"(ss)", FRAME("a\0b\0c\2"), 0, BOGTASSEL_NUL, 0, 0},
    {"ms", FRAME("a\0\1"), 0, BOGTASSEL_MAYBE, 0, 0},
    {"v", FRAME("u"), 0, BOGTASSEL_SEPARATOR, 0, 0},
    {"v", FRAME("\0\0)"), 0, BOGTASSEL_VARIANT_TYPE, 0, 0},
};

static int broken;

static void expect(bool holds, const struct question *question, size_t length, const char *what) {
    if (!holds) {
        printf("%s, %zu bytes, room %zu: %s\n", question->type, question->length, length, what);
        broken = 1;
    }
}

static bool spare(const uint64_t *numbers, size_t count) {
    const unsigned char *const bytes = (const unsigned char *)numbers;
    size_t i;

    for (i = 0; i < count * sizeof *numbers; i++) {
        if (bytes[i] != SPARE) {
            return false;
        }
    }
    return true;
}

static void ask_size(const struct question *question) {
    size_t used = 99, count = 99;
    uint8_t *const type = heap(question->type, strlen(question->type));
    uint8_t *const bytes = heap(question->bytes, question->length);
    const uint8_t refusal =
        bogtassel_size(type, strlen(question->type), false, question->position, bytes, question->length, &used, &count);

    free(type);
    free(bytes);

    expect(refusal == question->refusal, question, 0, "the refusal of size");
    expect(used == question->used && count == question->count, question, 0, "the counts of size");
}

static void ask_read(const struct question *question, size_t length) {
    uint64_t out[ROOM];
    size_t used = 99, count = 99;
    const bool fits = 3 * question->count <= length;
    const bool done = question->refusal == BOGTASSEL_DONE && fits;
    const uint8_t expected = question->refusal == BOGTASSEL_DONE && !fits ? BOGTASSEL_ROOM : question->refusal;
    uint8_t refusal;
    uint8_t *type, *bytes;
    uint64_t *lent;

    memset(out, SPARE, sizeof out);
    type = heap(question->type, strlen(question->type));
    bytes = heap(question->bytes, question->length);
    lent = heap(out, length * sizeof *out);
    refusal = bogtassel_read(type, strlen(question->type), false, question->position, bytes, question->length, lent,
                             length, &used, &count);
    memcpy(out, lent, length * sizeof *out);
    free(type);
    free(bytes);
    free(lent);
    expect(refusal == expected, question, length, "the refusal of read");
    expect(used == (done ? question->used : 0), question, length, "the bytes used of read");
    expect(count == (done ? question->count : 0), question, length, "the number of events of read");
    if (done) {
        expect(spare(out + 3 * count, ROOM - 3 * count), question, length, "spare room was written");
        expect(out[3 * count - 3] < 128 && out[3 * count - 2] <= question->length, question, length, "the last event");
    } else {
        expect(spare(out, ROOM), question, length, "a refusal wrote to the lent room");
    }
}

int main(void) {
    size_t i, length;

    for (i = 0; i < sizeof questions / sizeof *questions; i++) {
        ask_size(&questions[i]);
        for (length = 0; length <= 3 * questions[i].count + 4; length++) {
            ask_read(&questions[i], length);
        }
    }
    return broken;
}
