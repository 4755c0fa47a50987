/*
 * Holds the archive to what include/bogtassel.h promises of bogtassel_edit: on edits that are done and edits that are refused, in both
 * byte orders, for each length of the buffer around the old frame's and the new one's; done edits are undone again, and long rows of
 * readings are edited and compared with what bogtassel_write makes of the same row.
 * Frames and refusals are those of document 01, or were found by hand from it.
 * All memory that is lent has just the length that is passed, so that valgrind sees a byte too many.
 * Prints each broken promise; exit status 1 if any.
 */
#include "bogtassel.h"

#include <stdio.h>
#include <stdlib.h>
#include <string.h>

enum { EVENT = BOGTASSEL_EVENT_NUMBERS, SPARE = 0xA5, OTHER_SPARE = 0x5A, MAYBES = 65 };

/* What a reading is or becomes. */
struct reading {
    bool present;
    uint64_t bits;
};

struct edit {
    const char *what;
    const char *type;
    bool big_endian;
    const char *frame;
    size_t used;
    size_t number;
    struct reading new;
    uint8_t refusal;
    const char *after;
    size_t length;
    struct reading old;
};

#define TEXT(bytes) bytes, sizeof bytes - 1
#define NOTHING {false, 0}
#define BITS(bits) {true, bits}
#define DONE(bytes) BOGTASSEL_DONE, TEXT(bytes)
#define REFUSED(number) number, NULL, 0, NOTHING

static const struct edit edits[] = {
    /* document 01's worked frames */
    {"withdraw 215", "amn", false, TEXT("\xD7\0\0\0\2\2\4"), 0, NOTHING, DONE("\0\0\0\0\2"), BITS(215)},
    {"withdraw 0", "amn", false, TEXT("\0\0\0\0\2"), 2, NOTHING, DONE("\0\0\0"), BITS(0)},
    {"7, nothing becomes 7, 5", "(ymn)", false, TEXT("\7\0"), 0, BITS(5), DONE("\7\0\5\0"), NOTHING},
    /* nothing changes */
    {"withdraw a nothing", "amn", false, TEXT("\0\0\0\0\2"), 0, NOTHING, DONE("\0\0\0\0\2"), NOTHING},
    {"a number by itself", "amn", false, TEXT("\xD7\0\0\0\2\2\4"), 0, BITS(215), DONE("\xD7\0\0\0\2\2\4"), BITS(215)},
    /* each width, both byte orders, largest numbers */
    {"a bool", "mb", false, TEXT("\1"), 0, BITS(0), DONE("\0"), BITS(1)},
    {"a bool that was nothing", "mb", false, TEXT(""), 0, BITS(1), DONE("\1"), NOTHING},
    {"a byte", "my", false, TEXT("\5"), 0, BITS(255), DONE("\xFF"), BITS(5)},
    {"a big-endian number", "amn", true, TEXT("\0\xD7\xFF\xFE\2\4"), 1, BITS(1), DONE("\0\xD7\0\1\2\4"), BITS(65534)},
    {"an i", "mi", true, TEXT(""), 0, BITS(0xFFFFFFFE), DONE("\xFF\xFF\xFF\xFE"), NOTHING},
    {"a u", "mu", false, TEXT("\1\2\3\4"), 0, BITS(0x01020304), DONE("\4\3\2\1"), BITS(0x04030201)},
    {"the largest number", "mt", false, TEXT("\0\0\0\0\0\0\0\0"), 0, BITS(UINT64_MAX), DONE("\xFF\xFF\xFF\xFF\xFF\xFF\xFF\xFF"), BITS(0)},
    {"a double", "md", true, TEXT(""), 0, BITS(0xBFF8000000000000), DONE("\xBF\xF8\0\0\0\0\0\0"), NOTHING},
    /* where a reading stands */
    {"in a variant", "v", false, TEXT("\11\0\0mn"), 0, NOTHING, DONE("\0mn"), BITS(9)},
    {"as a dictionary's value", "a{smn}", false, TEXT("k\0\xFF\xFF\2\5"), 0, NOTHING, DONE("k\0\2\3"), BITS(65535)},
    {"in a present maybe", "mmn", false, TEXT("\7\0\0"), 0, NOTHING, DONE("\0"), BITS(7)},
    {"in front of a text", "(mns)", false, TEXT("\5\0a\0\2"), 0, NOTHING, DONE("a\0\0"), BITS(5)},
    {"the first of two", "(mnmy)", false, TEXT("\5\0\7\2"), 0, NOTHING, DONE("\7\0"), BITS(5)},
    {"the second of two", "(mnmy)", false, TEXT("\5\0\7\2"), 1, NOTHING, DONE("\5\0\2"), BITS(7)},
    {"in an element, whose follower moves", "a(ymn)", false, TEXT("\7\0\5\0\10\0\4\6"), 0, NOTHING, DONE("\7\0\10\0\2\4"), BITS(5)},
    {"in the last element", "a(ymn)", false, TEXT("\7\0\5\0\10\0\4\6"), 1, BITS(1), DONE("\7\0\5\0\10\0\1\0\4\10"), NOTHING},
    {"padding in front of it stays", "(ymt)", false, TEXT("\1\0\0\0\0\0\0\0\2\0\0\0\0\0\0\0"), 0, NOTHING, DONE("\1\0\0\0\0\0\0\0"), BITS(2)},
    {"padding behind it goes", "(mymt)", false, TEXT("\1\0\0\0\0\0\0\0\2\0\0\0\0\0\0\0\1"), 0, NOTHING, DONE("\2\0\0\0\0\0\0\0\0"), BITS(1)},
    /* 1 */
    {"no type", "", false, TEXT("\0"), 0, NOTHING, REFUSED(BOGTASSEL_TYPE)},
    {"a structure of none", "()", false, TEXT("\0"), 0, NOTHING, REFUSED(BOGTASSEL_TYPE)},
    /* 3 to 12, as bogtassel_size has them */
    {"an offset past its part", "amn", false, TEXT("\2"), 9, NOTHING, REFUSED(BOGTASSEL_BOUNDS)},
    {"padding that is missing", "(ymn)", false, TEXT("\7"), 0, NOTHING, REFUSED(BOGTASSEL_BOUNDS)},
    {"padding that is not 0", "(ymn)", false, TEXT("\7\1"), 0, NOTHING, REFUSED(BOGTASSEL_PADDING)},
    {"a nul in a text", "s", false, TEXT("a\0b"), 0, NOTHING, REFUSED(BOGTASSEL_NUL)},
    {"no UTF-8", "s", false, TEXT("\xFF\0"), 0, NOTHING, REFUSED(BOGTASSEL_UTF8)},
    {"a maybe's end", "ms", false, TEXT("a\0\1"), 0, NOTHING, REFUSED(BOGTASSEL_MAYBE)},
    {"no separator", "v", false, TEXT("u"), 0, NOTHING, REFUSED(BOGTASSEL_SEPARATOR)},
    {"a variant's type", "v", false, TEXT("\0\0)"), 0, NOTHING, REFUSED(BOGTASSEL_VARIANT_TYPE)},
    /* 15, and before 16 and 17 */
    {"bytes that are not used", "my", false, TEXT("\5\6"), 0, NOTHING, REFUSED(BOGTASSEL_NOT_WRITTEN)},
    {"offsets that do not rise", "amy", false, TEXT("\2\0\0\2\1\3"), 0, NOTHING, REFUSED(BOGTASSEL_NOT_WRITTEN)},
    {"15 before 16", "b", false, TEXT("\2"), 9, BITS(2), REFUSED(BOGTASSEL_NOT_WRITTEN)},
    {"15 before 17", "my", false, TEXT("\5\6"), 0, BITS(256), REFUSED(BOGTASSEL_NOT_WRITTEN)},
    /* 16, and before 17 */
    {"no reading", "amn", false, TEXT(""), 0, NOTHING, REFUSED(BOGTASSEL_NO_READING)},
    {"one too far", "amn", false, TEXT("\xD7\0\0\0\2\2\4"), 3, NOTHING, REFUSED(BOGTASSEL_NO_READING)},
    {"as far as can be", "amn", false, TEXT("\xD7\0\0\0\2\2\4"), SIZE_MAX, NOTHING, REFUSED(BOGTASSEL_NO_READING)},
    {"a plain number is none", "n", false, TEXT("\5\0"), 0, NOTHING, REFUSED(BOGTASSEL_NO_READING)},
    {"a maybe of a text is none", "ms", false, TEXT("a\0\0"), 0, NOTHING, REFUSED(BOGTASSEL_NO_READING)},
    {"a nothing round it", "mmn", false, TEXT(""), 0, NOTHING, REFUSED(BOGTASSEL_NO_READING)},
    {"16 before 17", "amb", false, TEXT("\0"), 1, BITS(2), REFUSED(BOGTASSEL_NO_READING)},
    /* 17 */
    {"a bool above 1", "mb", false, TEXT("\1"), 0, BITS(2), REFUSED(BOGTASSEL_VALUE)},
    {"a byte of 256", "my", false, TEXT("\5"), 0, BITS(256), REFUSED(BOGTASSEL_VALUE)},
    {"a number that is not cut to its width", "mn", false, TEXT(""), 0, BITS(UINT64_MAX), REFUSED(BOGTASSEL_VALUE)},
    {"a q of 65,536", "mq", false, TEXT(""), 0, BITS(65536), REFUSED(BOGTASSEL_VALUE)},
    {"a u of 2^32", "mu", false, TEXT(""), 0, BITS(0x100000000), REFUSED(BOGTASSEL_VALUE)},
};

static int broken;

static void expect(bool holds, const char *what, size_t room, const char *promise) {
    if (!holds) {
        printf("%s, room %zu: %s\n", what, room, promise);
        broken = 1;
    }
}

static void *lent(size_t length) {
    void *const memory = malloc(length == 0 ? 1 : length);

    if (memory == NULL) {
        perror("no room");
        exit(3);
    }
    return memory;
}

/* A copy that has just this length, or one byte that is none of ours for an empty slice. */
static void *copied(const void *bytes, size_t length) {
    void *const copy = lent(length);

    return length == 0 ? memset(copy, SPARE, 1) : memcpy(copy, bytes, length);
}

static bool is_all(const uint8_t *bytes, size_t length, int value) {
    size_t i;

    for (i = 0; i < length; i++) {
        if (bytes[i] != value) {
            return false;
        }
    }
    return true;
}

/* A buffer of a length with a frame at its front, of which no more is taken than there is room for. */
static uint8_t *buffer_with(const void *frame, size_t used, size_t room, int spare) {
    uint8_t *const buffer = lent(room);

    memset(buffer, spare, room);
    memcpy(buffer, frame, used < room ? used : room);
    return buffer;
}

/* One call, with memory of its own for the type. */
static uint8_t edited(const struct edit *edit, const struct reading *new, uint8_t *buffer, size_t room, size_t used, size_t *length) {
    const size_t type_length = strlen(edit->type);
    uint8_t *const type = copied(edit->type, type_length);
    const uint8_t refusal = bogtassel_edit(type, type_length, edit->big_endian, buffer, room, used, edit->number, new->present, new->bits, length);

    expect(memcmp(type, edit->type, type_length) == 0, edit->what, room, "the type was written to");
    free(type);
    return refusal;
}

/* A frame of so many bytes stands at the front of a buffer, zeros up to the old length, and spare room behind both. */
static void expect_frame(const struct edit *edit, const uint8_t *buffer, size_t room, const void *frame, size_t length, size_t old, int spare) {
    const size_t both = length < old ? old : length;

    expect(memcmp(buffer, frame, length) == 0, edit->what, room, "the new frame");
    expect(length >= old || is_all(buffer + length, old - length, 0), edit->what, room, "zeros behind a shorter frame");
    expect(is_all(buffer + both, room - both, spare), edit->what, room, "spare room was written");
}

/* The new frame is a written form, and the edit back gives the old one. */
static void undo(const struct edit *edit, uint8_t *buffer, size_t room, int spare) {
    const uint8_t *const type = (const uint8_t *)edit->type;
    size_t length = 99;

    expect(bogtassel_is_written(type, strlen(edit->type), edit->big_endian, buffer, edit->length) == BOGTASSEL_DONE, edit->what, room,
           "the new frame is a written form");
    memset(buffer + edit->length, spare, room - edit->length);
    expect(edited(edit, &edit->old, buffer, room, edit->length, &length) == BOGTASSEL_DONE && length == edit->used, edit->what, room,
           "the edit back");
    expect_frame(edit, buffer, room, edit->frame, edit->used, edit->length, spare);
}

static void ask(const struct edit *edit, size_t room, int spare) {
    uint8_t *const buffer = buffer_with(edit->frame, edit->used, room, spare);
    const bool fits = edit->length <= room;
    const uint8_t expected = edit->refusal == BOGTASSEL_DONE && !fits ? BOGTASSEL_ROOM : edit->refusal;
    size_t length = 99;
    const uint8_t refusal = edited(edit, &edit->new, buffer, room, edit->used, &length);

    expect(refusal == expected, edit->what, room, "the refusal");
    if (expected != BOGTASSEL_DONE || refusal != expected) {
        expect(length == 0, edit->what, room, "the length of a refusal");
        expect(memcmp(buffer, edit->frame, edit->used) == 0 && is_all(buffer + edit->used, room - edit->used, spare), edit->what, room,
               "a refusal wrote to the buffer");
    } else {
        expect(length == edit->length, edit->what, room, "the new length");
        expect_frame(edit, buffer, room, edit->after, edit->length, edit->used, spare);
        undo(edit, buffer, room, spare);
    }
    free(buffer);
}

static void ask_all(const struct edit *edit) {
    const size_t most = (edit->length < edit->used ? edit->used : edit->length) + 9;
    size_t room;

    for (room = edit->used; room <= most; room++) {
        ask(edit, room, SPARE);
        ask(edit, room, OTHER_SPARE);
    }
}

/* 2: a used length over the buffer, or over the limit; behind 1, and before what reading meets. */
static void used_lengths(void) {
    static const struct reading none = NOTHING;
    const struct edit edit = {"a used length", "amn", false, TEXT(""), 0, NOTHING, REFUSED(BOGTASSEL_LIMITS)};
    const struct edit untyped = {"1 before 2", "()", false, TEXT(""), 0, NOTHING, REFUSED(BOGTASSEL_TYPE)};
    uint8_t *const short_buffer = buffer_with("\2\2\2", 3, 3, SPARE);
    uint8_t *const long_buffer = buffer_with("", 0, BOGTASSEL_LIMIT + 9, 0);
    size_t length = 99;

    expect(edited(&edit, &none, short_buffer, 3, 4, &length) == BOGTASSEL_LIMITS && length == 0, edit.what, 3, "over the buffer");
    length = 99;
    expect(edited(&edit, &none, short_buffer, 3, SIZE_MAX, &length) == BOGTASSEL_LIMITS && length == 0, edit.what, 3, "far over the buffer");
    length = 99;
    expect(edited(&untyped, &none, short_buffer, 3, 4, &length) == BOGTASSEL_TYPE && length == 0, untyped.what, 3, "the refusal");
    expect(is_all(short_buffer, 3, 2), edit.what, 3, "a refusal wrote to the buffer");
    length = 99;
    expect(edited(&edit, &none, long_buffer, BOGTASSEL_LIMIT + 9, BOGTASSEL_LIMIT + 1, &length) == BOGTASSEL_LIMITS && length == 0, edit.what,
           BOGTASSEL_LIMIT + 9, "over the limit");
    length = 99;
    expect(bogtassel_edit((const uint8_t *)"ay", 2, false, long_buffer, BOGTASSEL_LIMIT + 9, BOGTASSEL_LIMIT, 0, false, 0, &length) ==
                   BOGTASSEL_NO_READING &&
               length == 0,
           "ay", BOGTASSEL_LIMIT + 9, "a frame at the limit");
    expect(is_all(long_buffer, BOGTASSEL_LIMIT + 9, 0), edit.what, BOGTASSEL_LIMIT + 9, "a refusal wrote to the buffer");
    free(long_buffer);
    free(short_buffer);
}

/* The second 12: a nothing inside so many present maybes. Its frame is a zero for each of them. */
static void deep(size_t maybes, const struct reading *new, uint8_t refusal, const char *what) {
    char type[MAYBES + 2] = {0};
    char zeros[MAYBES + 2] = {0};
    char after[MAYBES + 2] = {0};
    struct edit edit = {what, type, false, zeros, maybes, 0, *new, refusal, after, 0, NOTHING};

    memset(type, 'm', maybes + 1);
    type[maybes + 1] = 'n';
    after[0] = 5;
    edit.length = refusal == BOGTASSEL_DONE ? maybes + (new->present ? 2 : 0) : 0;
    if (!new->present) {
        edit.after = zeros;
    }
    ask_all(&edit);
}

static void depths(void) {
    static const struct reading five = BITS(5), wide = BITS(65536), none = NOTHING;

    deep(63, &five, BOGTASSEL_DONE, "a nothing inside 63 maybes becomes present");
    deep(64, &five, BOGTASSEL_DEPTH, "a nothing inside 64 maybes becomes present");
    deep(64, &wide, BOGTASSEL_VALUE, "17 before the second 12");
    deep(64, &none, BOGTASSEL_DONE, "a nothing inside 64 maybes is withdrawn");
}

/* A row of readings: every third is nothing, and the others are their numbers. */
static struct reading reading_at(size_t i) {
    struct reading reading = {i % 3 != 1, i % 3 == 1 ? 0 : i % 65536};

    return reading;
}

/* The row written by bogtassel_write, with one of its readings put as another: the frame's length, or 0 if it is refused. */
static size_t row(uint8_t *out, size_t room, size_t count, bool big_endian, size_t number, const struct reading *new) {
    uint64_t *const events = lent(EVENT * (2 * count + 2) * sizeof *events);
    size_t next = 0, length = 0, i;

    memset(events, 0, EVENT * (2 * count + 2) * sizeof *events);
    events[next] = 'a';
    next += EVENT;
    for (i = 0; i < count; i++) {
        const struct reading reading = i == number ? *new : reading_at(i);

        events[next] = reading.present ? 'm' : 'N';
        next += EVENT;
        if (reading.present) {
            events[next] = 'n';
            events[next + 2] = reading.bits;
            next += EVENT;
        }
    }
    events[next] = ')';
    next += EVENT;
    bogtassel_write((const uint8_t *)"amn", 3, big_endian, events, next, (const uint8_t *)"", 0, out, room, &length);
    free(events);
    return length;
}

/* Each of some readings of the row, withdrawn or put, is as bogtassel_write has the row with it. */
static void rows(size_t count, bool big_endian, const struct reading *new) {
    enum { ROOM = 12000 };
    uint8_t *const old = lent(ROOM), *const after = lent(ROOM);
    size_t number;

    for (number = 0; number < count; number += 1 + count / 7) {
        const struct reading was = reading_at(number);
        struct edit edit = {"a row", "amn", big_endian, (const char *)old, 0, number, *new, BOGTASSEL_DONE, (const char *)after, 0, was};

        edit.used = row(old, ROOM, count, big_endian, number, &was);
        edit.length = row(after, ROOM, count, big_endian, number, new);
        expect(edit.used > 0 && edit.length > 0, "a row", count, "bogtassel_write");
        ask(&edit, edit.used, SPARE);
        ask(&edit, edit.length < edit.used ? edit.used : edit.length, SPARE);
        ask(&edit, ROOM, OTHER_SPARE);
    }
    free(after);
    free(old);
}

/* The limit of the new frame: (mnay) of 65,535 bytes whose nothing becomes present. 2 before 13, and whatever room there is. */
static void long_frames(void) {
    enum { BODY = 65533, USED = BODY + 2 };
    uint8_t *const frame = lent(USED);
    struct edit edit = {"a new frame over the limit", "(mnay)", false, (const char *)frame, USED, 0, BITS(5), REFUSED(BOGTASSEL_LIMITS)};

    memset(frame, 'a', BODY);
    frame[BODY] = frame[BODY + 1] = 0;
    ask(&edit, USED, SPARE);
    ask(&edit, BOGTASSEL_LIMIT, SPARE);
    ask(&edit, 70000, SPARE);
    edit.what = "a long nothing that is withdrawn";
    edit.new.present = false;
    edit.refusal = BOGTASSEL_DONE;
    edit.after = edit.frame;
    edit.length = USED;
    ask(&edit, USED, SPARE);
    free(frame);
}

int main(void) {
    static const struct reading none = NOTHING, largest = BITS(65535);
    static const size_t counts[] = {1, 2, 84, 85, 86, 127, 128, 129, 255, 340, 341, 342, 511, 512, 513, 2000};
    size_t i;

    for (i = 0; i < sizeof edits / sizeof *edits; i++) {
        ask_all(&edits[i]);
    }
    used_lengths();
    depths();
    for (i = 0; i < sizeof counts / sizeof *counts; i++) {
        rows(counts[i], false, &none);
        rows(counts[i], true, &largest);
    }
    long_frames();
    return broken;
}
