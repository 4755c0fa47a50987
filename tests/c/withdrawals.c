/*
 * Withdraws every reading of many frames in buffers that are exactly full, and holds the archive to what include/bogtassel.h promises of
 * withdrawals: each is done, its frame is no longer than the old one and is what bogtassel_write makes of the value without the reading,
 * zeros stand behind it, and nothing behind the reading stands further back. Then the readings of the frame are withdrawn one after another,
 * each time in a buffer that is exactly full again.
 * Types and values are made at random, by a generator that always makes the same ones: frames of many types, rows of readings around
 * the lengths at which offsets become narrower, and one near the limit of a frame.
 * All memory that is lent has just the length that is passed, so that valgrind sees a byte too many.
 * Prints each broken promise, and what was withdrawn; exit status 1 if any promise is broken.
 */
#include "bogtassel.h"

#include <stdio.h>
#include <stdlib.h>
#include <string.h>

enum { EVENT = BOGTASSEL_EVENT_NUMBERS, FRAMES = 1200, MOST_EVENTS = 70000, MOST_READINGS = 32768, DEEPEST = 4, TYPES = 64 };

static const char numbers[] = "bynqiuxtd";
static const size_t widths[] = {1, 1, 2, 2, 4, 4, 8, 8, 8};

/* A value that is made: its events, the bytes of its texts, and which event each reading is. */
struct value {
    uint64_t events[EVENT * MOST_EVENTS];
    size_t count;
    uint8_t texts[BOGTASSEL_LIMIT];
    size_t texts_length;
    size_t readings[MOST_READINGS];
    size_t reading_count;
};

static struct value made;
static uint64_t changed[EVENT * MOST_EVENTS];
static uint64_t before[EVENT * MOST_EVENTS], after[EVENT * MOST_EVENTS];
static uint64_t state = 1;
static size_t frames, withdrawn, shorter, narrower;
static int broken;

static void expect(bool holds, const char *type, size_t number, const char *promise) {
    if (!holds) {
        printf("%s, reading %zu: %s\n", type, number, promise);
        broken = 1;
    }
}

/* A number below another, from a row of numbers that is always the same. */
static size_t below(size_t most) {
    state = state * 6364136223846793005U + 1442695040888963407U;
    return (size_t)((state >> 33) % most);
}

static void *copied(const void *bytes, size_t length) {
    uint8_t *const copy = malloc(length == 0 ? 1 : length);

    if (copy == NULL) {
        perror("no room");
        exit(3);
    }
    memcpy(copy, bytes, length);
    return copy;
}

/* A type at random, put where `type` points; what is behind it. Half of its leaves are readings. */
static char *make_type(char *type, size_t depth) {
    const size_t kind = depth == 0 ? below(4) : below(9);
    size_t fields;

    switch (kind) {
    case 0:
        *type++ = "sogsv"[below(5)];
        return type;
    case 1:
        *type++ = numbers[below(9)];
        return type;
    case 2:
    case 3:
        *type++ = 'm';
        *type++ = numbers[below(9)];
        return type;
    case 4:
        *type++ = 'm';
        return make_type(type, depth - 1);
    case 5:
        *type++ = 'a';
        *type++ = '{';
        *type++ = "sqtsb"[below(5)];
        type = make_type(type, depth - 1);
        *type++ = '}';
        return type;
    case 6:
        *type++ = 'a';
        return make_type(type, depth - 1);
    default:
        *type++ = '(';
        for (fields = 1 + below(4); fields > 0; fields--) {
            type = make_type(type, depth - 1);
        }
        *type++ = ')';
        return type;
    }
}

/* What stands behind the type that begins here. */
static const char *behind(const char *type) {
    const char open = *type++;

    if (open == 'm' || open == 'a') {
        return behind(type);
    }
    if (open == '(' || open == '{') {
        while (*type != ')' && *type != '}') {
            type = behind(type);
        }
        type++;
    }
    return type;
}

static void add_event(int kind, uint64_t place, uint64_t payload) {
    uint64_t *const event = made.events + EVENT * made.count++;

    if (made.count == MOST_EVENTS) {
        fprintf(stderr, "too many events\n");
        exit(3);
    }
    event[0] = (uint64_t)kind;
    event[1] = place;
    event[2] = payload;
}

static void add_text(int kind, const char *text, size_t length) {
    memcpy(made.texts + made.texts_length, text, length);
    add_event(kind, made.texts_length, length);
    made.texts_length += length;
}

static void add_number(char letter) {
    const size_t width = widths[strchr(numbers, letter) - numbers];
    uint64_t bits = ((uint64_t)below(1U << 31) << 33) ^ ((uint64_t)below(1U << 31) << 15) ^ below(1U << 31);

    if (letter == 'b') {
        bits %= 2;
    } else if (width < 8) {
        bits %= (uint64_t)1 << (8 * width);
    }
    add_event(letter, 0, bits);
}

static const char *add_value(const char *type, size_t room);

/* So many elements of an array, or entries of a dictionary. */
static const char *add_elements(const char *type, size_t room) {
    const bool dictionary = *type == '{';
    size_t left = room == 0 ? 0 : below(8) == 0 ? 0 : 1 + below(room);

    add_event(dictionary ? '{' : 'a', 0, 0);
    for (; left > 0; left--) {
        if (dictionary) {
            add_value(add_value(type + 1, room), room / 2);
        } else {
            add_value(type, room / 2);
        }
    }
    add_event(')', 0, 0);
    return behind(type);
}

static const char *add_variant(const char *type) {
    char inner[TYPES * 8] = {0};

    while (strlen(inner) == 0 || strlen(inner) > TYPES) {
        memset(inner, 0, sizeof inner);
        make_type(inner, 1);
    }
    add_event('v', 0, 0);
    add_text('g', inner, strlen(inner));
    add_value(inner, 2);
    add_event(')', 0, 0);
    return type + 1;
}

/* A value at random of the type that begins here; what stands behind the type. */
static const char *add_value(const char *type, size_t room) {
    static const char letters[] = "abcdefghijklmnopqrstuvwxyzabcdefghijklmnopqrstuvwxyzabcdefghijklmnopqrstuvwxyzabcdefghijklmnopqrstuvwxyz";

    if (*type == 'm') {
        if (strchr(numbers, type[1]) != NULL) {
            made.readings[made.reading_count++] = made.count;
        }
        if (below(4) == 0) {
            add_event('N', 0, 0);
            return behind(type + 1);
        }
        add_event('m', 0, 0);
        return add_value(type + 1, room);
    }
    if (*type == 'a') {
        return add_elements(type + 1, room);
    }
    if (*type == '(') {
        add_event('(', 0, 0);
        for (type++; *type != ')';) {
            type = add_value(type, room);
        }
        add_event(')', 0, 0);
        return type + 1;
    }
    if (*type == 'v') {
        return add_variant(type);
    }
    if (strchr("sog", *type) != NULL) {
        add_text(*type, letters, below(6) == 0 ? below(100) : below(9));
    } else {
        add_number(*type);
    }
    return type + 1;
}

/* The frame of events, of its own length; none where it would be over the limit. */
static uint8_t *written(const char *type, bool big_endian, const uint64_t *events, size_t count, size_t *length) {
    static uint8_t out[BOGTASSEL_LIMIT];
    const uint8_t refusal = bogtassel_write((const uint8_t *)type, strlen(type), big_endian, events, EVENT * count, made.texts,
                                            made.texts_length, out, sizeof out, length);

    if (refusal == BOGTASSEL_LIMITS) {
        return NULL;
    }
    expect(refusal == BOGTASSEL_DONE, type, count, "bogtassel_write");
    return copied(out, *length);
}

/* The events of the value with one of its readings withdrawn; how many they are. */
static size_t without(size_t number) {
    const size_t at = made.readings[number], present = made.events[EVENT * at] == 'm';
    uint64_t *const event = changed + EVENT * at;

    memcpy(changed, made.events, EVENT * at * sizeof *changed);
    event[0] = 'N';
    event[1] = event[2] = 0;
    memcpy(event + EVENT, made.events + EVENT * (at + 1 + present), EVENT * (made.count - at - 1 - present) * sizeof *changed);
    return made.count - present;
}

static void read_all(const char *type, bool big_endian, const uint8_t *frame, size_t length, uint64_t *out, size_t count, size_t number) {
    size_t used, events;

    const uint8_t refusal =
        bogtassel_read((const uint8_t *)type, strlen(type), big_endian, 0, frame, length, out, EVENT * MOST_EVENTS, &used, &events);

    expect(refusal == BOGTASSEL_DONE && used == length && events == count, type, number, "the frame reads");
}

/* What stood in front of the reading stays, and the reading; all that follows it stands where it stood, or further in front. Of a variant that
 * holds the reading the type stands behind it, though its event goes first. */
static void none_further_back(const char *type, size_t number, size_t count) {
    const size_t at = made.readings[number], gone = made.count - count;
    size_t i;

    for (i = 0; i < count; i++) {
        const uint64_t old = before[EVENT * (i <= at ? i : i + gone) + 1], new = after[EVENT * i + 1];

        expect(new == old || (new < old && old > before[EVENT * at + 1]), type, number, "the place of an event");
    }
}

/* One withdrawal in a buffer that is exactly full: the new length. */
static size_t withdraw(const char *type, bool big_endian, uint8_t *buffer, size_t used, size_t number) {
    size_t length = 99;
    const uint8_t refusal = bogtassel_edit((const uint8_t *)type, strlen(type), big_endian, buffer, used, used, number, false, 0, &length);

    expect(refusal == BOGTASSEL_DONE, type, number, "a withdrawal in a full buffer is done");
    expect(length <= used, type, number, "a withdrawal makes no frame longer");
    if (refusal != BOGTASSEL_DONE || length > used) {
        return used;
    }
    for (size_t i = length; i < used; i++) {
        expect(buffer[i] == 0, type, number, "zeros behind a shorter frame");
    }
    withdrawn++;
    shorter += length < used;
    narrower += length <= 255 && used > 256;
    return length;
}

static void each_alone(const char *type, bool big_endian, const uint8_t *frame, size_t used) {
    size_t number;

    for (number = 0; number < made.reading_count; number++) {
        const size_t count = without(number);
        uint8_t *const buffer = copied(frame, used);
        const size_t length = withdraw(type, big_endian, buffer, used, number);
        size_t expected_length = 0;
        uint8_t *const expected = written(type, big_endian, changed, count, &expected_length);

        expect(expected != NULL && length == expected_length && memcmp(buffer, expected, length) == 0, type, number,
               "the frame of the value without the reading");
        read_all(type, big_endian, buffer, length, after, count, number);
        none_further_back(type, number, count);
        free(expected);
        free(buffer);
    }
}

/* All of them, the last first or the first first, each in a buffer of just the present length; at the end all are nothing. */
static void one_after_another(const char *type, bool big_endian, const uint8_t *frame, size_t used, bool last_first) {
    uint8_t *buffer = copied(frame, used);
    size_t length, i, number;

    for (i = 0; i < made.reading_count; i++) {
        uint8_t *full;

        number = last_first ? made.reading_count - 1 - i : i;
        length = withdraw(type, big_endian, buffer, used, number);
        full = copied(buffer, length);
        free(buffer);
        buffer = full;
        used = length;
    }
    expect(bogtassel_is_written((const uint8_t *)type, strlen(type), big_endian, buffer, used) == BOGTASSEL_DONE, type, i,
           "the last frame is a written form");
    expect(bogtassel_edit((const uint8_t *)type, strlen(type), big_endian, buffer, used, used, i, false, 0, &length) == BOGTASSEL_NO_READING, type, i,
           "there is no further reading");
    free(buffer);
}

static void begin_value(void) {
    made.count = made.texts_length = made.reading_count = 0;
}

/* The value that was made, in both byte orders. */
static void withdraw_all(const char *type) {
    for (int big_endian = 0; big_endian < 2; big_endian++) {
        size_t used = 0;
        uint8_t *const frame = written(type, big_endian, made.events, made.count, &used);

        if (frame != NULL) {
            frames++;
            read_all(type, big_endian, frame, used, before, made.count, 0);
            each_alone(type, big_endian, frame, used);
            one_after_another(type, big_endian, frame, used, big_endian);
            free(frame);
        }
    }
}

/* A row of readings in front of a text: offsets become narrower as they go. */
static void rows(const char *type, size_t count) {
    begin_value();
    add_event('(', 0, 0);
    add_event('a', 0, 0);
    for (size_t i = 0; i < count; i++) {
        made.readings[made.reading_count++] = made.count;
        add_event('m', 0, 0);
        add_number(type[3]);
    }
    add_event(')', 0, 0);
    add_text('s', "behind", 6);
    add_event(')', 0, 0);
    withdraw_all(type);
}

/* A frame of 65,536 bytes, (aymn) with a reading at its end: a buffer at the limit. */
static void at_the_limit(void) {
    enum { BYTES = BOGTASSEL_LIMIT - 6 };

    begin_value();
    add_event('(', 0, 0);
    add_event('a', 0, 0);
    for (size_t i = 0; i < BYTES; i++) {
        add_number('y');
    }
    add_event(')', 0, 0);
    made.readings[made.reading_count++] = made.count;
    add_event('m', 0, 0);
    add_number('n');
    add_event(')', 0, 0);
    withdraw_all("(aymn)");
}

int main(void) {
    size_t i;

    for (i = 0; i < FRAMES; i++) {
        char type[4096] = {0};

        make_type(type, 1 + below(DEEPEST));
        if (strlen(type) <= TYPES) {
            begin_value();
            add_value(type, 4);
            withdraw_all(type);
        }
    }
    for (i = 80; i < 90; i++) {
        rows("(amns)", i);
        rows("(amys)", i + 36);
    }
    rows("(amts)", 40);
    at_the_limit();
    expect(frames > FRAMES && shorter > FRAMES && narrower > 20, "all", withdrawn, "enough was withdrawn");
    printf("%zu frames, %zu withdrawals, %zu of them shorter, %zu across 255 bytes\n", frames, withdrawn, shorter, narrower);
    return broken;
}
