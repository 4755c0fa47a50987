/*
 * An edit by the other way, over the archive's other calls: the frame is read and its events are written again, which must give the frame;
 * then one reading is changed among the events, and they are written. So every refusal is one that reading or writing gives, but for 15 and
 * 16, which are judged here.
 *
 * The events do not tell what type a nothing is of. They are walked along with the type to find the reading.
 */
#include "other_way.h"

#include "bogtassel.h"

#include <stdio.h>
#include <stdlib.h>
#include <string.h>

enum { N = BOGTASSEL_EVENT_NUMBERS };

/* One edit under way. */
struct editing {
    const uint8_t *type;
    size_t type_length;
    bool big_endian;
    const uint8_t *frame;
    size_t used;
    uint64_t *events;
    size_t count;
};

static void *room_of(size_t size) {
    void *const room = malloc(size + 1);

    if (room == NULL) {
        perror("no room for an edit");
        exit(3);
    }
    return room;
}

/* Finding the reading. */

/* The walk: the event and the character of the type where it stands, and how many readings are still to be passed. */
struct walk {
    const uint64_t *event;
    const uint8_t *type;
    const uint8_t *frame;
    uint64_t left;
    const uint64_t *found;
    uint8_t letter;
};

static bool is_number(uint8_t letter) {
    return letter != 0 && strchr("bynqiuxtd", letter) != NULL;
}

/* Where the type that begins here ends. */
static const uint8_t *type_end(const uint8_t *type) {
    if (*type == 'a' || *type == 'm') {
        return type_end(type + 1);
    }
    if (*type != '(' && *type != '{') {
        return type + 1;
    }
    for (type++; *type != ')' && *type != '}';) {
        type = type_end(type);
    }
    return type + 1;
}

static void walk_value(struct walk *walk);

/* A variant: its value is walked along with the type that its `g` event is a view of. */
static void walk_variant(struct walk *walk) {
    const uint8_t *const behind = walk->type + 1;

    walk->type = walk->frame + walk->event[N + 1];
    walk->event += 2 * N;
    walk_value(walk);
    walk->event += N;
    walk->type = behind;
}

static void walk_maybe(struct walk *walk) {
    const uint64_t *const event = walk->event;

    walk->type++;
    if (is_number(*walk->type) && walk->left-- == 0) {
        walk->found = event;
        walk->letter = *walk->type;
    }
    walk->event += N;
    if (event[0] == BOGTASSEL_PRESENT) {
        walk_value(walk);
    } else {
        walk->type = type_end(walk->type);
    }
}

/* An array, or a dictionary whose entries are a key and a value. */
static void walk_elements(struct walk *walk) {
    const uint8_t *const element = walk->type + 1, *const behind = type_end(element);

    walk->event += N;
    while (walk->event[0] != BOGTASSEL_CLOSE) {
        walk->type = *element == '{' ? element + 1 : element;
        walk_value(walk);
        if (*element == '{') {
            walk_value(walk);
        }
    }
    walk->event += N;
    walk->type = behind;
}

static void walk_fields(struct walk *walk) {
    walk->event += N;
    for (walk->type++; *walk->type != ')';) {
        walk_value(walk);
    }
    walk->event += N;
    walk->type++;
}

static void walk_value(struct walk *walk) {
    switch (*walk->type) {
    case 'v':
        walk_variant(walk);
        break;
    case 'm':
        walk_maybe(walk);
        break;
    case 'a':
        walk_elements(walk);
        break;
    case '(':
        walk_fields(walk);
        break;
    default:
        walk->event += N;
        walk->type++;
    }
}

/* Reading and writing. */

static uint8_t read_all(struct editing *e) {
    size_t used;
    const uint8_t refusal = bogtassel_size(e->type, e->type_length, e->big_endian, 0, e->frame, e->used, &used, &e->count);

    if (refusal != BOGTASSEL_DONE) {
        return refusal;
    }
    e->events = room_of((e->count + 1) * N * sizeof *e->events);
    return bogtassel_read(e->type, e->type_length, e->big_endian, 0, e->frame, e->used, e->events, N * e->count, &used, &e->count);
}

static bool comes_back(const struct editing *e) {
    uint8_t *const out = room_of(e->used);
    size_t length;
    const uint8_t refusal = bogtassel_write(e->type, e->type_length, e->big_endian, e->events, N * e->count, e->frame, e->used, out, e->used, &length);
    const bool same = refusal == BOGTASSEL_DONE && length == e->used && memcmp(out, e->frame, length) == 0;

    free(out);
    return same;
}

/* Whether writing takes a number for a value of a basic type. */
static bool spells(uint8_t letter, uint64_t bits) {
    const uint64_t event[N] = {letter, 0, bits};
    const uint8_t no_texts[1] = {0};
    uint8_t out[8];
    size_t length;

    return bogtassel_write(&letter, 1, false, event, N, no_texts, 0, out, sizeof out, &length) == BOGTASSEL_DONE;
}

/* The event of the reading becomes N, or m and the number. */
static void change_event(struct editing *e, const struct walk *walk, bool present, uint64_t bits) {
    const size_t at = (size_t)(walk->found - e->events);
    const size_t old = e->events[at] == BOGTASSEL_PRESENT ? 2 * N : N, new = present ? 2 * N : N;

    memmove(e->events + at + new, e->events + at + old, (N * e->count - at - old) * sizeof *e->events);
    memcpy(e->events + at, (const uint64_t[]){present ? BOGTASSEL_PRESENT : BOGTASSEL_NOTHING, 0, 0}, N * sizeof *e->events);
    if (present) {
        memcpy(e->events + at + N, (const uint64_t[]){walk->letter, 0, bits}, N * sizeof *e->events);
    }
    e->count = e->count + new / N - old / N;
}

/* Of the events that were read: finds, changes and writes into `out`, which has the buffer's length. */
static uint8_t write_changed(struct editing *e, size_t number, bool present, uint64_t bits, uint8_t *out, size_t room, size_t *length) {
    struct walk walk = {e->events, e->type, e->frame, number, NULL, 0};

    if (!comes_back(e)) {
        return BOGTASSEL_NOT_WRITTEN;
    }
    walk_value(&walk);
    if (walk.found == NULL) {
        return BOGTASSEL_NO_READING;
    }
    if (present && !spells(walk.letter, bits)) {
        return BOGTASSEL_VALUE;
    }
    change_event(e, &walk, present, bits);
    return bogtassel_write(e->type, e->type_length, e->big_endian, e->events, N * e->count, e->frame, e->used, out, room, length);
}

uint8_t other_way(const uint8_t *type, size_t type_length, bool big_endian, uint8_t *buffer, size_t buffer_length, size_t used, size_t number,
                  bool present, uint64_t bits, size_t *length) {
    struct editing e = {type, type_length, big_endian, buffer, used, NULL, 0};
    uint8_t *const out = room_of(buffer_length);
    uint8_t refusal;

    *length = 0;
    if (used > buffer_length) { /* a type that is refused goes first */
        e.used = 0;
        refusal = read_all(&e) == BOGTASSEL_TYPE ? BOGTASSEL_TYPE : BOGTASSEL_LIMITS;
    } else {
        refusal = read_all(&e);
    }
    if (refusal == BOGTASSEL_DONE) {
        refusal = write_changed(&e, number, present, bits, out, buffer_length, length);
    }
    if (refusal == BOGTASSEL_DONE) {
        memcpy(buffer, out, *length);
        memset(buffer + *length, 0, used > *length ? used - *length : 0);
    }
    free(e.events);
    free(out);
    return refusal;
}
