/*
 * The archive beside GLib, on the lines of writing and of the strict test.
 *
 * Usage: writing < LINES      (oracle/README.md says what a line is)
 *
 * A line of writing is answered by `REFUSAL LENGTH OUT GLIB`: what bogtassel_write gave and the whole output afterwards, every byte of
 * which was A5; then `same` if GLib makes that frame of the events, else what GLib's own program answers.
 * A frame is answered by `REFUSAL GLIB AGAIN`: what bogtassel_is_written gave, GLib's `normal`, `other` or `strange`, and what reading and
 * writing say: the refusal of reading, or 0 where the events of the frame are written as the frame itself, or 15.
 */
#include "bogtassel.h"
#include "lines.h"
#include "value.h"

#include <stdio.h>
#include <stdlib.h>
#include <string.h>

enum { SPARE = 0xA5 };

static void *room_of(size_t size) {
    void *const room = malloc(size + 1);

    if (room == NULL) {
        perror("no room for an answer");
        exit(3);
    }
    return room;
}

/* Writing. */

static void print_glib(const struct question *question, uint8_t refusal, const uint8_t *out, size_t length) {
    struct spelling spelling = {question->numbers, question->count, 0, question->bytes, question->length, false};
    GVariant *const value = whole_value(&spelling, question->type, question->type_length, question->big_endian);

    if (value == NULL) {
        fputs(spelling.strange ? "strange" : "none", stdout);
        return;
    }
    if (refusal == BOGTASSEL_DONE && g_variant_get_size(value) == length && (length == 0 || memcmp(g_variant_get_data(value), out, length) == 0)) {
        fputs("same", stdout);
    } else {
        print_bytes(g_variant_get_data(value), g_variant_get_size(value));
    }
    g_variant_unref(value);
}

static void answer_writing(const struct question *question) {
    uint8_t *const out = room_of(question->room);
    size_t length = SIZE_MAX;
    uint8_t refusal;

    memset(out, SPARE, question->room);
    refusal = bogtassel_write((const uint8_t *)question->type, question->type_length, question->big_endian, question->numbers, question->count,
                              question->bytes, question->length, out, question->room, &length);
    printf("%u %zu ", refusal, length);
    print_bytes(out, question->room);
    putchar(' ');
    print_glib(question, refusal, out, length);
    free(out);
}

/* The strict test. */

/* Whether the events of a reading, written in so many bytes and their texts taken from the frame, are the frame again. */
static bool comes_back(const struct question *question, const uint64_t *events, size_t count) {
    uint8_t *const out = room_of(question->length);
    size_t length = SIZE_MAX;
    const uint8_t refusal = bogtassel_write((const uint8_t *)question->type, question->type_length, question->big_endian, events,
                                            BOGTASSEL_EVENT_NUMBERS * count, question->bytes, question->length, out, question->length, &length);
    const bool same = refusal == BOGTASSEL_DONE && length == question->length && memcmp(out, question->bytes, length) == 0;

    free(out);
    return same;
}

static uint8_t again(const struct question *question) {
    const uint8_t *const type = (const uint8_t *)question->type;
    size_t used, count;
    uint8_t refusal = bogtassel_size(type, question->type_length, question->big_endian, 0, question->bytes, question->length, &used, &count);
    uint64_t *events;

    if (refusal != BOGTASSEL_DONE) {
        return refusal;
    }
    events = room_of(BOGTASSEL_EVENT_NUMBERS * count * sizeof *events);
    refusal = bogtassel_read(type, question->type_length, question->big_endian, 0, question->bytes, question->length, events,
                             BOGTASSEL_EVENT_NUMBERS * count, &used, &count);
    if (refusal == BOGTASSEL_DONE && !comes_back(question, events, count)) {
        refusal = BOGTASSEL_NOT_WRITTEN;
    }
    free(events);
    return refusal;
}

static void answer_frame(const struct question *question) {
    const uint8_t refusal = bogtassel_is_written((const uint8_t *)question->type, question->type_length, question->big_endian, question->bytes,
                                                 question->length);
    const char *glib = "strange";

    if (is_known(question->type, question->type_length)) {
        glib = is_normal(question->type, question->type_length, question->bytes, question->length) ? "normal" : "other";
    }
    printf("%u %s %u", refusal, glib, again(question));
}

int main(void) {
    struct question question = {0};

    while (next_line(&question)) {
        (question.writes ? answer_writing : answer_frame)(&question);
        putchar('\n');
    }
    return 0;
}
