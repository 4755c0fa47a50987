/*
 * Sizes, reads, judges and writes many frames, with marks for the plugin of count.c. Called by bench/search.py.
 *
 * Usage: search < QUESTIONS      (frame.h says what a question is)
 * For each question it prints `REFUSAL EVENTS`, and makes eight marks: before and after size, read, is_written, and write, which is handed
 * the events that were read.
 */
#define _GNU_SOURCE
#include "bogtassel.h"
#include "frame.h"
#include "mark.h"

#include <unistd.h>

static void mark(void) {
    syscall(MARK);
}

static void answer(const struct question *q) {
    static unsigned char out[BOGTASSEL_LIMIT];
    size_t used = 0, count = 0, length = 0, room;
    uint64_t *events;
    uint8_t refusal;

    mark();
    refusal = bogtassel_size(q->type, q->type_length, false, 0, q->frame, q->length, &used, &count);
    mark();
    room = BOGTASSEL_EVENT_NUMBERS * count;
    events = malloc((room + 1) * sizeof *events);
    if (events == NULL) {
        give_up("no room for the events");
    }
    mark();
    bogtassel_read(q->type, q->type_length, false, 0, q->frame, q->length, events, room, &used, &count);
    mark();
    mark();
    bogtassel_is_written(q->type, q->type_length, false, q->frame, q->length);
    mark();
    mark();
    bogtassel_write(q->type, q->type_length, false, events, room, q->frame, q->length, out, sizeof out, &length);
    mark();
    free(events);
    printf("%u %zu\n", refusal, count);
}

int main(void) {
    struct question question;

    while (next_question(&question)) {
        answer(&question);
        drop_question(&question);
    }
    return 0;
}
