/*
 * The benchmark of the archive: sizes, reads, judges or writes one frame so many times.
 *
 * Usage: rattle size|read|strict|write TYPE FRAME_FILE CALLS
 * strict asks whether the frame is a written form; write reads the frame once, before the calls, and then writes its events.
 * Prints `REFUSAL USED EVENTS LEAVES SUM NANOSECONDS` of the last call, and of all calls the time. bench/frames.py says what
 * leaves and sum are. What a call can't know is -. USED of write is the length of what it wrote, if that is the frame, else 0.
 */
#define _POSIX_C_SOURCE 200809L
#include "bogtassel.h"
#include "frame.h"

static void size_all(const struct question *q, unsigned long calls) {
    uint8_t refusal = 0;
    size_t used = 0, count = 0;
    const uint64_t start = now();
    uint64_t end;
    unsigned long i;

    for (i = 0; i < calls; i++) {
        refusal = bogtassel_size(q->type, q->type_length, false, 0, q->frame, q->length, &used, &count);
    }
    end = now();
    printf("%u %zu %zu - - %" PRIu64 "\n", refusal, used, count, end - start);
}

static bool is_leaf(uint64_t kind) {
    return kind < 128 && kind != 0 && strchr("bynqiuxtdsogN", (int)kind) != NULL;
}

/* Room for the events of a frame; sets their number. */
static uint64_t *events_of(const struct question *q, size_t *count) {
    size_t used;
    uint64_t *events;

    bogtassel_size(q->type, q->type_length, false, 0, q->frame, q->length, &used, count);
    events = calloc(BOGTASSEL_EVENT_NUMBERS * *count + 1, sizeof *events);
    if (events == NULL) {
        give_up("no room for the events");
    }
    return events;
}

static void read_all(const struct question *q, unsigned long calls) {
    uint8_t refusal = 0;
    size_t used = 0, count = 0;
    uint64_t *const events = events_of(q, &count);
    const size_t room = BOGTASSEL_EVENT_NUMBERS * count;
    const uint64_t start = now();
    uint64_t end, sum = 0, leaves = 0;
    unsigned long i;

    for (i = 0; i < calls; i++) {
        refusal = bogtassel_read(q->type, q->type_length, false, 0, q->frame, q->length, events, room, &used, &count);
    }
    end = now();
    for (i = 0; i < count; i++) {
        sum += events[3 * i + 2];
        leaves += is_leaf(events[3 * i]) ? 1 : 0;
        leaves -= events[3 * i] == BOGTASSEL_VARIANT ? 1 : 0; /* the type of a variant is no leaf */
    }
    printf("%u %zu %zu %" PRIu64 " %" PRIu64 " %" PRIu64 "\n", refusal, used, count, leaves, sum, end - start);
    free(events);
}

static void judge_all(const struct question *q, unsigned long calls) {
    uint8_t refusal = 0;
    const uint64_t start = now();
    uint64_t end;
    unsigned long i;

    for (i = 0; i < calls; i++) {
        refusal = bogtassel_is_written(q->type, q->type_length, false, q->frame, q->length);
    }
    end = now();
    printf("%u - - - - %" PRIu64 "\n", refusal, end - start);
}

static void write_all(const struct question *q, unsigned long calls) {
    uint8_t refusal = 0;
    size_t used = 0, count = 0, length = 0;
    uint64_t *const events = events_of(q, &count);
    const size_t numbers = BOGTASSEL_EVENT_NUMBERS * count;
    unsigned char *const out = calloc(1, q->length + 1);
    uint64_t start, end;
    unsigned long i;

    if (out == NULL) {
        give_up("no room for the frame");
    }
    bogtassel_read(q->type, q->type_length, false, 0, q->frame, q->length, events, numbers, &used, &count);
    start = now();
    for (i = 0; i < calls; i++) {
        refusal = bogtassel_write(q->type, q->type_length, false, events, numbers, q->frame, q->length, out, q->length, &length);
    }
    end = now();
    printf("%u %zu %zu - - %" PRIu64 "\n", refusal, memcmp(out, q->frame, length) == 0 ? length : 0, count, end - start);
    free(out);
    free(events);
}

static const struct call {
    const char *name;
    void (*all)(const struct question *q, unsigned long calls);
} call_names[] = {{"size", size_all}, {"read", read_all}, {"strict", judge_all}, {"write", write_all}};

int main(int argc, char **argv) {
    struct question q;
    size_t i;

    for (i = 0; argc == 5 && i < sizeof call_names / sizeof *call_names; i++) {
        if (strcmp(argv[1], call_names[i].name) == 0) {
            q.type = (uint8_t *)argv[2];
            q.type_length = strlen(argv[2]);
            q.frame = frame_of(argv[3], &q.length);
            call_names[i].all(&q, calls_of(argv[4]));
            return 0;
        }
    }
    fputs("usage: rattle size|read|strict|write TYPE FRAME_FILE CALLS\n", stderr);
    return 2;
}
