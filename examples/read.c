/*
 * read: prints the readings of a frame, one a line, and tells nothing from 0.
 *
 * Usage: read [-b] TYPE <FRAME
 *
 * A reading is a maybe of a number, a type of b y n q i u x t d behind an m. The frame is binary, at position 0, and
 * little-endian, or big-endian with -b. A reading that is there is printed in decimal, signed if its type is, and one
 * that is missing as the word nothing. All else in the frame is passed over.
 *
 * Exit status: 0 printed; 1 the frame or the type was refused, with number and words on standard error; 2 bad usage;
 * 3 no memory, or standard input or output failed.
 */
#include "bogtassel.h"

#include <inttypes.h>
#include <stdio.h>
#include <stdlib.h>
#include <string.h>

static const char *const refusals[] = {
    [BOGTASSEL_DONE] = "done",
    [BOGTASSEL_TYPE] = "the type is not one complete type",
    [BOGTASSEL_LIMITS] = "the frame has more than 65536 bytes",
    [BOGTASSEL_BOUNDS] = "a value, offset or padding runs past the bytes that it has",
    [BOGTASSEL_PADDING] = "a padding byte is not 0",
    [BOGTASSEL_NUL] = "a nul inside a text",
    [BOGTASSEL_UTF8] = "a text is not UTF-8",
    [BOGTASSEL_MAYBE] = "the byte after a present maybe is not 0",
    [BOGTASSEL_SEPARATOR] = "a variant has no separator",
    [BOGTASSEL_VARIANT_TYPE] = "the type of a variant is refused",
    [BOGTASSEL_STRUCTURE_DEPTH] = "too many structures in one another",
    [BOGTASSEL_ARRAY_DEPTH] = "too many arrays in one another",
    [BOGTASSEL_DEPTH] = "too many containers in one another",
    [BOGTASSEL_ROOM] = "too little room for the events",
};

/* What is being printed: the frame, whose texts hold the types of variants, and the event that is next. */
struct listing {
    const uint8_t *frame;
    const uint64_t *event;
};

static uint64_t kind(const struct listing *listing) {
    return listing->event[0];
}

static void pass(struct listing *listing) {
    listing->event += BOGTASSEL_EVENT_NUMBERS;
}

static bool is_number(char letter) {
    return letter != '\0' && strchr("bynqiuxtd", letter) != NULL;
}

static void print_number(uint64_t letter, uint64_t bits) {
    double number;

    switch (letter) {
    case BOGTASSEL_INT16:
        printf("%" PRId16 "\n", (int16_t)bits);
        break;
    case BOGTASSEL_INT32:
        printf("%" PRId32 "\n", (int32_t)bits);
        break;
    case BOGTASSEL_INT64:
        printf("%" PRId64 "\n", (int64_t)bits);
        break;
    case BOGTASSEL_DOUBLE:
        memcpy(&number, &bits, sizeof number);
        printf("%.17g\n", number);
        break;
    default:
        printf("%" PRIu64 "\n", bits);
    }
}

/*
 * Passes the events of one value of the type that begins at `type`, printing its readings, and returns the type's end.
 * The type and the events are those of a frame that was read, so they fit, and the types of a frame are at most 255
 * characters deep.
 */
static const char *value(struct listing *listing, const char *type);

/* The end of the type that begins at `type`. */
static const char *end_of(const char *type) {
    while (*type == 'a' || *type == 'm') {
        type++;
    }
    if (*type != '(' && *type != '{') {
        return type + 1;
    }
    for (type++; *type != ')' && *type != '}';) {
        type = end_of(type);
    }
    return type + 1;
}

static const char *maybe(struct listing *listing, const char *child) {
    if (kind(listing) == BOGTASSEL_NOTHING) {
        if (is_number(*child)) {
            puts("nothing");
        }
        pass(listing);
        return end_of(child);
    }
    pass(listing);
    if (is_number(*child)) {
        print_number(listing->event[0], listing->event[2]);
    }
    return value(listing, child);
}

/* Elements, or the keys and values of a dictionary, as long as there are any. */
static const char *array(struct listing *listing, const char *child) {
    const bool dictionary = *child == '{';

    pass(listing);
    while (kind(listing) != BOGTASSEL_CLOSE) {
        if (dictionary) {
            value(listing, value(listing, child + 1));
        } else {
            value(listing, child);
        }
    }
    pass(listing);
    return end_of(child);
}

static const char *structure(struct listing *listing, const char *field) {
    pass(listing);
    while (*field != ')') {
        field = value(listing, field);
    }
    pass(listing);
    return field + 1;
}

static void variant(struct listing *listing) {
    char type[BOGTASSEL_TYPE_LIMIT + 1];

    pass(listing);
    memcpy(type, listing->frame + listing->event[1], listing->event[2]);
    type[listing->event[2]] = '\0';
    pass(listing);
    value(listing, type);
    pass(listing);
}

static const char *value(struct listing *listing, const char *type) {
    switch (*type) {
    case 'm':
        return maybe(listing, type + 1);
    case 'a':
        return array(listing, type + 1);
    case '(':
        return structure(listing, type + 1);
    case 'v':
        variant(listing);
        return type + 1;
    default:
        pass(listing);
        return type + 1;
    }
}

static int failed(const char *what) {
    perror(what);
    return 3;
}

static int refused(uint8_t refusal) {
    const char *const words = refusal < sizeof refusals / sizeof *refusals ? refusals[refusal] : "a number without words";

    fprintf(stderr, "read: refused, %u: %s\n", refusal, words);
    return 1;
}

static int print_readings(const char *type, bool big_endian, const uint8_t *frame, size_t length) {
    const uint8_t *const text = (const uint8_t *)type;
    const size_t text_length = strlen(type);
    struct listing listing;
    uint64_t *events;
    size_t used, count;
    uint8_t refusal;

    refusal = bogtassel_size(text, text_length, big_endian, 0, frame, length, &used, &count);
    if (refusal != BOGTASSEL_DONE) {
        return refused(refusal);
    }
    events = calloc(count, BOGTASSEL_EVENT_NUMBERS * sizeof *events);
    if (events == NULL) {
        return failed("read: no room for the events");
    }
    refusal = bogtassel_read(text, text_length, big_endian, 0, frame, length, events, BOGTASSEL_EVENT_NUMBERS * count, &used,
                             &count);
    if (refusal != BOGTASSEL_DONE) {
        free(events);
        return refused(refusal);
    }
    listing.frame = frame;
    listing.event = events;
    value(&listing, type);
    free(events);
    if (fflush(stdout) != 0 || ferror(stdout)) {
        return failed("read: standard output");
    }
    return 0;
}

int main(int argc, char **argv) {
    /* one byte over the limit, so that a longer frame is refused as such */
    static uint8_t frame[BOGTASSEL_LIMIT + 1];
    const bool big_endian = argc > 1 && strcmp(argv[1], "-b") == 0;
    const int first = big_endian ? 2 : 1;
    size_t length;

    if (argc != first + 1) {
        fputs("usage: read [-b] TYPE <FRAME\n", stderr);
        return 2;
    }
    length = fread(frame, 1, sizeof frame, stdin);
    if (ferror(stdin)) {
        return failed("read: standard input");
    }
    return print_readings(argv[first], big_endian, frame, length);
}
