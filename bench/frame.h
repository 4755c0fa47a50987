/* What the programs of this folder share: a frame from a file, a number of calls, questions from standard input, a clock. */
#ifndef FRAME_H
#define FRAME_H

#include <inttypes.h>
#include <stdbool.h>
#include <stdio.h>
#include <stdlib.h>
#include <string.h>
#include <time.h>

static inline void give_up(const char *what) {
    perror(what);
    exit(3);
}

static inline uint64_t now(void) {
    struct timespec time;

    clock_gettime(CLOCK_MONOTONIC, &time);
    return (uint64_t)time.tv_sec * 1000000000u + (uint64_t)time.tv_nsec;
}

/* The bytes of a file, at an address that is a multiple of 16, as GLib wants them. */
static inline unsigned char *frame_of(const char *file, size_t *length) {
    enum { MOST = 1 << 20 };
    unsigned char *const frame = calloc(1, MOST);
    FILE *const stream = fopen(file, "rb");

    if (frame == NULL || stream == NULL) {
        give_up(file);
    }
    *length = fread(frame, 1, MOST, stream);
    if (ferror(stream) || fclose(stream) != 0) {
        give_up(file);
    }
    return frame;
}

static inline unsigned long calls_of(const char *text) {
    char *end;
    const unsigned long calls = strtoul(text, &end, 10);

    if (calls == 0 || *end != '\0') {
        fprintf(stderr, "no number of calls: %s\n", text);
        exit(2);
    }
    return calls;
}

/* A type and a frame. On standard input: the length of each, four bytes and little-endian, then the type, then the frame. */
struct question {
    unsigned char *type;
    size_t type_length;
    unsigned char *frame;
    size_t length;
};

static inline bool number_from_input(size_t *number) {
    unsigned char bytes[4];

    if (fread(bytes, 1, sizeof bytes, stdin) != sizeof bytes) {
        return false;
    }
    *number = bytes[0] | (size_t)bytes[1] << 8 | (size_t)bytes[2] << 16 | (size_t)bytes[3] << 24;
    return true;
}

static inline unsigned char *bytes_from_input(size_t length) {
    unsigned char *const bytes = malloc(length + 1);

    if (bytes == NULL || fread(bytes, 1, length, stdin) != length) {
        give_up("a question");
    }
    return bytes;
}

/* Whether there is one more question; it is the caller's to drop. */
static inline bool next_question(struct question *question) {
    if (!number_from_input(&question->type_length) || !number_from_input(&question->length)) {
        return false;
    }
    question->type = bytes_from_input(question->type_length);
    question->frame = bytes_from_input(question->length);
    return true;
}

static inline void drop_question(struct question *question) {
    free(question->type);
    free(question->frame);
}

#endif
