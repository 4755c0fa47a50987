/* What the programs that edit share: an edit from the words of the command line, a sum over the new frame. */
#ifndef EDIT_H
#define EDIT_H

#include "frame.h"

/* One edit of a frame: the reading's number, and nothing or its bits. */
struct edit {
    const char *type;
    unsigned char *frame;
    size_t length;
    unsigned long calls;
    size_t number;
    bool present;
    uint64_t bits;
};

/* The edit of the words TYPE FRAME_FILE CALLS READING nothing|BITS. */
static inline struct edit edit_of(char **words) {
    struct edit edit = {words[0], NULL, 0, calls_of(words[2]), strtoull(words[3], NULL, 10), strcmp(words[4], "nothing") != 0, 0};

    edit.frame = frame_of(words[1], &edit.length);
    edit.bits = edit.present ? strtoull(words[4], NULL, 10) : 0;
    return edit;
}

/* FNV-1a, of 64 bits. */
static inline uint64_t sum_of(const unsigned char *bytes, size_t length) {
    uint64_t sum = 0xCBF29CE484222325u;
    size_t i;

    for (i = 0; i < length; i++) {
        sum = (sum ^ bytes[i]) * 0x100000001B3u;
    }
    return sum;
}

static inline void print_edit(unsigned refusal, const unsigned char *frame, size_t length, uint64_t nanoseconds) {
    printf("%u %zu %" PRIu64 " %" PRIu64 "\n", refusal, length, sum_of(frame, length), nanoseconds);
}

#endif
