/* Lines of the oracle, as questions: of writing, of editing, and frames. */
#ifndef LINES_H
#define LINES_H

#include <stdbool.h>
#include <stddef.h>
#include <stdint.h>

/* One edit: a reading's number, and nothing or its bits. */
struct change {
    uint64_t number;
    bool present;
    uint64_t bits;
};

/*
 * `write: TYPE l|b TEXTS|- ROOM NUMBER ..`, or `edit: TYPE l|b BUFFER|- USED READING nothing|BITS ..`, or `TYPE l|b POSITION HEX`, of which the
 * position is passed over.
 */
struct question {
    bool writes;
    bool edits;
    const char *type;
    size_t type_length;
    bool big_endian;
    uint8_t *bytes; /* the texts, the buffer, or the frame */
    size_t length;
    size_t room; /* of the output; of a line of editing the used length */
    uint64_t *numbers;
    size_t count; /* of the numbers, or of the changes */
    struct change *changes;
};

/* Whether there is one more line. A line that is not understood ends the program with 2. The memory is used again for the next. */
bool next_line(struct question *question);

/* Prints bytes in hexadecimal, or - for none. */
void print_bytes(const uint8_t *bytes, size_t length);

#endif
