/*
 * withdraw: withdraws a reading from a frame, and prints the frame before and after.
 *
 * Usage: withdraw [-b] TYPE NUMBER <FRAME
 *
 * A reading is a maybe of a number, a type of b y n q i u x t d behind an m. NUMBER counts them from 0, in reading order. The
 * frame is binary, at position 0, as bogtassel_write makes it, and little-endian, or big-endian with -b. It is printed on two
 * lines in hexadecimal, first as it was and then with nothing in the reading's place; a frame of no bytes is an empty line.
 *
 * Exit status: 0 withdrawn and printed; 1 refused, with the number of enum bogtassel_refusal on standard error; 2 bad usage;
 * 3 standard input or output failed.
 */
#include "bogtassel.h"

#include <errno.h>
#include <stdio.h>
#include <stdlib.h>
#include <string.h>

static void print(const uint8_t *frame, size_t length) {
    size_t i;

    for (i = 0; i < length; i++) {
        printf("%02x", frame[i]);
    }
    putchar('\n');
}

/* Whether a word is a number of digits alone, which is then set. */
static bool is_number(const char *word, size_t *number) {
    unsigned long long value;

    if (word[0] == '\0' || strspn(word, "0123456789") != strlen(word)) {
        return false;
    }
    errno = 0;
    value = strtoull(word, NULL, 10);
    *number = (size_t)value;
    return errno == 0;
}

/* The buffer holds the frame of `used` bytes. A withdrawn reading makes it no longer, so it needs no room of its own. */
static int withdraw(const char *type, bool big_endian, size_t number, uint8_t *buffer, size_t used) {
    uint8_t before[BOGTASSEL_LIMIT];
    size_t length;
    uint8_t refusal;

    if (used <= sizeof before) {
        memcpy(before, buffer, used);
    }
    refusal = bogtassel_edit((const uint8_t *)type, strlen(type), big_endian, buffer, used, used, number, false, 0, &length);
    if (refusal != BOGTASSEL_DONE) {
        fprintf(stderr, "withdraw: refused, %u\n", refusal);
        return 1;
    }
    print(before, used);
    print(buffer, length);
    if (fflush(stdout) != 0 || ferror(stdout)) {
        perror("withdraw: standard output");
        return 3;
    }
    return 0;
}

int main(int argc, char **argv) {
    /* one byte over the limit, so that a longer frame is refused as such */
    static uint8_t frame[BOGTASSEL_LIMIT + 1];
    const bool big_endian = argc > 1 && strcmp(argv[1], "-b") == 0;
    const int first = big_endian ? 2 : 1;
    size_t number, length;

    if (argc != first + 2 || !is_number(argv[first + 1], &number)) {
        fputs("usage: withdraw [-b] TYPE NUMBER <FRAME\n", stderr);
        return 2;
    }
    length = fread(frame, 1, sizeof frame, stdin);
    if (ferror(stdin)) {
        perror("withdraw: standard input");
        return 3;
    }
    return withdraw(argv[first], big_endian, number, frame, length);
}
