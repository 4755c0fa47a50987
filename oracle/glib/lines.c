/* Lines of the oracle, as questions: of writing, of editing, and frames. */
#define _GNU_SOURCE
#include "lines.h"

#include <errno.h>
#include <inttypes.h>
#include <stdio.h>
#include <stdlib.h>
#include <string.h>

static unsigned long line_number;

static void not_understood(void) {
    fprintf(stderr, "line %lu is not understood\n", line_number);
    exit(2);
}

static void *room_for(void *memory, size_t size) {
    void *const room = realloc(memory, size + 1);

    if (room == NULL) {
        perror("no room for a line");
        exit(3);
    }
    return room;
}

/* What is left of a line, NULL behind the last word. */
struct rest {
    char *first;
    char *end;
};

/* The word that comes next, ended by a nul in the place of its blank; *length is its length, since a type may hold nuls itself. */
static char *sized_word(struct rest *rest, size_t *length) {
    char *const first = rest->first;
    char *blank;

    if (first == NULL) {
        not_understood();
    }
    blank = memchr(first, ' ', (size_t)(rest->end - first));
    *length = (size_t)((blank == NULL ? rest->end : blank) - first);
    first[*length] = '\0';
    rest->first = blank == NULL ? NULL : blank + 1;
    return first;
}

static char *word(struct rest *rest) {
    size_t length;

    return sized_word(rest, &length);
}

static uint64_t number_of(const char *text) {
    char *end;
    uint64_t number;

    errno = 0;
    number = strtoumax(text, &end, 10);
    if (*text < '0' || *text > '9' || *end != '\0' || errno != 0) {
        not_understood();
    }
    return number;
}

static unsigned digit(char letter) {
    static const char digits[] = "0123456789abcdef";
    const char *const found = letter == '\0' ? NULL : strchr(digits, letter);

    if (found == NULL) {
        not_understood();
    }
    return (unsigned)(found - digits);
}

static void bytes_of(struct question *question, const char *text) {
    size_t i;

    question->length = strcmp(text, "-") == 0 ? 0 : strlen(text) / 2;
    question->bytes = room_for(question->bytes, question->length);
    for (i = 0; i < question->length; i++) {
        question->bytes[i] = (uint8_t)(16 * digit(text[2 * i]) + digit(text[2 * i + 1]));
    }
}

static void order_of(struct question *question, const char *text) {
    if (strcmp(text, "l") != 0 && strcmp(text, "b") != 0) {
        not_understood();
    }
    question->big_endian = *text == 'b';
}

static void numbers_of(struct question *question, struct rest *rest) {
    static size_t room;

    question->count = 0;
    while (rest->first != NULL) {
        if (question->count >= room) {
            room = 2 * room + 1024;
            question->numbers = room_for(question->numbers, room * sizeof *question->numbers);
        }
        question->numbers[question->count++] = number_of(word(rest));
    }
    if (question->numbers == NULL) {
        question->numbers = room_for(NULL, sizeof *question->numbers);
    }
}

static void writing_of(struct question *question, struct rest rest) {
    question->type = sized_word(&rest, &question->type_length);
    order_of(question, word(&rest));
    bytes_of(question, word(&rest));
    question->room = number_of(word(&rest));
    numbers_of(question, &rest);
}

static void changes_of(struct question *question, struct rest *rest) {
    static size_t room;

    question->count = 0;
    while (rest->first != NULL) {
        struct change change = {number_of(word(rest)), false, 0};
        const char *const new = word(rest);

        change.present = strcmp(new, "nothing") != 0;
        change.bits = change.present ? number_of(new) : 0;
        if (question->count >= room) {
            room = 2 * room + 64;
            question->changes = room_for(question->changes, room * sizeof *question->changes);
        }
        question->changes[question->count++] = change;
    }
}

static void editing_of(struct question *question, struct rest rest) {
    question->type = sized_word(&rest, &question->type_length);
    order_of(question, word(&rest));
    bytes_of(question, word(&rest));
    question->room = number_of(word(&rest));
    changes_of(question, &rest);
}

/* The type is all that stands in front of the last three words: it may be empty, and any byte but the line's end may be in it. */
static void frame_of(struct question *question, char *line, size_t length) {
    char *places[3];
    int i;

    for (i = 2; i >= 0; i--) {
        places[i] = memrchr(line, ' ', length);
        if (places[i] == NULL) {
            not_understood();
        }
        length = (size_t)(places[i] - line);
        *places[i] = '\0';
    }
    question->type = line;
    question->type_length = length;
    order_of(question, places[0] + 1);
    bytes_of(question, places[2] + 1);
}

bool next_line(struct question *question) {
    static const char writes[] = "write: ", edits[] = "edit: ";
    static char *line;
    static size_t room;
    ssize_t length = getline(&line, &room, stdin);

    line_number++;
    if (length < 0) {
        return false;
    }
    if (length > 0 && line[length - 1] == '\n') {
        line[--length] = '\0';
    }
    question->writes = strncmp(line, writes, sizeof writes - 1) == 0;
    question->edits = strncmp(line, edits, sizeof edits - 1) == 0;
    if (question->writes) {
        writing_of(question, (struct rest){line + sizeof writes - 1, line + length});
    } else if (question->edits) {
        editing_of(question, (struct rest){line + sizeof edits - 1, line + length});
    } else {
        frame_of(question, line, (size_t)length);
    }
    return true;
}

void print_bytes(const uint8_t *bytes, size_t length) {
    static const char digits[] = "0123456789abcdef";
    size_t i;

    if (length == 0) {
        putchar('-');
    }
    for (i = 0; i < length; i++) {
        putchar_unlocked(digits[bytes[i] >> 4]);
        putchar_unlocked(digits[bytes[i] & 15]);
    }
}
