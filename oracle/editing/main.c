/*
 * The lines of editing, by bogtassel_edit and by the other way.
 *
 * Usage: editing < LINES      (oracle/README.md says what a line is)
 *
 * A line is answered by `REFUSAL LENGTH .. BUFFER|- OTHER`: what each edit gave, one after another in the same buffer, and the buffer after all of
 * them; OTHER is `same` if the other way, in a buffer of its own, gave the same after each of them, else `differs`. Round each buffer stand
 * bytes that no edit may change: one that does ends the program with 1.
 *
 * With OTHER_WAY_ALONE defined the other way stands in the place of bogtassel_edit too, and OTHER is `same` always.
 */
#include "bogtassel.h"
#include "lines.h"
#include "other_way.h"

#include <stdio.h>
#include <stdlib.h>
#include <string.h>

#ifdef OTHER_WAY_ALONE
#define bogtassel_edit other_way
#endif

enum { GUARD = 64, GUARD_BYTE = 0xA5 };

typedef uint8_t edit_function(const uint8_t *, size_t, bool, uint8_t *, size_t, size_t, size_t, bool, uint64_t, size_t *);

/* A buffer with its guards, its used length, and what edits it. */
struct side {
    edit_function *edit;
    uint8_t *memory;
    size_t used;
    uint8_t refusal;
    size_t length;
};

static void lend(struct side *side, edit_function *edit, const struct question *question) {
    side->edit = edit;
    side->used = question->room;
    side->memory = malloc(question->length + 2 * GUARD);
    if (side->memory == NULL) {
        perror("no room for a buffer");
        exit(3);
    }
    memset(side->memory, GUARD_BYTE, question->length + 2 * GUARD);
    memcpy(side->memory + GUARD, question->bytes, question->length);
}

static void make(struct side *side, const struct question *question, const struct change *change) {
    side->length = SIZE_MAX;
    side->refusal = side->edit((const uint8_t *)question->type, question->type_length, question->big_endian, side->memory + GUARD, question->length,
                               side->used, change->number, change->present, change->bits, &side->length);
    side->used = side->refusal == BOGTASSEL_DONE ? side->length : side->used;
}

static void guard(const struct side *side, size_t length) {
    size_t i;

    for (i = 0; i < GUARD; i++) {
        if (side->memory[i] != GUARD_BYTE || side->memory[GUARD + length + i] != GUARD_BYTE) {
            fputs("editing: an edit wrote outside its buffer\n", stderr);
            exit(1);
        }
    }
}

static bool same(const struct side *ours, const struct side *other, size_t length) {
    return ours->refusal == other->refusal && ours->length == other->length && memcmp(ours->memory + GUARD, other->memory + GUARD, length) == 0;
}

static void answer(const struct question *question) {
    struct side ours, other;
    bool agrees = true;
    size_t i;

    lend(&ours, bogtassel_edit, question);
    lend(&other, other_way, question);
    for (i = 0; i < question->count; i++) {
        make(&ours, question, &question->changes[i]);
        make(&other, question, &question->changes[i]);
        agrees = agrees && same(&ours, &other, question->length);
        printf("%u %zu ", ours.refusal, ours.length);
    }
    guard(&ours, question->length);
    guard(&other, question->length);
    print_bytes(ours.memory + GUARD, question->length);
    fputs(agrees ? " same\n" : " differs\n", stdout);
    free(ours.memory);
    free(other.memory);
}

int main(void) {
    struct question question = {0};

    while (next_line(&question)) {
        if (!question.edits) {
            fputs("editing: a line is no edit\n", stderr);
            return 2;
        }
        answer(&question);
    }
    return 0;
}
