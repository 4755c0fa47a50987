/*
 * The benchmark of the archive's edit: edits one reading of a frame so many times.
 *
 * Usage: edit size|copy|edit TYPE FRAME_FILE CALLS READING nothing|BITS
 * Each call of edit finds the frame as it was: it is copied into the buffer before. copy does that alone, and calls an empty function of the same
 * parameters, so that edit less copy is the edit. size sizes the frame.
 * Prints `REFUSAL LENGTH SUM NANOSECONDS` of the last call, and of all calls the time: the new length, and the sum of edit.h over the new frame. Of
 * size and copy the frame is the old one.
 */
#define _POSIX_C_SOURCE 200809L
#include "bogtassel.h"
#include "edit.h"

typedef uint8_t edit_function(const uint8_t *, size_t, bool, uint8_t *, size_t, size_t, size_t, bool, uint64_t, size_t *);

static uint8_t no_edit(const uint8_t *type, size_t type_length, bool big_endian, uint8_t *buffer, size_t buffer_length, size_t used, size_t number,
                       bool present, uint64_t bits, size_t *length) {
    (void)type, (void)type_length, (void)big_endian, (void)buffer, (void)buffer_length, (void)number, (void)present, (void)bits;
    *length = used;
    return 0;
}

static void edit_all(const struct edit *e, edit_function *function) {
    static unsigned char buffer[BOGTASSEL_LIMIT];
    edit_function *const volatile target = function;
    const size_t type_length = strlen(e->type);
    const uint64_t start = now();
    size_t length = 0;
    uint8_t refusal = 0;
    unsigned long i;

    for (i = 0; i < e->calls; i++) {
        memcpy(buffer, e->frame, e->length);
        refusal = target((const uint8_t *)e->type, type_length, false, buffer, sizeof buffer, e->length, e->number, e->present, e->bits, &length);
    }
    print_edit(refusal, buffer, length, now() - start);
}

static void size_all(const struct edit *e) {
    const size_t type_length = strlen(e->type);
    const uint64_t start = now();
    size_t used = 0, count = 0;
    uint8_t refusal = 0;
    unsigned long i;

    for (i = 0; i < e->calls; i++) {
        refusal = bogtassel_size((const uint8_t *)e->type, type_length, false, 0, e->frame, e->length, &used, &count);
    }
    print_edit(refusal, e->frame, used, now() - start);
}

int main(int argc, char **argv) {
    if (argc == 7) {
        const struct edit edit = edit_of(argv + 2);

        if (edit.length <= BOGTASSEL_LIMIT && strcmp(argv[1], "size") == 0) {
            size_all(&edit);
            return 0;
        }
        if (edit.length <= BOGTASSEL_LIMIT && (strcmp(argv[1], "copy") == 0 || strcmp(argv[1], "edit") == 0)) {
            edit_all(&edit, strcmp(argv[1], "edit") == 0 ? bogtassel_edit : no_edit);
            return 0;
        }
    }
    fputs("usage: edit size|copy|edit TYPE FRAME_FILE CALLS READING nothing|BITS\n", stderr);
    return 2;
}
