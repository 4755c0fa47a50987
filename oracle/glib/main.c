/*
 * GLib made to answer the lines of writing and of the strict test.
 *
 * Usage: glib < LINES      (oracle/README.md says what a line is)
 *
 * A line of writing is answered by the frame that GLib makes of the value, in hexadecimal, whatever its length; by `none` where the events
 * spell no value; by `strange` where a type is met that GLib does not know, or only GLib does. A frame is answered by `normal` or `other`,
 * or by `strange`.
 */
#include "lines.h"
#include "value.h"

#include <stdio.h>

static void answer_writing(const struct question *question) {
    struct spelling spelling = {question->numbers, question->count, 0, question->bytes, question->length, false};
    GVariant *const value = whole_value(&spelling, question->type, question->type_length, question->big_endian);

    if (value == NULL) {
        fputs(spelling.strange ? "strange" : "none", stdout);
        return;
    }
    print_bytes(g_variant_get_data(value), g_variant_get_size(value));
    g_variant_unref(value);
}

static void answer_frame(const struct question *question) {
    if (!is_known(question->type, question->type_length)) {
        fputs("strange", stdout);
        return;
    }
    fputs(is_normal(question->type, question->type_length, question->bytes, question->length) ? "normal" : "other", stdout);
}

int main(void) {
    struct question question = {0};

    while (next_line(&question)) {
        (question.writes ? answer_writing : answer_frame)(&question);
        putchar('\n');
    }
    return 0;
}
