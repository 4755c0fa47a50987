/*
 * The benchmark of an edit by GLib, which has none: reads a frame, builds the value anew with one reading changed, and takes its data, so many times.
 *
 * Usage: glib_edit anew|sharing TYPE FRAME_FILE CALLS READING nothing|BITS
 * A call takes the frame as untrusted data, asks whether it is in normal form, and ends in g_variant_get_data and g_variant_get_size. In between anew
 * reads every number and text and makes it again, and every container by a GVariantBuilder. sharing makes anew only what holds the reading, and takes
 * over every other child as it is.
 * Prints `REFUSAL LENGTH SUM NANOSECONDS` as edit.c does.
 */
#define _POSIX_C_SOURCE 200809L
#include "edit.h"

#include <glib.h>

/* The edit under way: how many readings are still to be passed, and whether children are taken over. */
struct change {
    const struct edit *edit;
    size_t left;
    bool done;
    bool sharing;
};

static bool is_reading(const GVariantType *type) {
    return g_variant_type_is_maybe(type) && strchr("bynqiuxtd", *g_variant_type_peek_string(g_variant_type_element(type))) != NULL;
}

/* How many readings a value holds. */
static size_t readings_in(GVariant *value) {
    const GVariantType *const type = g_variant_get_type(value);
    size_t count = 0;
    gsize i;

    if (is_reading(type)) {
        return 1;
    }
    if (!g_variant_is_container(value)) {
        return 0;
    }
    if (g_variant_type_is_array(type) && is_reading(g_variant_type_element(type))) {
        return g_variant_n_children(value);
    }
    for (i = 0; i < g_variant_n_children(value); i++) {
        GVariant *const child = g_variant_get_child_value(value, i);

        count += readings_in(child);
        g_variant_unref(child);
    }
    return count;
}

static GVariant *number_of(char letter, uint64_t bits) {
    double number;

    switch (letter) {
    case 'b':
        return g_variant_new_boolean(bits == 1);
    case 'y':
        return g_variant_new_byte((guint8)bits);
    case 'n':
        return g_variant_new_int16((gint16)bits);
    case 'q':
        return g_variant_new_uint16((guint16)bits);
    case 'i':
        return g_variant_new_int32((gint32)bits);
    case 'u':
        return g_variant_new_uint32((guint32)bits);
    case 'x':
        return g_variant_new_int64((gint64)bits);
    case 't':
        return g_variant_new_uint64(bits);
    default:
        memcpy(&number, &bits, sizeof number);
        return g_variant_new_double(number);
    }
}

/* A number or a text, read and made again. */
static GVariant *leaf_again(GVariant *value) {
    switch (g_variant_classify(value)) {
    case G_VARIANT_CLASS_BOOLEAN:
        return g_variant_new_boolean(g_variant_get_boolean(value));
    case G_VARIANT_CLASS_BYTE:
        return g_variant_new_byte(g_variant_get_byte(value));
    case G_VARIANT_CLASS_INT16:
        return g_variant_new_int16(g_variant_get_int16(value));
    case G_VARIANT_CLASS_UINT16:
        return g_variant_new_uint16(g_variant_get_uint16(value));
    case G_VARIANT_CLASS_INT32:
        return g_variant_new_int32(g_variant_get_int32(value));
    case G_VARIANT_CLASS_UINT32:
        return g_variant_new_uint32(g_variant_get_uint32(value));
    case G_VARIANT_CLASS_INT64:
        return g_variant_new_int64(g_variant_get_int64(value));
    case G_VARIANT_CLASS_UINT64:
        return g_variant_new_uint64(g_variant_get_uint64(value));
    case G_VARIANT_CLASS_DOUBLE:
        return g_variant_new_double(g_variant_get_double(value));
    default:
        return g_variant_new_string(g_variant_get_string(value, NULL));
    }
}

static GVariant *value_again(struct change *change, GVariant *value);

/* The child of a container, as it is to stand in the new one: made anew and floating, or taken over and the caller's to drop. */
static GVariant *child_again(struct change *change, GVariant *value, gsize place) {
    GVariant *const child = g_variant_get_child_value(value, place);
    GVariant *again;

    if (change->sharing && !change->done && readings_in(child) <= change->left) {
        change->left -= readings_in(child);
        return child;
    }
    if (change->sharing && change->done) {
        return child;
    }
    again = value_again(change, child);
    g_variant_unref(child);
    return again;
}

static GVariant *reading_again(struct change *change, GVariant *value) {
    const GVariantType *const element = g_variant_type_element(g_variant_get_type(value));

    if (!change->done && change->left-- == 0) {
        change->done = true;
        return g_variant_new_maybe(element, change->edit->present ? number_of(*g_variant_type_peek_string(element), change->edit->bits) : NULL);
    }
    return g_variant_new_maybe(element, g_variant_n_children(value) == 0 ? NULL : child_again(change, value, 0));
}

/* A container of children, by a builder. */
static GVariant *built_again(struct change *change, GVariant *value) {
    const gsize count = g_variant_n_children(value);
    GVariantBuilder builder;
    gsize i;

    g_variant_builder_init(&builder, g_variant_get_type(value));
    for (i = 0; i < count; i++) {
        GVariant *const child = child_again(change, value, i);
        const bool taken_over = !g_variant_is_floating(child);

        g_variant_builder_add_value(&builder, child);
        if (taken_over) {
            g_variant_unref(child);
        }
    }
    return g_variant_builder_end(&builder);
}

static GVariant *value_again(struct change *change, GVariant *value) {
    if (is_reading(g_variant_get_type(value))) {
        return reading_again(change, value);
    }
    return g_variant_is_container(value) ? built_again(change, value) : leaf_again(value);
}

/* One edit: the new value, which is the caller's to drop; NULL where the frame is not in normal form. */
static GVariant *edited(const struct edit *edit, bool sharing) {
    struct change change = {edit, edit->number, false, sharing};
    GVariant *const value = g_variant_ref_sink(g_variant_new_from_data(G_VARIANT_TYPE(edit->type), edit->frame, edit->length, FALSE, NULL, NULL));
    GVariant *new = NULL;

    if (g_variant_is_normal_form(value)) {
        new = g_variant_ref_sink(value_again(&change, value));
        g_variant_get_data(new);
    }
    g_variant_unref(value);
    return new;
}

int main(int argc, char **argv) {
    struct edit edit;
    GVariant *new = NULL;
    uint64_t start, end;
    unsigned long i;

    if (argc != 7 || (strcmp(argv[1], "anew") != 0 && strcmp(argv[1], "sharing") != 0)) {
        fputs("usage: glib_edit anew|sharing TYPE FRAME_FILE CALLS READING nothing|BITS\n", stderr);
        return 2;
    }
    edit = edit_of(argv + 2);
    start = now();
    for (i = 0; i < edit.calls; i++) {
        if (new != NULL) {
            g_variant_unref(new);
        }
        new = edited(&edit, strcmp(argv[1], "sharing") == 0);
    }
    end = now();
    if (new == NULL) {
        fputs("glib_edit: the frame is not in normal form\n", stderr);
        return 1;
    }
    print_edit(0, g_variant_get_data(new), g_variant_get_size(new), end - start);
    g_variant_unref(new);
    return 0;
}
