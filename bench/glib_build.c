/*
 * The benchmark of GLib's writing: builds the value of one frame so many times, and takes its data each time.
 *
 * Usage: glib_build TYPE FRAME_FILE CALLS
 * The frame is taken apart once, before the calls: what there is to build then stands in plain C, numbers as numbers and texts as C's own
 * strings. A call makes every number and text by its function and every container by a GVariantBuilder, and ends in g_variant_get_data and
 * g_variant_get_size.
 * Prints `REFUSAL USED EVENTS LEAVES SUM NANOSECONDS` as rattle.c does, with - for what GLib does not give. USED is the length of the data,
 * if that is the frame, else 0.
 */
#define _POSIX_C_SOURCE 200809L
#include "frame.h"

#include <glib.h>

/* One value: a number or text, or a container with so many children, which follow. */
struct part {
    GVariantClass class;
    const GVariantType *type;
    size_t children;
    uint64_t bits;
    double number;
    const char *text;
};

struct parts {
    struct part *all;
    size_t count;
    size_t room;
};

static struct part *one_more(struct parts *parts) {
    if (parts->count == parts->room) {
        parts->room = 2 * parts->room + 1024;
        parts->all = g_realloc_n(parts->all, parts->room, sizeof *parts->all);
    }
    parts->all[parts->count] = (struct part){0};
    return &parts->all[parts->count++];
}

/* Taking apart. The types and texts of the parts belong to the values, which are kept. */

static void take_apart(GVariant *value, struct parts *parts);

static void take_children(GVariant *value, struct parts *parts) {
    const gsize count = g_variant_n_children(value);
    gsize i;

    for (i = 0; i < count; i++) {
        take_apart(g_variant_get_child_value(value, i), parts);
    }
}

static void take_leaf(GVariant *value, struct part *part) {
    switch (part->class) {
    case G_VARIANT_CLASS_BOOLEAN:
        part->bits = g_variant_get_boolean(value) ? 1 : 0;
        break;
    case G_VARIANT_CLASS_BYTE:
        part->bits = g_variant_get_byte(value);
        break;
    case G_VARIANT_CLASS_INT16:
        part->bits = (uint16_t)g_variant_get_int16(value);
        break;
    case G_VARIANT_CLASS_UINT16:
        part->bits = g_variant_get_uint16(value);
        break;
    case G_VARIANT_CLASS_INT32:
        part->bits = (uint32_t)g_variant_get_int32(value);
        break;
    case G_VARIANT_CLASS_UINT32:
        part->bits = g_variant_get_uint32(value);
        break;
    case G_VARIANT_CLASS_INT64:
        part->bits = (uint64_t)g_variant_get_int64(value);
        break;
    case G_VARIANT_CLASS_UINT64:
        part->bits = g_variant_get_uint64(value);
        break;
    case G_VARIANT_CLASS_DOUBLE:
        part->number = g_variant_get_double(value);
        break;
    default:
        part->text = g_variant_get_string(value, NULL);
    }
}

static void take_apart(GVariant *value, struct parts *parts) {
    struct part *const part = one_more(parts);

    part->class = g_variant_classify(value);
    part->type = g_variant_get_type(value);
    if (g_variant_is_container(value)) {
        part->children = g_variant_n_children(value);
        take_children(value, parts);
    } else {
        take_leaf(value, part);
    }
}

/* Building. */

static GVariant *built_leaf(const struct part *part) {
    switch (part->class) {
    case G_VARIANT_CLASS_BOOLEAN:
        return g_variant_new_boolean(part->bits == 1);
    case G_VARIANT_CLASS_BYTE:
        return g_variant_new_byte((guint8)part->bits);
    case G_VARIANT_CLASS_INT16:
        return g_variant_new_int16((gint16)part->bits);
    case G_VARIANT_CLASS_UINT16:
        return g_variant_new_uint16((guint16)part->bits);
    case G_VARIANT_CLASS_INT32:
        return g_variant_new_int32((gint32)part->bits);
    case G_VARIANT_CLASS_UINT32:
        return g_variant_new_uint32((guint32)part->bits);
    case G_VARIANT_CLASS_INT64:
        return g_variant_new_int64((gint64)part->bits);
    case G_VARIANT_CLASS_UINT64:
        return g_variant_new_uint64(part->bits);
    case G_VARIANT_CLASS_DOUBLE:
        return g_variant_new_double(part->number);
    case G_VARIANT_CLASS_OBJECT_PATH:
        return g_variant_new_object_path(part->text);
    case G_VARIANT_CLASS_SIGNATURE:
        return g_variant_new_signature(part->text);
    default:
        return g_variant_new_string(part->text);
    }
}

static GVariant *built(const struct part **next);

static GVariant *built_container(const struct part *part, const struct part **next) {
    GVariantBuilder builder;
    size_t i;

    g_variant_builder_init(&builder, part->type);
    for (i = 0; i < part->children; i++) {
        g_variant_builder_add_value(&builder, built(next));
    }
    return g_variant_builder_end(&builder);
}

static GVariant *built(const struct part **next) {
    const struct part *const part = (*next)++;

    switch (part->class) {
    case G_VARIANT_CLASS_VARIANT:
        return g_variant_new_variant(built(next));
    case G_VARIANT_CLASS_MAYBE:
        return g_variant_new_maybe(g_variant_type_element(part->type), part->children == 0 ? NULL : built(next));
    case G_VARIANT_CLASS_ARRAY:
    case G_VARIANT_CLASS_TUPLE:
    case G_VARIANT_CLASS_DICT_ENTRY:
        return built_container(part, next);
    default:
        return built_leaf(part);
    }
}

/* Whether the data of the value is the frame. */
static bool builds(const struct parts *parts, const unsigned char *frame, size_t length, bool compares) {
    const struct part *next = parts->all;
    GVariant *const value = g_variant_ref_sink(built(&next));
    const gconstpointer data = g_variant_get_data(value);
    const bool same = g_variant_get_size(value) == length && (!compares || length == 0 || memcmp(data, frame, length) == 0);

    g_variant_unref(value);
    return same;
}

int main(int argc, char **argv) {
    struct parts parts = {0};
    const unsigned char *frame;
    unsigned long calls, i;
    uint64_t start, end;
    size_t length;
    bool same;

    if (argc != 4) {
        fputs("usage: glib_build TYPE FRAME_FILE CALLS\n", stderr);
        return 2;
    }
    frame = frame_of(argv[2], &length);
    calls = calls_of(argv[3]);
    take_apart(g_variant_ref_sink(g_variant_new_from_data(G_VARIANT_TYPE(argv[1]), frame, length, FALSE, NULL, NULL)), &parts);
    same = builds(&parts, frame, length, true);
    start = now();
    for (i = 0; i < calls; i++) {
        same = builds(&parts, frame, length, false) && same;
    }
    end = now();
    printf("%d %zu - - - %" PRIu64 "\n", same ? 0 : 1, same ? length : 0, end - start);
    return 0;
}
