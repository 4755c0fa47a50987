/*
 * The benchmark of GLib: takes one frame as untrusted data so many times.
 *
 * Usage: glib normal|walk TYPE FRAME_FILE CALLS
 * normal asks whether the frame is in normal form; walk visits all values, reading every number and text.
 * Prints `REFUSAL USED EVENTS LEAVES SUM NANOSECONDS` as rattle.c does, with - for what GLib does not give. REFUSAL is 0 if
 * the frame is in normal form, which is asked once behind the calls for walk.
 */
#define _POSIX_C_SOURCE 200809L
#include "frame.h"

#include <glib.h>

struct seen {
    uint64_t leaves;
    uint64_t sum;
};

static void walk(GVariant *value, struct seen *seen);

static void walk_and_drop(GVariant *child, struct seen *seen) {
    walk(child, seen);
    g_variant_unref(child);
}

static void walk_children(GVariant *value, struct seen *seen) {
    const gsize count = g_variant_n_children(value);
    gsize i;

    for (i = 0; i < count; i++) {
        walk_and_drop(g_variant_get_child_value(value, i), seen);
    }
}

static void walk_maybe(GVariant *value, struct seen *seen) {
    GVariant *const child = g_variant_get_maybe(value);

    if (child == NULL) {
        seen->leaves++;
    } else {
        walk_and_drop(child, seen);
    }
}

static void walk_variant(GVariant *value, struct seen *seen) {
    GVariant *const child = g_variant_get_variant(value);

    seen->sum += strlen(g_variant_get_type_string(child));
    walk_and_drop(child, seen);
}

static uint64_t bits_of(double number) {
    uint64_t bits;

    memcpy(&bits, &number, sizeof bits);
    return bits;
}

static uint64_t leaf(GVariant *value, GVariantClass class) {
    gsize length;

    switch (class) {
    case G_VARIANT_CLASS_BOOLEAN:
        return g_variant_get_boolean(value) ? 1 : 0;
    case G_VARIANT_CLASS_BYTE:
        return g_variant_get_byte(value);
    case G_VARIANT_CLASS_INT16:
        return (guint16)g_variant_get_int16(value);
    case G_VARIANT_CLASS_UINT16:
        return g_variant_get_uint16(value);
    case G_VARIANT_CLASS_INT32:
        return (guint32)g_variant_get_int32(value);
    case G_VARIANT_CLASS_UINT32:
        return g_variant_get_uint32(value);
    case G_VARIANT_CLASS_INT64:
        return (guint64)g_variant_get_int64(value);
    case G_VARIANT_CLASS_UINT64:
        return g_variant_get_uint64(value);
    case G_VARIANT_CLASS_DOUBLE:
        return bits_of(g_variant_get_double(value));
    default:
        g_variant_get_string(value, &length);
        return length;
    }
}

static void walk(GVariant *value, struct seen *seen) {
    const GVariantClass class = g_variant_classify(value);

    switch (class) {
    case G_VARIANT_CLASS_MAYBE:
        walk_maybe(value, seen);
        break;
    case G_VARIANT_CLASS_VARIANT:
        walk_variant(value, seen);
        break;
    case G_VARIANT_CLASS_ARRAY:
    case G_VARIANT_CLASS_TUPLE:
    case G_VARIANT_CLASS_DICT_ENTRY:
        walk_children(value, seen);
        break;
    default:
        seen->leaves++;
        seen->sum += leaf(value, class);
    }
}

static GVariant *untrusted(const char *type, const unsigned char *frame, size_t length) {
    return g_variant_ref_sink(g_variant_new_from_data(G_VARIANT_TYPE(type), frame, length, FALSE, NULL, NULL));
}

static bool is_normal(const char *type, const unsigned char *frame, size_t length) {
    GVariant *const value = untrusted(type, frame, length);
    const bool normal = g_variant_is_normal_form(value);

    g_variant_unref(value);
    return normal;
}

static void normal_all(const char *type, const unsigned char *frame, size_t length, unsigned long calls) {
    bool normal = false;
    const uint64_t start = now();
    uint64_t end;
    unsigned long i;

    for (i = 0; i < calls; i++) {
        normal = is_normal(type, frame, length);
    }
    end = now();
    printf("%d - - - - %" PRIu64 "\n", normal ? 0 : 1, end - start);
}

static void walk_all(const char *type, const unsigned char *frame, size_t length, unsigned long calls) {
    struct seen seen = {0, 0};
    const uint64_t start = now();
    uint64_t end;
    unsigned long i;

    for (i = 0; i < calls; i++) {
        seen = (struct seen){0, 0};
        walk_and_drop(untrusted(type, frame, length), &seen);
    }
    end = now();
    printf("%d - - %" PRIu64 " %" PRIu64 " %" PRIu64 "\n", is_normal(type, frame, length) ? 0 : 1, seen.leaves, seen.sum,
           end - start);
}

int main(int argc, char **argv) {
    const unsigned char *frame;
    size_t length;

    if (argc != 5 || (strcmp(argv[1], "normal") != 0 && strcmp(argv[1], "walk") != 0)) {
        fputs("usage: glib normal|walk TYPE FRAME_FILE CALLS\n", stderr);
        return 2;
    }
    frame = frame_of(argv[3], &length);
    (strcmp(argv[1], "normal") == 0 ? normal_all : walk_all)(argv[2], frame, length, calls_of(argv[4]));
    return 0;
}
