/*
 * GLib's values from document 01's events: each container by a GVariantBuilder, each number and text by its own function, except that a
 * text of o or g is made from its bytes, as trusted data, since document 01 takes any text there.
 */
#include "value.h"

#include <string.h>

enum { EVENT_NUMBERS = 3, LONGEST_TYPE = 255 };

struct event {
    uint64_t kind;
    uint64_t place;
    uint64_t payload;
};

static bool next_event(struct spelling *spelling, struct event *event) {
    const uint64_t *const numbers = spelling->numbers + spelling->at;

    if (spelling->count - spelling->at < EVENT_NUMBERS) {
        return false;
    }
    *event = (struct event){numbers[0], numbers[1], numbers[2]};
    spelling->at += EVENT_NUMBERS;
    return true;
}

/* The next event, if it is of this kind and carries nothing. */
static bool passes(struct spelling *spelling, char kind) {
    struct event event;

    return next_event(spelling, &event) && event.kind == (uint64_t)kind && event.payload == 0;
}

/* Whether an event that closes comes next; it is not taken. */
static bool closes(const struct spelling *spelling) {
    return spelling->count - spelling->at >= EVENT_NUMBERS && spelling->numbers[spelling->at] == ')';
}

bool is_known(const char *type, size_t type_length) {
    char text[LONGEST_TYPE + 1];
    size_t i;

    if (type_length == 0 || type_length > LONGEST_TYPE || memchr(type, '\0', type_length) != NULL) {
        return false;
    }
    memcpy(text, type, type_length);
    text[type_length] = '\0';
    for (i = 0; i < type_length; i++) {
        if (text[i] == '{' && (i == 0 || text[i - 1] != 'a')) {
            return false;
        }
    }
    return text[strspn(text, "bynqiuxtdsogvam(){}")] == '\0' && strstr(text, "()") == NULL && g_variant_type_string_is_valid(text);
}

/* Numbers. */

static GVariant *boolean(uint64_t bits) {
    return bits <= 1 ? g_variant_new_boolean(bits == 1) : NULL;
}

static GVariant *float_of(uint64_t bits) {
    double number;

    memcpy(&number, &bits, sizeof number);
    return g_variant_new_double(number);
}

static GVariant *number(char letter, uint64_t bits) {
    switch (letter) {
    case 'b':
        return boolean(bits);
    case 'y':
        return bits <= UINT8_MAX ? g_variant_new_byte((guint8)bits) : NULL;
    case 'n':
        return bits <= UINT16_MAX ? g_variant_new_int16((gint16)bits) : NULL;
    case 'q':
        return bits <= UINT16_MAX ? g_variant_new_uint16((guint16)bits) : NULL;
    case 'i':
        return bits <= UINT32_MAX ? g_variant_new_int32((gint32)bits) : NULL;
    case 'u':
        return bits <= UINT32_MAX ? g_variant_new_uint32((guint32)bits) : NULL;
    case 'x':
        return g_variant_new_int64((gint64)bits);
    case 't':
        return g_variant_new_uint64(bits);
    default:
        return float_of(bits);
    }
}

/* Texts. */

/* The text of an event, ended by a nul, which is the caller's to drop; NULL where the view lies outside, or GLib's judge of UTF-8 refuses. */
static char *text_of(const struct spelling *spelling, const struct event *event) {
    const char *text;

    if (event->place > spelling->texts_length || event->payload > spelling->texts_length - event->place) {
        return NULL;
    }
    text = (const char *)spelling->texts + event->place;
    if (memchr(text, '\0', event->payload) != NULL || !g_utf8_validate_len(text, event->payload, NULL)) {
        return NULL;
    }
    return g_strndup(text, event->payload);
}

static GVariant *text_value(const struct spelling *spelling, char letter, const struct event *event) {
    char *const text = text_of(spelling, event);

    if (text == NULL) {
        return NULL;
    }
    if (letter == 's') {
        return g_variant_new_take_string(text);
    }
    return g_variant_new_from_data(letter == 'o' ? G_VARIANT_TYPE_OBJECT_PATH : G_VARIANT_TYPE_SIGNATURE, text, event->payload + 1, TRUE, g_free, text);
}

static GVariant *basic(struct spelling *spelling, char letter) {
    struct event event;

    if (!next_event(spelling, &event) || event.kind != (uint64_t)letter) {
        return NULL;
    }
    return strchr("sog", letter) != NULL ? text_value(spelling, letter, &event) : number(letter, event.payload);
}

/* Containers. */

static GVariant *typed_value(struct spelling *spelling, const GVariantType *type);

/* Adds a value of this type to a container; or drops the container, where the events spell none. */
static bool adds(GVariantBuilder *builder, struct spelling *spelling, const GVariantType *type) {
    GVariant *const value = typed_value(spelling, type);

    if (value == NULL) {
        g_variant_builder_clear(builder);
        return false;
    }
    g_variant_builder_add_value(builder, value);
    return true;
}

static GVariant *maybe(struct spelling *spelling, const GVariantType *type) {
    const GVariantType *const child = g_variant_type_element(type);
    struct event event;
    GVariant *value;

    if (!next_event(spelling, &event) || event.payload != 0 || (event.kind != 'm' && event.kind != 'N')) {
        return NULL;
    }
    if (event.kind == 'N') {
        return g_variant_new_maybe(child, NULL);
    }
    value = typed_value(spelling, child);
    return value == NULL ? NULL : g_variant_new_maybe(child, value);
}

/* An entry has no events of its own. */
static GVariant *entry(struct spelling *spelling, const GVariantType *type) {
    GVariantBuilder builder;

    g_variant_builder_init(&builder, type);
    if (!adds(&builder, spelling, g_variant_type_key(type)) || !adds(&builder, spelling, g_variant_type_value(type))) {
        return NULL;
    }
    return g_variant_builder_end(&builder);
}

static GVariant *array(struct spelling *spelling, const GVariantType *type) {
    const GVariantType *const element = g_variant_type_element(type);
    GVariantBuilder builder;

    if (!passes(spelling, g_variant_type_is_dict_entry(element) ? '{' : 'a')) {
        return NULL;
    }
    g_variant_builder_init(&builder, type);
    while (!closes(spelling)) {
        if (!adds(&builder, spelling, element)) {
            return NULL;
        }
    }
    if (!passes(spelling, ')')) {
        g_variant_builder_clear(&builder);
        return NULL;
    }
    return g_variant_builder_end(&builder);
}

static GVariant *structure(struct spelling *spelling, const GVariantType *type) {
    GVariantBuilder builder;
    const GVariantType *field;

    if (!passes(spelling, '(')) {
        return NULL;
    }
    g_variant_builder_init(&builder, type);
    for (field = g_variant_type_first(type); field != NULL; field = g_variant_type_next(field)) {
        if (!adds(&builder, spelling, field)) {
            return NULL;
        }
    }
    if (!passes(spelling, ')')) {
        g_variant_builder_clear(&builder);
        return NULL;
    }
    return g_variant_builder_end(&builder);
}

static GVariant *variant(struct spelling *spelling) {
    struct event event;
    char *text;
    GVariant *value;

    if (!passes(spelling, 'v') || !next_event(spelling, &event) || event.kind != 'g' || (text = text_of(spelling, &event)) == NULL) {
        return NULL;
    }
    value = value_of(spelling, text, event.payload);
    g_free(text);
    if (value == NULL) {
        return NULL;
    }
    if (!passes(spelling, ')')) {
        g_variant_unref(g_variant_ref_sink(value));
        return NULL;
    }
    return g_variant_new_variant(value);
}

static GVariant *typed_value(struct spelling *spelling, const GVariantType *type) {
    const char letter = g_variant_type_peek_string(type)[0];

    switch (letter) {
    case 'm':
        return maybe(spelling, type);
    case 'a':
        return array(spelling, type);
    case '(':
        return structure(spelling, type);
    case '{':
        return entry(spelling, type);
    case 'v':
        return variant(spelling);
    default:
        return basic(spelling, letter);
    }
}

GVariant *value_of(struct spelling *spelling, const char *type, size_t type_length) {
    char text[LONGEST_TYPE + 1];

    if (!is_known(type, type_length)) {
        spelling->strange = true;
        return NULL;
    }
    memcpy(text, type, type_length);
    text[type_length] = '\0';
    return typed_value(spelling, G_VARIANT_TYPE(text));
}

GVariant *whole_value(struct spelling *spelling, const char *type, size_t type_length, bool big_endian) {
    GVariant *const spelt = value_of(spelling, type, type_length);
    GVariant *value;

    if (spelt == NULL) {
        return NULL;
    }
    value = g_variant_ref_sink(spelt);
    if (spelling->at != spelling->count) {
        g_variant_unref(value);
        return NULL;
    }
    if (big_endian == (G_BYTE_ORDER == G_LITTLE_ENDIAN)) {
        GVariant *const swapped = g_variant_byteswap(value);

        g_variant_unref(value);
        return swapped;
    }
    return value;
}

bool is_normal(const char *type, size_t type_length, const uint8_t *frame, size_t length) {
    char *const text = g_strndup(type, type_length);
    uint8_t *const bytes = g_malloc0(length + 1);
    GVariant *value;
    bool normal;

    memcpy(bytes, frame, length);
    value = g_variant_ref_sink(g_variant_new_from_data(G_VARIANT_TYPE(text), bytes, length, FALSE, g_free, bytes));
    normal = g_variant_is_normal_form(value);
    g_variant_unref(value);
    g_free(text);
    return normal;
}
