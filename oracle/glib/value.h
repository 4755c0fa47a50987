/* GLib's values from document 01's events. */
#ifndef VALUE_H
#define VALUE_H

#include <glib.h>
#include <stdbool.h>
#include <stddef.h>
#include <stdint.h>

/* Numbers, three an event, that are taken off the front; and the slice that texts are views of. */
struct spelling {
    const uint64_t *numbers;
    size_t count;
    size_t at;
    const uint8_t *texts;
    size_t texts_length;
    bool strange; /* set where GLib is asked for a type that it does not know, or that document 01 does not */
};

/*
 * The value of this type that the events at the front spell, which is the caller's to drop; NULL where they spell none. Nothing is
 * judged here but what GLib must be told: the texts of o and g are taken as they are, and so is every depth.
 */
GVariant *value_of(struct spelling *spelling, const char *type, size_t type_length);

/* The same, where no number may be left over, in the byte order asked: NULL where the events spell no value. */
GVariant *whole_value(struct spelling *spelling, const char *type, size_t type_length, bool big_endian);

/* Whether GLib says that a frame is in normal form. The frame is copied to an address that is a multiple of 8. */
bool is_normal(const char *type, size_t type_length, const uint8_t *frame, size_t length);

/* Whether GLib knows a type and document 01 does so far as GLib can tell: one type, without h, (), or a bare entry. */
bool is_known(const char *type, size_t type_length);

#endif
