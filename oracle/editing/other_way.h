/* An edit by the other way: all events are read, one is changed, and they are written. */
#ifndef OTHER_WAY_H
#define OTHER_WAY_H

#include <stdbool.h>
#include <stddef.h>
#include <stdint.h>

/* As bogtassel_edit is called, and with the same answer. */
uint8_t other_way(const uint8_t *type, size_t type_length, bool big_endian, uint8_t *buffer, size_t buffer_length, size_t used, size_t number,
                  bool present, uint64_t bits, size_t *length);

#endif
