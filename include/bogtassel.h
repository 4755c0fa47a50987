/*
 * bogtassel.h: reads and writes GVariant frames, tells which frames are as writing makes them, and edits a reading in such a
 * frame. Link with libbogtassel.a, which `rt lib` writes to out/ in crates/bogtassel.
 *
 * The archive is for x86-64 Linux. It allocates nothing and keeps nothing between calls, so calls may run in several threads
 * at once, each with memory of its own.
 *
 * TYPES    One complete GVariant type of 1 to 255 characters: a basic letter of b y n q i u x t d s o g; v; a and a type;
 *          m and a type; ( with one or more types and ); or a{ with a basic key, a value type and }. No nul ends the text:
 *          its length is passed.
 * LIMITS   A frame has at most 65,536 bytes. `position` is where its first byte stands, 0 to 65,536, and alignment counts
 *          from there: pass 0 if in doubt. A written frame stands at 0. At most 32 structures, 32 arrays or dictionaries, and
 *          64 containers in all (variants and present maybes too) may be open at once.
 * ORDER    `big_endian` is the byte order of the frame's numbers. Offsets are little-endian always.
 * EVENTS   A value is a row of events, three 64-bit numbers each: kind, place, payload. Reading gives them and writing takes
 *          them. See enum bogtassel_kind.
 *
 * PROMISES, proved for all arguments:
 *   - Every call returns, with BOGTASSEL_DONE or with the number of a refusal: any bytes, any type text, any length and any
 *     position have an answer.
 *   - A refusal leaves `out` or `buffer` as it was and sets *used and *event_count, or *length, to 0.
 *   - What is given depends on the arguments alone.
 *
 * WHAT THE CALLER OWES:
 *   - Each pointer is valid for its length: `type`, `frame` and `texts` for so many readable bytes, `events` for so many
 *     readable 64-bit numbers, `out` for so many writable 64-bit numbers where it takes events and writable bytes where it
 *     takes a frame, `buffer` for so many bytes that are readable and writable, all of them, whatever is used; `used`,
 *     `event_count` and `length` for one size_t each where they are pointers. Numbers stand at addresses that are multiples
 *     of 8, as C's own do.
 *   - No pointer is NULL. For an empty slice (length 0) pass any pointer that is not NULL; nothing is read or written
 *     through it.
 *   - `out`, `buffer`, *used, *event_count and *length overlap neither one another nor the type, the frame, the events and
 *     the texts. These four are only read, and may overlap one another. Nothing else writes to any of them during the call.
 *   - There is room on the stack: see docs/STACK.md for the most that a call uses.
 */
#ifndef BOGTASSEL_H
#define BOGTASSEL_H

#include <stdbool.h>
#include <stddef.h>
#include <stdint.h>

#if SIZE_MAX != UINT64_MAX
#error "bogtassel.h: the archive is for x86-64, where size_t has 64 bits"
#endif

#ifdef __cplusplus
extern "C" {
#endif

/* The most that a frame's length and a position may be. */
#define BOGTASSEL_LIMIT 65536

/* The most characters that a type may have. */
#define BOGTASSEL_TYPE_LIMIT 255

/* The 64-bit numbers of one event: kind, place, payload. */
#define BOGTASSEL_EVENT_NUMBERS 3

/*
 * What a call returns, and in which order it judges:
 *   bogtassel_size         TYPE, LIMITS, then whatever of 3 to 12 reading meets first
 *   bogtassel_read         the same, then ROOM
 *   bogtassel_write        TYPE, then the first fault in the order of the events (VALUE, NUL, UTF8, VARIANT_TYPE, a depth), then
 *                          LIMITS, then ROOM
 *   bogtassel_is_written   TYPE, LIMITS, then whatever of 3 to 12 reading meets first, then NOT_WRITTEN
 *   bogtassel_edit         TYPE, LIMITS (of `used`), then whatever of 3 to 12 reading meets first, then NOT_WRITTEN, NO_READING,
 *                          VALUE, DEPTH (of the reading), LIMITS (of the new frame), ROOM; a withdrawal none of these last four
 * No call gives a number that is not named for it here. 18 is given by none of them, and 14 is not used: it is proved that no
 * call gives it, whatever its arguments.
 */
enum bogtassel_refusal {
    BOGTASSEL_DONE = 0,             /* no refusal: the frame was read, or written, or edited, or is a written form */
    BOGTASSEL_TYPE = 1,             /* the type text is no single complete type, or is over 255 characters */
    BOGTASSEL_LIMITS = 2,           /* the frame, old or new, has more than 65,536 bytes, or the position is past 65,536;
                                       editing: or `used` is over the buffer's length */
    BOGTASSEL_BOUNDS = 3,           /* a value, an offset or padding runs past the bytes that it has */
    BOGTASSEL_PADDING = 4,          /* a padding byte is not 0 */
    BOGTASSEL_NUL = 5,              /* a nul inside a text; in a text that is to be written, also at its end */
    BOGTASSEL_UTF8 = 6,             /* a text is not UTF-8 */
    BOGTASSEL_MAYBE = 7,            /* the byte after a present maybe is not 0 */
    BOGTASSEL_SEPARATOR = 8,        /* a variant has no nul between its value and its type */
    BOGTASSEL_VARIANT_TYPE = 9,     /* the type of a variant is refused */
    BOGTASSEL_STRUCTURE_DEPTH = 10, /* more than 32 structures in one another */
    BOGTASSEL_ARRAY_DEPTH = 11,     /* more than 32 arrays or dictionaries in one another */
    BOGTASSEL_DEPTH = 12,           /* more than 64 containers in one another; editing: there would be, with the reading present */
    BOGTASSEL_ROOM = 13,            /* `out` is too short: for all events, 3 numbers each, or for the frame; editing: `buffer`
                                       is, for the new frame */
                                    /* 14 is not used */
    BOGTASSEL_NOT_WRITTEN = 15,     /* the frame reads, but is not the form that writing gives its value */
    BOGTASSEL_NO_READING = 16,      /* editing: the frame has no reading of that number */
    BOGTASSEL_VALUE = 17,           /* the events spell no value of the type; editing: the bits spell none of the reading's type */
    BOGTASSEL_HEXADECIMAL = 18      /* the frame lister: a line is not pairs of hexadecimal digits */
};

/*
 * The kind of an event: the ASCII code of a character.
 *
 * `place` is the index in the frame of the value's first byte after padding; for a close, of the byte where reading then
 * stands, which may be the frame's length. `payload` is 0 unless stated here.
 *
 *   A number's payload is its bits in its own width, the bits above them 0: read an `n` of -1 as 65,535 and convert by
 *   (int16_t)payload; a `d` is the 64 bits of the double.
 *   A text's payload is its length: the text is the `payload` bytes from frame + place, and no nul ends it.
 *
 * Writing takes the same events. Of a text, place and payload are where it begins in `texts`, and its length; every other
 * place is passed over. So the events of a reading can be written as they are, with the frame that they came from as `texts`.
 */
enum bogtassel_kind {
    BOGTASSEL_BOOL = 98,        /* b: payload 0 or 1 */
    BOGTASSEL_BYTE = 121,       /* y: unsigned, 8 bits */
    BOGTASSEL_INT16 = 110,      /* n: signed, 16 bits */
    BOGTASSEL_UINT16 = 113,     /* q: unsigned, 16 bits */
    BOGTASSEL_INT32 = 105,      /* i: signed, 32 bits */
    BOGTASSEL_UINT32 = 117,     /* u: unsigned, 32 bits */
    BOGTASSEL_INT64 = 120,      /* x: signed, 64 bits */
    BOGTASSEL_UINT64 = 116,     /* t: unsigned, 64 bits */
    BOGTASSEL_DOUBLE = 100,     /* d: the bits of a double */
    BOGTASSEL_STRING = 115,     /* s: payload is the length */
    BOGTASSEL_PATH = 111,       /* o: payload is the length; any text is taken */
    BOGTASSEL_SIGNATURE = 103,  /* g: payload is the length; any text is taken */
    BOGTASSEL_PRESENT = 109,    /* m: a maybe with a value; the value's events follow, and no close */
    BOGTASSEL_NOTHING = 78,     /* N: a maybe with nothing in it. It is not a 0 */
    BOGTASSEL_VARIANT = 118,    /* v: opens a variant; a `g` event with its type follows, then its value, then a close */
    BOGTASSEL_ARRAY = 97,       /* a: opens an array; its elements follow, then a close */
    BOGTASSEL_DICTIONARY = 123, /* {: opens a whole dictionary; key, value, key, value follow, then a close */
    BOGTASSEL_STRUCTURE = 40,   /* (: opens a structure; its fields follow, then a close */
    BOGTASSEL_CLOSE = 41        /* ): closes the last opened variant, array, dictionary or structure */
};

/*
 * Sizes a reading: judges the whole frame and counts its events, and gives no events.
 *
 * Returns BOGTASSEL_DONE, and sets *used to the bytes that were used and *event_count to the number of events. Fewer bytes
 * than frame_length may have been used; that is no refusal. More are never used. There are at most 8,454,273 events, so that
 * 3 times their number, and the bytes of those numbers, are no overflow. Or returns a refusal, and sets both to 0.
 */
uint8_t bogtassel_size(const uint8_t *type, size_t type_length, bool big_endian, size_t position, const uint8_t *frame,
                       size_t frame_length, size_t *used, size_t *event_count);

/*
 * Reads a frame into `out`, which has room for `out_length` 64-bit numbers.
 *
 * Returns BOGTASSEL_DONE, with *used and *event_count as bogtassel_size sets them. Then out[3 * i] is the kind of event i,
 * out[3 * i + 1] its place and out[3 * i + 2] its payload. The numbers behind the last event are as they were.
 *
 * Returns what bogtassel_size returns if that is a refusal; else BOGTASSEL_ROOM exactly where 3 times the number of events
 * is over `out_length`, which need not be a multiple of 3. Then `out` is as it was, and *used and *event_count are 0.
 */
uint8_t bogtassel_read(const uint8_t *type, size_t type_length, bool big_endian, size_t position, const uint8_t *frame,
                       size_t frame_length, uint64_t *out, size_t out_length, size_t *used, size_t *event_count);

/*
 * Writes the frame of the value that `events` spell, which has `number_count` 64-bit numbers, three an event, into `out`, which
 * has room for `out_length` bytes.
 *
 * Returns BOGTASSEL_DONE, and sets *length to the frame's length. The frame stands at the front of `out`; the bytes behind it
 * are as they were. It is the form that the GVariant Specification gives the value: padding is 0, offsets have the smallest
 * width that the container's length allows, a bool is 0 or 1, and a text ends in one nul. Dictionaries keep their order and
 * their doubles. bogtassel_read reads the whole of it, and gives back these events but for their places. So no two records are
 * alike: two different values of a type, texts compared by their bytes and floats by their bits, never have the same frame in
 * one byte order.
 *
 * Returns BOGTASSEL_VALUE where the events are not those of one value of the type: another kind than the type has there, an
 * event too few or too many, numbers left over that make no event, a number that is wider than its type, a bool above 1, a
 * payload where 0 belongs, a text whose place and length leave `texts`. A text with a nul is BOGTASSEL_NUL, one that is not
 * UTF-8 BOGTASSEL_UTF8; the type of a variant, which follows its event as the text of a `g`, is judged as a text and then by
 * BOGTASSEL_VARIANT_TYPE. A container's depth is judged at the event that opens it, a variant's after its type.
 *
 * Returns BOGTASSEL_LIMITS where the frame would have more than 65,536 bytes, whatever room there is, and else BOGTASSEL_ROOM
 * exactly where its length is over `out_length`.
 */
uint8_t bogtassel_write(const uint8_t *type, size_t type_length, bool big_endian, const uint64_t *events, size_t number_count,
                        const uint8_t *texts, size_t texts_length, uint8_t *out, size_t out_length, size_t *length);

/*
 * Tells whether a frame, at position 0, is a written form: the bytes that bogtassel_write makes of some value.
 *
 * Returns BOGTASSEL_DONE exactly where it is. Else returns what bogtassel_size refuses the frame with, or, where it reads,
 * BOGTASSEL_NOT_WRITTEN: bytes that are not used, a bool above 1, a text without its nul, offsets wider than needed, and
 * whatever else reading takes and writing does not make.
 */
uint8_t bogtassel_is_written(const uint8_t *type, size_t type_length, bool big_endian, const uint8_t *frame, size_t frame_length);

/*
 * Edits one reading of a frame where it stands: withdraws it, replaces it, or puts a number where nothing was.
 *
 * The frame is the first `used` bytes of `buffer`, which has `buffer_length`, at position 0, and a written form. A reading is a
 * maybe of b y n q i u x t d, present or nothing, wherever it stands: in arrays, structures, variants, as a dictionary's value,
 * inside present maybes. `number` counts them from 0, in the order of bogtassel_read's events. The reading becomes the number
 * whose bits are `bits`, in its own width, the bits above them 0, if `present` is true; else it becomes nothing, and `bits` is
 * passed over.
 *
 * Returns BOGTASSEL_DONE, and sets *length to the new frame's length, which may be less than `used`, or more. The new frame
 * stands at the front of `buffer`: it is what bogtassel_write makes of the same value with that reading changed, so it can be
 * edited again, with *length as `used`. No byte before the reading's place, which is that of its event, is another. From the new
 * length to a larger old one `buffer` holds zeros; beyond both it is as it was. A nothing that is withdrawn, and a number that
 * is replaced by itself, leave all bytes as they were.
 *
 * A WITHDRAWAL, where `present` is false, NEEDS NO SPARE ROOM: a buffer that is exactly full, `buffer_length` being `used`, will
 * do. Its frame is never longer than the old one: what follows the reading moves towards the front or keeps its place, and in no
 * container do offsets become wider. So it gives neither BOGTASSEL_ROOM nor the BOGTASSEL_LIMITS of a new frame, and *length is at
 * most `used`. This too is proved for all arguments. To put a number where nothing was may still need room.
 *
 * Returns BOGTASSEL_LIMITS where `used` is over 65,536 or over `buffer_length`, and, when all else is well, where the new frame
 * would have more than 65,536 bytes, whatever room there is; BOGTASSEL_ROOM where it has no room in `buffer`. Returns what
 * bogtassel_is_written refuses the frame with. Returns BOGTASSEL_VALUE where the bits are too wide for the reading's type, as
 * those of a negative number that is not cut to its width, or a bool above 1; BOGTASSEL_DEPTH where a nothing with 64 open
 * containers round it would become present.
 */
uint8_t bogtassel_edit(const uint8_t *type, size_t type_length, bool big_endian, uint8_t *buffer, size_t buffer_length,
                       size_t used, size_t number, bool present, uint64_t bits, size_t *length);

#ifdef __cplusplus
}
#endif

#endif
