/*
 * Holds the archive to what include/bogtassel.h promises of bogtassel_write and bogtassel_is_written: on events that are written and
 * events that are refused, for each length of `out` around the frame's, and on frames that are written forms and frames that are not.
 * Frames and refusals are those of document 01, or were found by hand from it.
 * All memory that is lent has just the length that is passed, so that valgrind sees a byte too many.
 * Prints each broken promise; exit status 1 if any.
 */
#include "bogtassel.h"

#include <stdio.h>
#include <stdlib.h>
#include <string.h>

enum { EVENT = BOGTASSEL_EVENT_NUMBERS, SPARE = 0xA5, OTHER_SPARE = 0x5A, MOST_EVENTS = 400 };

struct writing {
    const char *what;
    const char *type;
    size_t type_length;
    bool big_endian;
    const uint64_t *events;
    size_t count;
    const char *texts;
    size_t texts_length;
    uint8_t refusal;
    const char *frame;
    size_t length;
};

#define TEXT(bytes) bytes, sizeof bytes - 1
#define NUMBERS(...) (const uint64_t[]){__VA_ARGS__}, sizeof(const uint64_t[]){__VA_ARGS__} / sizeof(uint64_t)
#define DONE(bytes) BOGTASSEL_DONE, TEXT(bytes)
#define REFUSED(number) number, NULL, 0

static const struct writing writings[] = {
    /* document 01's worked frames, the edits among them */
    {"a reading, nothing, 0", TEXT("amn"), false,
     NUMBERS('a', 0, 0, 'm', 0, 0, 'n', 0, 215, 'N', 0, 0, 'm', 0, 0, 'n', 0, 0, ')', 0, 0), TEXT(""), DONE("\xD7\0\0\0\2\2\4")},
    {"nothing, nothing, 0", TEXT("amn"), false, NUMBERS('a', 0, 0, 'N', 0, 0, 'N', 0, 0, 'm', 0, 0, 'n', 0, 0, ')', 0, 0), TEXT(""),
     DONE("\0\0\0\0\2")},
    {"three times nothing", TEXT("amn"), false, NUMBERS('a', 0, 0, 'N', 0, 0, 'N', 0, 0, 'N', 0, 0, ')', 0, 0), TEXT(""), DONE("\0\0\0")},
    {"no reading", TEXT("amn"), false, NUMBERS('a', 0, 0, ')', 0, 0), TEXT(""), DONE("")},
    {"7, nothing", TEXT("(ymn)"), false, NUMBERS('(', 0, 0, 'y', 0, 7, 'N', 0, 0, ')', 0, 0), TEXT(""), DONE("\7\0")},
    {"7, 5", TEXT("(ymn)"), false, NUMBERS('(', 0, 0, 'y', 0, 7, 'm', 0, 0, 'n', 0, 5, ')', 0, 0), TEXT(""), DONE("\7\0\5\0")},
    {"k to 9", TEXT("a{sy}"), false, NUMBERS('{', 0, 0, 's', 0, 1, 'y', 0, 9, ')', 0, 0), TEXT("k"), DONE("k\0\11\2\4")},
    {"a variant", TEXT("v"), false, NUMBERS('v', 0, 0, 'g', 0, 1, 'u', 0, 7, ')', 0, 0), TEXT("u"), DONE("\7\0\0\0\0u")},
    {"a present text", TEXT("ms"), false, NUMBERS('m', 0, 0, 's', 0, 1), TEXT("a"), DONE("a\0\0")},
    {"an empty text", TEXT("s"), false, NUMBERS('s', 0, 0), TEXT(""), DONE("\0")},
    /* both byte orders; offsets stay little-endian */
    {"big-endian readings", TEXT("amn"), true, NUMBERS('a', 0, 0, 'm', 0, 0, 'n', 0, 215, 'm', 0, 0, 'n', 0, 65534, ')', 0, 0), TEXT(""),
     DONE("\0\xD7\xFF\xFE\2\4")},
    {"a double", TEXT("d"), true, NUMBERS('d', 0, 0xBFF8000000000000), TEXT(""), DONE("\xBF\xF8\0\0\0\0\0\0")},
    {"the largest number", TEXT("t"), false, NUMBERS('t', 0, UINT64_MAX), TEXT(""), DONE("\xFF\xFF\xFF\xFF\xFF\xFF\xFF\xFF")},
    {"a bool", TEXT("b"), false, NUMBERS('b', 0, 1), TEXT(""), DONE("\1")},
    /* places, doubles, views */
    {"places are passed over", TEXT("(ymn)"), false, NUMBERS('(', 9, 0, 'y', UINT64_MAX, 7, 'N', 77, 0, ')', 1, 0), TEXT(""), DONE("\7\0")},
    {"a double key, in its order", TEXT("a{yy}"), false, NUMBERS('{', 0, 0, 'y', 0, 2, 'y', 0, 1, 'y', 0, 2, 'y', 0, 0, ')', 0, 0), TEXT(""),
     DONE("\2\1\2\0")},
    {"views of one another", TEXT("(ss)"), false, NUMBERS('(', 0, 0, 's', 0, 3, 's', 1, 2, ')', 0, 0), TEXT("abc"), DONE("abc\0bc\0\4")},
    {"two offsets, the last first", TEXT("(sss)"), false, NUMBERS('(', 0, 0, 's', 0, 1, 's', 1, 1, 's', 2, 1, ')', 0, 0), TEXT("abc"),
     DONE("a\0b\0c\0\4\2")},
    {"no offset for a fixed field, nor for a last one", TEXT("(sys)"), false, NUMBERS('(', 0, 0, 's', 0, 1, 'y', 0, 7, 's', 1, 1, ')', 0, 0),
     TEXT("ab"), DONE("a\0\7b\0\2")},
    {"a fixed structure is padded at its end", TEXT("(ny)"), false, NUMBERS('(', 0, 0, 'n', 0, 1, 'y', 0, 2, ')', 0, 0), TEXT(""), DONE("\1\0\2\0")},
    {"elements are padded", TEXT("a(sn)"), false,
     NUMBERS('a', 0, 0, '(', 0, 0, 's', 0, 1, 'n', 0, 1, ')', 0, 0, '(', 0, 0, 's', 1, 1, 'n', 0, 2, ')', 0, 0, ')', 0, 0), TEXT("ab"),
     DONE("a\0\1\0\2\0b\0\2\0\2\5\13")},
    {"a view of none at the end", TEXT("(ys)"), false, NUMBERS('(', 0, 0, 'y', 0, 1, 's', 3, 0, ')', 0, 0), TEXT("abc"), DONE("\1\0")},
    {"any text is a path", TEXT("o"), false, NUMBERS('o', 0, 2), TEXT("a/"), DONE("a/\0")},
    /* 1 */
    {"no type", TEXT(""), false, NUMBERS('y', 0, 7), TEXT(""), REFUSED(BOGTASSEL_TYPE)},
    {"a structure of none", TEXT("()"), false, NUMBERS('(', 0, 0, ')', 0, 0), TEXT(""), REFUSED(BOGTASSEL_TYPE)},
    {"1 before 17", TEXT("yy"), false, NUMBERS('z', 0, 7), TEXT(""), REFUSED(BOGTASSEL_TYPE)},
    /* 17 */
    {"another kind", TEXT("y"), false, NUMBERS('n', 0, 7), TEXT(""), REFUSED(BOGTASSEL_VALUE)},
    {"a kind above a byte", TEXT("y"), false, NUMBERS('y' + 256, 0, 7), TEXT(""), REFUSED(BOGTASSEL_VALUE)},
    {"an event too many", TEXT("y"), false, NUMBERS('y', 0, 7, 'y', 0, 7), TEXT(""), REFUSED(BOGTASSEL_VALUE)},
    {"one number left over", TEXT("y"), false, NUMBERS('y', 0, 7, 0), TEXT(""), REFUSED(BOGTASSEL_VALUE)},
    {"two numbers left over", TEXT("y"), false, NUMBERS('y', 0, 7, 0, 0), TEXT(""), REFUSED(BOGTASSEL_VALUE)},
    {"an unfinished event", TEXT("y"), false, NUMBERS('y', 0), TEXT(""), REFUSED(BOGTASSEL_VALUE)},
    {"no close", TEXT("ay"), false, NUMBERS('a', 0, 0, 'y', 0, 7), TEXT(""), REFUSED(BOGTASSEL_VALUE)},
    {"a field too few", TEXT("(yy)"), false, NUMBERS('(', 0, 0, 'y', 0, 7, ')', 0, 0), TEXT(""), REFUSED(BOGTASSEL_VALUE)},
    {"a key without its value", TEXT("a{yy}"), false, NUMBERS('{', 0, 0, 'y', 0, 7, ')', 0, 0), TEXT(""), REFUSED(BOGTASSEL_VALUE)},
    {"an a before a dictionary", TEXT("a{yy}"), false, NUMBERS('a', 0, 0, ')', 0, 0), TEXT(""), REFUSED(BOGTASSEL_VALUE)},
    {"a close behind a present maybe", TEXT("my"), false, NUMBERS('m', 0, 0, 'y', 0, 7, ')', 0, 0), TEXT(""), REFUSED(BOGTASSEL_VALUE)},
    {"a byte of 256", TEXT("y"), false, NUMBERS('y', 0, 256), TEXT(""), REFUSED(BOGTASSEL_VALUE)},
    {"a number with its sign outside", TEXT("n"), false, NUMBERS('n', 0, UINT64_MAX), TEXT(""), REFUSED(BOGTASSEL_VALUE)},
    {"a bool of 2", TEXT("b"), false, NUMBERS('b', 0, 2), TEXT(""), REFUSED(BOGTASSEL_VALUE)},
    {"an opener that carries 1", TEXT("ay"), false, NUMBERS('a', 0, 1, ')', 0, 0), TEXT(""), REFUSED(BOGTASSEL_VALUE)},
    {"a close that carries 1", TEXT("ay"), false, NUMBERS('a', 0, 0, ')', 0, 1), TEXT(""), REFUSED(BOGTASSEL_VALUE)},
    {"a nothing that carries 1", TEXT("my"), false, NUMBERS('N', 0, 1), TEXT(""), REFUSED(BOGTASSEL_VALUE)},
    {"a view past its slice", TEXT("s"), false, NUMBERS('s', 1, 3), TEXT("abc"), REFUSED(BOGTASSEL_VALUE)},
    {"a view that begins past its slice", TEXT("s"), false, NUMBERS('s', 4, 0), TEXT("abc"), REFUSED(BOGTASSEL_VALUE)},
    {"a view past 64 bits", TEXT("s"), false, NUMBERS('s', UINT64_MAX, 2), TEXT("abc"), REFUSED(BOGTASSEL_VALUE)},
    {"17 before 5", TEXT("s"), false, NUMBERS('o', 0, 2), TEXT("\0\0"), REFUSED(BOGTASSEL_VALUE)},
    /* 5, 6, 9 */
    {"a nul in a text", TEXT("s"), false, NUMBERS('s', 0, 3), TEXT("a\0b"), REFUSED(BOGTASSEL_NUL)},
    {"a nul at a text's end", TEXT("s"), false, NUMBERS('s', 0, 2), TEXT("a\0"), REFUSED(BOGTASSEL_NUL)},
    {"5 before 6", TEXT("s"), false, NUMBERS('s', 0, 2), TEXT("\xFF\0"), REFUSED(BOGTASSEL_NUL)},
    {"no UTF-8", TEXT("g"), false, NUMBERS('g', 0, 1), TEXT("\xFF"), REFUSED(BOGTASSEL_UTF8)},
    {"half a letter", TEXT("s"), false, NUMBERS('s', 0, 2), TEXT("\xE2\x82\xAC"), REFUSED(BOGTASSEL_UTF8)},
    {"the first fault", TEXT("(ss)"), false, NUMBERS('(', 0, 0, 's', 0, 1, 'y', 0, 0, ')', 0, 0), TEXT("\xFF"), REFUSED(BOGTASSEL_UTF8)},
    {"a variant of two types", TEXT("v"), false, NUMBERS('v', 0, 0, 'g', 0, 2, 'y', 0, 7, ')', 0, 0), TEXT("yy"), REFUSED(BOGTASSEL_VARIANT_TYPE)},
    {"6 before 9", TEXT("v"), false, NUMBERS('v', 0, 0, 'g', 0, 1, 'y', 0, 7, ')', 0, 0), TEXT("\xFF"), REFUSED(BOGTASSEL_UTF8)},
    {"a variant without its type", TEXT("v"), false, NUMBERS('v', 0, 0, 'y', 0, 7, ')', 0, 0), TEXT("y"), REFUSED(BOGTASSEL_VALUE)},
};

struct strict {
    const char *type;
    const char *frame;
    size_t length;
    uint8_t refusal;
};

static const struct strict stricts[] = {
    {"amn", TEXT(""), BOGTASSEL_DONE},
    {"s", TEXT("\0"), BOGTASSEL_DONE},
    {"(ss)", TEXT("a\0b\0\2"), BOGTASSEL_DONE},
    {"a{sy}", TEXT("k\0\11\2\4"), BOGTASSEL_DONE},
    {"mmn", TEXT("\7\0\0"), BOGTASSEL_DONE},
    /* what reads, and is not what writing makes */
    {"as", TEXT("\1"), BOGTASSEL_NOT_WRITTEN},
    {"s", TEXT(""), BOGTASSEL_NOT_WRITTEN},
    {"s", TEXT("a"), BOGTASSEL_NOT_WRITTEN},
    {"b", TEXT("\2"), BOGTASSEL_NOT_WRITTEN},
    {"y", TEXT("\7\0"), BOGTASSEL_NOT_WRITTEN},
    {"my", TEXT("\5\6"), BOGTASSEL_NOT_WRITTEN},
    {"amy", TEXT("\2\0\0\2\1\3"), BOGTASSEL_NOT_WRITTEN},
    {"(ss)", TEXT("a\0b\0\0\2"), BOGTASSEL_NUL},
    {"v", TEXT("\7\0\0\0\0\0u"), BOGTASSEL_NOT_WRITTEN},
    /* what does not read: as bogtassel_size has it */
    {"", TEXT(""), BOGTASSEL_TYPE},
    {"()", TEXT("\0"), BOGTASSEL_TYPE},
    {"amn", TEXT("\2"), BOGTASSEL_BOUNDS},
    {"(ymn)", TEXT("\7\1"), BOGTASSEL_PADDING},
    {"(ymn)", TEXT("\7"), BOGTASSEL_BOUNDS},
    {"s", TEXT("a\0b"), BOGTASSEL_NUL},
    {"s", TEXT("\xFF\0"), BOGTASSEL_UTF8},
    {"ms", TEXT("a\0\1"), BOGTASSEL_MAYBE},
    {"v", TEXT("u"), BOGTASSEL_SEPARATOR},
    {"v", TEXT("\0\0)"), BOGTASSEL_VARIANT_TYPE},
};

static int broken;

static void expect(bool holds, const char *what, size_t room, const char *promise) {
    if (!holds) {
        printf("%s, room %zu: %s\n", what, room, promise);
        broken = 1;
    }
}

/* A copy that has just this length, or one byte that is none of ours for an empty slice. */
static void *copied(const void *bytes, size_t length) {
    void *const copy = malloc(length == 0 ? 1 : length);

    if (copy == NULL) {
        perror("no room for a copy");
        exit(3);
    }
    return length == 0 ? copy : memcpy(copy, bytes, length);
}

static uint8_t *spare_room(size_t length, int spare) {
    uint8_t *const room = copied("", 0);
    uint8_t *const grown = realloc(room, length == 0 ? 1 : length);

    if (grown == NULL) {
        perror("no room for a frame");
        exit(3);
    }
    return memset(grown, spare, length == 0 ? 1 : length);
}

static bool is_spare(const uint8_t *bytes, size_t length, int spare) {
    size_t i;

    for (i = 0; i < length; i++) {
        if (bytes[i] != spare) {
            return false;
        }
    }
    return true;
}

/* Writing. */

struct answer {
    uint8_t refusal;
    size_t length;
    uint8_t *out;
};

/* The answer of one call, with memory of its own for everything that is lent. */
static struct answer written(const struct writing *writing, size_t room, int spare) {
    uint8_t *const type = copied(writing->type, writing->type_length), *const texts = copied(writing->texts, writing->texts_length);
    uint64_t *const events = copied(writing->events, writing->count * sizeof *events);
    struct answer answer = {0, 99, spare_room(room, spare)};

    answer.refusal = bogtassel_write(type, writing->type_length, writing->big_endian, events, writing->count, texts, writing->texts_length,
                                     answer.out, room, &answer.length);
    expect(memcmp(events, writing->events, writing->count * sizeof *events) == 0, writing->what, room, "the events were written to");
    expect(memcmp(texts, writing->texts, writing->texts_length) == 0, writing->what, room, "the texts were written to");
    free(events);
    free(texts);
    free(type);
    return answer;
}

static void ask(const struct writing *writing, size_t room, int spare) {
    const struct answer answer = written(writing, room, spare);
    const bool fits = writing->length <= room;
    const uint8_t refusal = writing->refusal == BOGTASSEL_DONE && !fits ? BOGTASSEL_ROOM : writing->refusal;

    expect(answer.refusal == refusal, writing->what, room, "the refusal");
    if (refusal == BOGTASSEL_DONE && answer.refusal == refusal) {
        expect(answer.length == writing->length, writing->what, room, "the length");
        expect(memcmp(answer.out, writing->frame, writing->length) == 0, writing->what, room, "the frame");
        expect(is_spare(answer.out + writing->length, room - writing->length, spare), writing->what, room, "spare room was written");
    } else {
        expect(answer.length == 0, writing->what, room, "the length of a refusal");
        expect(is_spare(answer.out, room, spare), writing->what, room, "a refusal wrote to the lent room");
    }
    free(answer.out);
}

static uint8_t is_written(const char *type, size_t type_length, bool big_endian, const void *frame, size_t length) {
    uint8_t *const text = copied(type, type_length), *const bytes = copied(frame, length);
    const uint8_t refusal = bogtassel_is_written(text, type_length, big_endian, bytes, length);

    free(bytes);
    free(text);
    return refusal;
}

/* A written frame reads whole, as the same events but for their places, is a written form, and is written again from its own texts. */
static void reads_back(const struct writing *writing) {
    uint64_t *const events = copied(writing->events, writing->count * sizeof *events);
    uint8_t *const out = spare_room(writing->length, SPARE);
    size_t used = 99, count = 99, length = 99, i;
    uint8_t refusal = bogtassel_read((const uint8_t *)writing->type, writing->type_length, writing->big_endian, 0,
                                     (const uint8_t *)writing->frame, writing->length, events, writing->count, &used, &count);

    expect(refusal == BOGTASSEL_DONE && used == writing->length && EVENT * count == writing->count, writing->what, 0, "reading back");
    for (i = 0; i < writing->count; i += EVENT) {
        expect(events[i] == writing->events[i] && events[i + 2] == writing->events[i + 2], writing->what, 0, "an event that was read back");
    }
    refusal = bogtassel_write((const uint8_t *)writing->type, writing->type_length, writing->big_endian, events, writing->count,
                              (const uint8_t *)writing->frame, writing->length, out, writing->length, &length);
    expect(refusal == BOGTASSEL_DONE && length == writing->length && memcmp(out, writing->frame, length) == 0, writing->what, 0,
           "what was read is written again");
    expect(is_written(writing->type, writing->type_length, writing->big_endian, writing->frame, writing->length) == BOGTASSEL_DONE,
           writing->what, 0, "a written frame is a written form");
    free(out);
    free(events);
}

static void ask_all(const struct writing *writing) {
    size_t room;

    for (room = 0; room <= writing->length + 4; room++) {
        ask(writing, room, SPARE);
        ask(writing, room, OTHER_SPARE);
    }
    if (writing->refusal == BOGTASSEL_DONE) {
        reads_back(writing);
    }
}

/* Containers of one kind in one another around a byte: the limit, and one more. */
static void nested(char kind, size_t limit, uint8_t refusal) {
    char type[BOGTASSEL_TYPE_LIMIT];
    uint64_t events[MOST_EVENTS];
    struct writing writing = {"containers in one another", type, 0, false, events, 0, "", 0, refusal, NULL, 0};
    struct answer answer;
    size_t depth, i;

    for (depth = limit; depth <= limit + 1; depth++) {
        const size_t closes = kind == 'm' ? 0 : depth;

        memset(events, 0, sizeof events);
        for (i = 0; i < depth; i++) {
            type[i] = kind;
            events[EVENT * i] = (uint64_t)kind;
        }
        type[depth] = 'y';
        events[EVENT * depth] = 'y';
        events[EVENT * depth + 2] = 5;
        for (i = 0; i < closes; i++) {
            type[depth + 1 + i] = ')';
            events[EVENT * (depth + 1 + i)] = ')';
        }
        writing.type_length = depth + 1 + (kind == '(' ? depth : 0);
        writing.count = EVENT * (depth + 1 + closes);
        if (depth > limit) {
            ask(&writing, 300, SPARE);
            continue;
        }
        answer = written(&writing, 300, SPARE);
        expect(answer.refusal == BOGTASSEL_DONE && answer.out[0] == 5, writing.what, depth, "a depth at its limit");
        free(answer.out);
    }
}

/* A variant inside 64 maybes: its type is judged first, then its depth. */
static void deep_variant(size_t type_length, uint8_t refusal) {
    enum { MAYBES = 64 };
    char type[MAYBES + 1];
    uint64_t events[EVENT * (MAYBES + 4)] = {0};
    const struct writing writing = {"a variant that is too deep", type, sizeof type, false, events, sizeof events / sizeof *events, "yy", 2, refusal, NULL, 0};
    size_t i;

    memset(type, 'm', MAYBES);
    type[MAYBES] = 'v';
    for (i = 0; i < MAYBES; i++) {
        events[EVENT * i] = 'm';
    }
    events[EVENT * MAYBES] = 'v';
    events[EVENT * (MAYBES + 1)] = 'g';
    events[EVENT * (MAYBES + 1) + 2] = type_length;
    events[EVENT * (MAYBES + 2)] = 'y';
    events[EVENT * (MAYBES + 3)] = ')';
    ask(&writing, 300, SPARE);
}

/* The frame's limit, by two views of the same text: 2 goes before 13, and is given where there would be room. */
static void long_frames(void) {
    enum { HALF = 32767, MORE = 70000 };
    char *const texts = copied("", 0), *const grown = realloc(texts, HALF + 1);
    const uint64_t events[] = {'(', 0, 0, 's', 0, HALF - 1, 's', 0, HALF - 2, ')', 0, 0};
    const uint64_t longer[] = {'(', 0, 0, 's', 0, HALF, 's', 0, HALF, ')', 0, 0};
    /* 32,767 and 32,766 bytes with their nuls, and an offset of 2: 65,535. 32,768 twice, and an offset of 4 */
    const struct writing fits = {"65,535 bytes", TEXT("(ss)"), false, events, 12, grown, HALF, BOGTASSEL_DONE, NULL, 0};
    const struct writing over = {"65,540 bytes", TEXT("(ss)"), false, longer, 12, grown, HALF, BOGTASSEL_LIMITS, NULL, 0};
    struct answer answer;

    memset(grown, 'a', HALF + 1);
    answer = written(&fits, 65535, SPARE);
    expect(answer.refusal == BOGTASSEL_DONE && answer.length == 65535, fits.what, 65535, "a frame below the limit");
    expect(answer.out[32766] == 0 && answer.out[65532] == 0 && answer.out[65533] == 0xFF && answer.out[65534] == 0x7F, fits.what, 65535,
           "its nuls and its offset");
    free(answer.out);
    answer = written(&fits, 65534, SPARE);
    expect(answer.refusal == BOGTASSEL_ROOM && answer.length == 0 && is_spare(answer.out, 65534, SPARE), fits.what, 65534, "a byte too few");
    free(answer.out);
    ask(&over, MORE, SPARE);
    ask(&over, 0, SPARE);
    free(grown);
}

/* What is only read may overlap. */
static void overlaps(void) {
    const uint8_t type[] = {'s'};
    const uint64_t events[] = {'s', 0, 1};
    uint8_t out[2] = {SPARE, SPARE};
    size_t length = 99;

    expect(bogtassel_write(type, 1, false, events, 3, type, 1, out, 2, &length) == BOGTASSEL_DONE && length == 2 && out[0] == 's' && out[1] == 0,
           "a type that is its own text", 2, "the frame");
    expect(bogtassel_is_written(type, 1, false, type, 1) == BOGTASSEL_NOT_WRITTEN, "a type that is its own frame", 0, "the refusal");
}

/* The strict test. */

static void ask_strict(const struct strict *strict) {
    uint8_t *const bytes = copied(strict->frame, strict->length);
    const uint8_t refusal = is_written(strict->type, strlen(strict->type), false, strict->frame, strict->length);
    size_t used, count;
    const uint8_t sized = bogtassel_size((const uint8_t *)strict->type, strlen(strict->type), false, 0, bytes, strict->length, &used, &count);

    expect(refusal == strict->refusal, strict->type, strict->length, "the refusal of the strict test");
    expect(sized == BOGTASSEL_DONE ? refusal == BOGTASSEL_DONE || refusal == BOGTASSEL_NOT_WRITTEN : refusal == sized, strict->type,
           strict->length, "the refusal of size");
    free(bytes);
}

static void long_strict(void) {
    uint8_t *const zeros = spare_room(BOGTASSEL_LIMIT + 1, 0);

    expect(is_written("ay", 2, false, zeros, BOGTASSEL_LIMIT) == BOGTASSEL_DONE, "ay", BOGTASSEL_LIMIT, "a frame at the limit");
    expect(is_written("ay", 2, false, zeros, BOGTASSEL_LIMIT + 1) == BOGTASSEL_LIMITS, "ay", BOGTASSEL_LIMIT + 1, "a frame over the limit");
    /* an offset of 2 bytes where one would do: a text of 253 characters, whose nul is byte 254 */
    memset(zeros, 'a', 253);
    zeros[254] = 254;
    expect(is_written("as", 2, false, zeros, 255) == BOGTASSEL_DONE, "as", 255, "the widest offset of a byte");
    memset(zeros, 'a', 254);
    zeros[254] = 0;
    zeros[255] = 255;
    zeros[256] = 0;
    expect(is_written("as", 2, false, zeros, 257) == BOGTASSEL_DONE, "as", 257, "an offset of two bytes");
    free(zeros);
}

int main(void) {
    size_t i;

    for (i = 0; i < sizeof writings / sizeof *writings; i++) {
        ask_all(&writings[i]);
    }
    nested('(', 32, BOGTASSEL_STRUCTURE_DEPTH);
    nested('a', 32, BOGTASSEL_ARRAY_DEPTH);
    nested('m', 64, BOGTASSEL_DEPTH);
    deep_variant(1, BOGTASSEL_DEPTH);
    deep_variant(2, BOGTASSEL_VARIANT_TYPE);
    long_frames();
    overlaps();
    for (i = 0; i < sizeof stricts / sizeof *stricts; i++) {
        ask_strict(&stricts[i]);
    }
    long_strict();
    return broken;
}
