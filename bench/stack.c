/*
 * The stack that the archive's calls use. Called by bench/stack.py.
 *
 * Usage: stack paint|thread < QUESTIONS
 *
 * A question is a type, a frame, and the events of a value with the slice of its texts. On standard input: the length of each, four bytes
 * and little-endian, of the events the number of their 64-bit numbers; then each of them, in this order.
 *
 * For each question paint prints the number of events that reading finds, and then for bogtassel_size, bogtassel_read and
 * bogtassel_is_written on the frame, bogtassel_write on the events, and bogtassel_edit on the frame, whose first reading is put as 1, `REFUSAL BYTES`:
 * what it returned, and the bytes of stack. Each call runs on a stack of its own, of which every byte was painted. The deepest byte that is no longer paint is as deep as the call wrote. This is
 * done with two colours, since a call may write the one that stands there. From it goes what a call of an empty function with the same
 * parameters takes: so what the caller lays down, the parameters and the return address, is not counted.
 *
 * thread runs all calls of each question in a thread whose stack has 128 KiB, that of bogtassel_edit 192, and prints the number of events. A stack
 * that does not do kills the program.
 */
#define _GNU_SOURCE
#include "bogtassel.h"
#include "frame.h"

#include <pthread.h>
#include <sys/mman.h>
#include <ucontext.h>

enum { STACK = 512 << 10, PAGE = 4096, THREAD_STACK = 128 << 10, EDIT_STACK = 192 << 10, SPARE = 16 };

struct asked {
    unsigned char *type;
    size_t type_length;
    unsigned char *frame;
    size_t length;
    uint64_t *events;
    size_t numbers;
    unsigned char *texts;
    size_t texts_length;
    uint64_t *room; /* of the events that reading finds */
    size_t room_length;
    size_t count;
};

static unsigned char written[BOGTASSEL_LIMIT];

/* The buffer that is edited: the frame, which is put there before each call, and some spare bytes. */
static unsigned char buffer[BOGTASSEL_LIMIT + SPARE];

typedef uint8_t size_function(const uint8_t *, size_t, bool, size_t, const uint8_t *, size_t, size_t *, size_t *);
typedef uint8_t read_function(const uint8_t *, size_t, bool, size_t, const uint8_t *, size_t, uint64_t *, size_t, size_t *, size_t *);
typedef uint8_t strict_function(const uint8_t *, size_t, bool, const uint8_t *, size_t);
typedef uint8_t write_function(const uint8_t *, size_t, bool, const uint64_t *, size_t, const uint8_t *, size_t, uint8_t *, size_t, size_t *);

typedef uint8_t edit_function(const uint8_t *, size_t, bool, uint8_t *, size_t, size_t, size_t, bool, uint64_t, size_t *);

static uint8_t empty_size(const uint8_t *type, size_t type_length, bool big_endian, size_t position, const uint8_t *frame,
                          size_t length, size_t *used, size_t *count) {
    (void)type, (void)type_length, (void)big_endian, (void)position, (void)frame, (void)length, (void)used, (void)count;
    return 0;
}

static uint8_t empty_read(const uint8_t *type, size_t type_length, bool big_endian, size_t position, const uint8_t *frame,
                          size_t length, uint64_t *out, size_t room, size_t *used, size_t *count) {
    (void)type, (void)type_length, (void)big_endian, (void)position, (void)frame, (void)length, (void)out, (void)room;
    (void)used, (void)count;
    return 0;
}

static uint8_t empty_strict(const uint8_t *type, size_t type_length, bool big_endian, const uint8_t *frame, size_t length) {
    (void)type, (void)type_length, (void)big_endian, (void)frame, (void)length;
    return 0;
}

static uint8_t empty_write(const uint8_t *type, size_t type_length, bool big_endian, const uint64_t *events, size_t numbers,
                           const uint8_t *texts, size_t texts_length, uint8_t *out, size_t room, size_t *length) {
    (void)type, (void)type_length, (void)big_endian, (void)events, (void)numbers, (void)texts, (void)texts_length, (void)out;
    (void)room, (void)length;
    return 0;
}

static uint8_t empty_edit(const uint8_t *type, size_t type_length, bool big_endian, uint8_t *frame, size_t room, size_t used, size_t number,
                          bool present, uint64_t bits, size_t *length) {
    (void)type, (void)type_length, (void)big_endian, (void)frame, (void)room, (void)used, (void)number, (void)present, (void)bits, (void)length;
    return 0;
}

/* What the calls below call; volatile, so that the compiler does not look into it. */
static size_function *volatile size_target;
static read_function *volatile read_target;
static strict_function *volatile strict_target;
static write_function *volatile write_target;
static edit_function *volatile edit_target;

static uint8_t call_size(struct asked *q) {
    static size_t used;

    return size_target(q->type, q->type_length, false, 0, q->frame, q->length, &used, &q->count);
}

static uint8_t call_read(struct asked *q) {
    static size_t used, count;

    return read_target(q->type, q->type_length, false, 0, q->frame, q->length, q->room, q->room_length, &used, &count);
}

static uint8_t call_strict(struct asked *q) {
    return strict_target(q->type, q->type_length, false, q->frame, q->length);
}

static uint8_t call_write(struct asked *q) {
    static size_t length;

    return write_target(q->type, q->type_length, false, q->events, q->numbers, q->texts, q->texts_length, written, sizeof written, &length);
}

static uint8_t call_edit(struct asked *q) {
    static size_t length;

    return edit_target(q->type, q->type_length, false, buffer, q->length + SPARE, q->length, 0, true, 1, &length);
}

static void put_frame(const struct asked *q) {
    memcpy(buffer, q->frame, q->length < BOGTASSEL_LIMIT ? q->length : BOGTASSEL_LIMIT);
}

static void aim(bool empty) {
    size_target = empty ? empty_size : bogtassel_size;
    read_target = empty ? empty_read : bogtassel_read;
    strict_target = empty ? empty_strict : bogtassel_is_written;
    write_target = empty ? empty_write : bogtassel_write;
    edit_target = empty ? empty_edit : bogtassel_edit;
}

/* One call, the stack of its thread, its answer, and what its empty function takes. */
static struct call {
    uint8_t (*function)(struct asked *q);
    size_t thread_stack;
    struct asked *asked;
    uint8_t refusal;
    size_t bare;
} calls[] = {{call_size, THREAD_STACK, NULL, 0, 0},
             {call_read, THREAD_STACK, NULL, 0, 0},
             {call_strict, THREAD_STACK, NULL, 0, 0},
             {call_write, THREAD_STACK, NULL, 0, 0},
             {call_edit, EDIT_STACK, NULL, 0, 0}};

enum { SIZE, READ, CALLS = sizeof calls / sizeof *calls };

static void make(struct call *call) {
    call->refusal = call->function(call->asked);
}

/* Where the painted stack's context finds its call. */
static struct call *painted_call;

static void make_painted(void) {
    make(painted_call);
}

/* The bytes at the deep end that are still of this colour. */
static size_t clean_bytes(const unsigned char *stack, unsigned char colour) {
    unsigned char page[PAGE];
    size_t clean = 0;

    memset(page, colour, PAGE);
    while (clean < STACK && memcmp(stack + clean, page, PAGE) == 0) {
        clean += PAGE;
    }
    while (clean < STACK && stack[clean] == colour) {
        clean++;
    }
    return clean;
}

/* The bytes from the top of a stack of this colour down to the deepest one that the call changed. */
static size_t depth_in(struct call *call, unsigned char *stack, unsigned char colour) {
    static ucontext_t here, there;

    memset(stack, colour, STACK);
    put_frame(call->asked);
    if (getcontext(&there) != 0) {
        give_up("getcontext");
    }
    there.uc_stack.ss_sp = stack;
    there.uc_stack.ss_size = STACK;
    there.uc_link = &here;
    painted_call = call;
    makecontext(&there, make_painted, 0);
    if (swapcontext(&here, &there) != 0) {
        give_up("swapcontext");
    }
    return STACK - clean_bytes(stack, colour);
}

static size_t depth(struct call *call) {
    static unsigned char *stack;
    size_t first, second;

    if (stack == NULL) {
        stack = mmap(NULL, STACK, PROT_READ | PROT_WRITE, MAP_PRIVATE | MAP_ANONYMOUS, -1, 0);
    }
    if (stack == MAP_FAILED) {
        give_up("a stack");
    }
    first = depth_in(call, stack, 0xA5);
    second = depth_in(call, stack, 0x5A);
    return first > second ? first : second;
}

static void *make_in_thread(void *call) {
    make(call);
    return NULL;
}

/* Runs the call in a thread of a small stack. */
static void run_small(struct call *call) {
    pthread_attr_t attributes;
    pthread_t thread;

    put_frame(call->asked);
    if (pthread_attr_init(&attributes) != 0 || pthread_attr_setstacksize(&attributes, call->thread_stack) != 0 ||
        pthread_create(&thread, &attributes, make_in_thread, call) != 0 || pthread_join(thread, NULL) != 0) {
        give_up("a thread of a small stack");
    }
    pthread_attr_destroy(&attributes);
}

/* Room for the events that reading is to find. */
static void make_room(struct asked *q) {
    size_t used;

    bogtassel_size(q->type, q->type_length, false, 0, q->frame, q->length, &used, &q->count);
    q->room_length = BOGTASSEL_EVENT_NUMBERS * q->count;
    q->room = calloc(q->room_length + 1, sizeof *q->room);
    if (q->room == NULL) {
        give_up("no room for the events");
    }
}

static void must_agree(void) {
    if (calls[READ].refusal != calls[SIZE].refusal) {
        fputs("stack: size and read differ\n", stderr);
        exit(1);
    }
}

static void paint(const struct asked *q) {
    size_t bytes[CALLS];
    int i;

    aim(false);
    for (i = 0; i < CALLS; i++) {
        bytes[i] = depth(&calls[i]) - calls[i].bare;
    }
    must_agree();
    printf("%zu", q->count);
    for (i = 0; i < CALLS; i++) {
        printf(" %u %zu", calls[i].refusal, bytes[i]);
    }
    putchar('\n');
}

static void thread(const struct asked *q) {
    int i;

    aim(false);
    for (i = 0; i < CALLS; i++) {
        run_small(&calls[i]);
    }
    must_agree();
    printf("%zu\n", q->count);
}

/* Whether there is one more question; its memory is the caller's to drop. */
static bool next_asked(struct asked *q) {
    if (!number_from_input(&q->type_length) || !number_from_input(&q->length) || !number_from_input(&q->numbers) ||
        !number_from_input(&q->texts_length)) {
        return false;
    }
    q->type = bytes_from_input(q->type_length);
    q->frame = bytes_from_input(q->length);
    q->events = (uint64_t *)(void *)bytes_from_input(q->numbers * sizeof *q->events);
    q->texts = bytes_from_input(q->texts_length);
    make_room(q);
    return true;
}

static void drop_asked(const struct asked *q) {
    free(q->type);
    free(q->frame);
    free(q->events);
    free(q->texts);
    free(q->room);
}

/* What an empty function takes, once for each call. */
static void measure_bare(void) {
    int i;

    aim(true);
    for (i = 0; i < CALLS; i++) {
        calls[i].bare = depth(&calls[i]);
    }
}

int main(int argc, char **argv) {
    struct asked asked = {0};
    int i;

    if (argc != 2 || (strcmp(argv[1], "paint") != 0 && strcmp(argv[1], "thread") != 0)) {
        fputs("usage: stack paint|thread < QUESTIONS\n", stderr);
        return 2;
    }
    for (i = 0; i < CALLS; i++) {
        calls[i].asked = &asked;
    }
    measure_bare();
    while (next_asked(&asked)) {
        (strcmp(argv[1], "paint") == 0 ? paint : thread)(&asked);
        fflush(stdout);
        drop_asked(&asked);
    }
    return 0;
}
