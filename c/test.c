/* Tests every promise of gleanrime.h. Each walk goes into stores that are stained before and guarded on both sides; `walk` below checks what holds
 * after every walk. The last line says how many checks there were; a failed one is shown, and makes the program fail. */
#include "gleanrime.h"

#include <inttypes.h>
#include <pthread.h>
#include <stdarg.h>
#include <stdio.h>
#include <stdlib.h>
#include <string.h>

/* Checks. Threads have their own counts, so that they need no lock. */

static _Thread_local uint64_t checks, faults;

static void failed(int line, const char *format, ...) {
    va_list words;
    faults++;
    fprintf(stderr, "test.c:%d: ", line);
    va_start(words, format);
    vfprintf(stderr, format, words);
    va_end(words);
    fputc('\n', stderr);
}

static void same_at(int line, const char *what, uint64_t got, uint64_t wanted) {
    checks++;
    if (got != wanted) failed(line, "%s is %" PRIu64 " and should be %" PRIu64, what, got, wanted);
}

#define SAME(got, wanted) same_at(__LINE__, #got, (uint64_t)(got), (uint64_t)(wanted))
#define HOLDS(what) (checks++, (what) ? (void)0 : failed(__LINE__, "%s does not hold", #what))

/* A walk. */

#define STAIN UINT64_C(0xA5A5A5A5A5A5A5A5) /* stands in the stores before a walk */
#define GUARD UINT64_C(0x5C5C5C5C5C5C5C5C) /* stands around them */
#define GUARDS 4
#define ROOM 8192

struct left {
    uint64_t status, told[GLEANRIME_TOLD], *events, *operands;
    uint64_t event_room[ROOM + 2 * GUARDS], operand_room[ROOM + 2 * GUARDS], told_room[16 + 2 * GUARDS];
};

/* Stains a store of n numbers, with guards around it. */
static uint64_t *stained(uint64_t *room, size_t n) {
    for (size_t i = 0; i < n + 2 * GUARDS; i++) room[i] = i < GUARDS || i >= n + GUARDS ? GUARD : STAIN;
    return room + GUARDS;
}

static void check_guards(const char *what, const uint64_t *store, size_t n) {
    for (size_t i = 1; i <= GUARDS; i++) {
        same_at(__LINE__, what, store[-(ptrdiff_t)i], GUARD);
        same_at(__LINE__, what, store[n + i - 1], GUARD);
    }
}

static void check_zeros(const char *what, const uint64_t *store, size_t from, size_t to) {
    uint64_t any = 0;
    for (size_t i = from; i < to; i++) any |= store[i];
    same_at(__LINE__, what, any, 0);
}

/* Walks into stores of so many numbers, and checks what holds after every walk. */
static uint64_t walk(struct left *left, const uint8_t *input, size_t length, const uint64_t *skip, size_t skips, size_t events, size_t operands) {
    left->events = stained(left->event_room, events);
    left->operands = stained(left->operand_room, operands);
    uint64_t *told = stained(left->told_room, GLEANRIME_TOLD);
    left->status = gleanrime_walk(input, length, skip, skips, left->events, events, left->operands, operands, told, GLEANRIME_TOLD);
    check_guards("a guard of the event store", left->events, events);
    check_guards("a guard of the operand store", left->operands, operands);
    check_guards("a guard of what is told", told, GLEANRIME_TOLD);
    memcpy(left->told, told, sizeof left->told);
    SAME(told[GLEANRIME_TOLD_STATUS], left->status);
    if (left->status == GLEANRIME_ACCEPTED) {
        check_zeros("place and details of an accepted log", told, GLEANRIME_TOLD_PLACE, GLEANRIME_TOLD_MAGIC);
        check_zeros("the event store behind the last event", left->events, GLEANRIME_EVENT_SIZE * told[GLEANRIME_TOLD_EVENTS], events);
        check_zeros("the operand store behind the last operand", left->operands, told[GLEANRIME_TOLD_OPERANDS], operands);
    } else {
        check_zeros("header numbers and counts of a refused log", told, GLEANRIME_TOLD_MAGIC, GLEANRIME_TOLD);
        check_zeros("the event store of a refused log", left->events, 0, events);
        check_zeros("the operand store of a refused log", left->operands, 0, operands);
    }
    return left->status;
}

/* Inputs: bytes by their hex digits, or written bit by bit. */

static size_t bytes_of(const char *digits, uint8_t *bytes) {
    size_t n = 0;
    for (; digits[2 * n] != '\0'; n++) {
        char two[3] = {digits[2 * n], digits[2 * n + 1], '\0'};
        bytes[n] = (uint8_t)strtoul(two, NULL, 16);
    }
    return n;
}

struct bits {
    uint8_t bytes[4096];
    size_t length; /* in bits */
};

static void put(struct bits *b, uint64_t value, unsigned width) {
    for (unsigned i = 0; i < width; i++, b->length++)
        if (value >> i & 1) b->bytes[b->length / 8] |= (uint8_t)(1 << b->length % 8);
}

static void put_vbr(struct bits *b, uint64_t value, unsigned width) {
    uint64_t more = UINT64_C(1) << (width - 1);
    for (; value >= more; value >>= width - 1) put(b, (value & (more - 1)) | more, width);
    put(b, value, width);
}

static void align(struct bits *b) { b->length = (b->length + 31) / 32 * 32; }

/* The magic goes before the first bit, so that `length / 8` is the log's length; it is a word, so alignment is the stream's. */
static void begin(struct bits *b) {
    memset(b, 0, sizeof *b);
    put(b, 0xDEC04342, 32);
}

/* Enters a block, and leaves it again: `at` is where its length goes. */
static size_t enter(struct bits *b, unsigned outer, uint64_t number, unsigned width) {
    put(b, 1, outer);
    put_vbr(b, number, 8);
    put_vbr(b, width, 4);
    align(b);
    b->length += 32;
    return b->length / 8 - 4;
}

static void patch(struct bits *b, size_t at) {
    size_t words = (b->length / 8 - at - 4) / 4;
    for (int i = 0; i < 4; i++) b->bytes[at + i] = (uint8_t)(words >> 8 * i);
}

static void leave(struct bits *b, unsigned width, size_t at) {
    put(b, 0, width);
    align(b);
    patch(b, at);
}

/* A definition of a literal and an array of VBR(6). */
static void define(struct bits *b, unsigned width, uint64_t code) {
    put(b, 2, width);
    put_vbr(b, 3, 5);
    put(b, 1, 1);
    put_vbr(b, code, 8);
    put(b, 3 << 1, 4);
    put(b, 2 << 1, 4);
    put_vbr(b, 6, 5);
}

/* SETBID of a BLOCKINFO: what follows is for the block of that number. */
static void set_bid(struct bits *b, unsigned width, uint64_t number) {
    put(b, 3, width);
    put_vbr(b, 1, 6);
    put_vbr(b, 1, 6);
    put_vbr(b, number, 6);
}

/* So many blocks, each in the one before. The innermost, 9, has a BLOCKINFO with a definition, a definition of its own and a record by it: the
 * deepest calls that a walk can make. A `cut` log ends in the middle of its last definition, so that they go all the way to its last bits. */
static void nest(struct bits *b, unsigned levels, int cut) {
    size_t at[64];
    begin(b);
    for (unsigned i = 0; i < levels; i++) at[i] = enter(b, i == 0 ? 2 : 3, i + 1 == levels ? 9 : 8, 3);
    size_t info = enter(b, 3, 0, 3);
    set_bid(b, 3, 8);
    define(b, 3, 5);
    leave(b, 3, info);
    define(b, 3, 6);
    if (cut) {
        define(b, 3, 6);
        define(b, 3, 6);
        b->length -= b->length % 32;
    } else {
        put(b, 4, 3);
        put_vbr(b, 3, 6);
        for (unsigned i = 1; i <= 3; i++) put_vbr(b, UINT64_MAX / i, 6);
    }
    while (levels-- > 0)
        if (cut) patch(b, at[levels]);
        else leave(b, 3, at[levels]);
}

/* The tests. */

static struct left left;

static uint64_t walk_hex(const char *digits, size_t events, size_t operands) {
    uint8_t bytes[1024];
    return walk(&left, bytes, bytes_of(digits, bytes), NULL, 0, events, operands);
}

/* What the walk told, from the status to the counts. */
static void check_told(int line, const uint64_t wanted[GLEANRIME_TOLD]) {
    for (int i = 0; i < GLEANRIME_TOLD; i++) same_at(line, "a number told", left.told[i], wanted[i]);
}

#define TOLD(...) check_told(__LINE__, (const uint64_t[GLEANRIME_TOLD]){__VA_ARGS__})

static void check_event(int line, size_t index, const uint64_t wanted[GLEANRIME_EVENT_SIZE]) {
    for (int i = 0; i < GLEANRIME_EVENT_SIZE; i++)
        same_at(line, "a number of an event", left.events[GLEANRIME_EVENT_SIZE * index + i], wanted[i]);
}

#define EVENT(index, ...) check_event(__LINE__, index, (const uint64_t[GLEANRIME_EVENT_SIZE]){__VA_ARGS__})

#define SAMPLE "4243c0de210c0000010000000b020100"

static void sample(void) {
    walk_hex(SAMPLE, 80, 8);
    TOLD(0, 0, 0, 0, 0xdec04342, 0, 0, 4, 12, 0, 3, 1);
    EVENT(0, GLEANRIME_ENTER, 8, 3, 8, 4, 0, 0, 0);
    EVENT(1, GLEANRIME_RECORD, 8, 1, 0, 1, GLEANRIME_NO_PAYLOAD, 0, 0);
    EVENT(2, GLEANRIME_LEAVE, 8, 0, 0, 0, 0, 0, 0);
    SAME(left.operands[0], 2);

    /* The same numbers by their names. */
    const uint64_t *enters = left.events, *record = left.events + GLEANRIME_EVENT_SIZE;
    SAME(enters[GLEANRIME_KIND], 1);
    SAME(enters[GLEANRIME_BLOCK], 8);
    SAME(enters[GLEANRIME_WIDTH], 3);
    SAME(enters[GLEANRIME_START], 8);
    SAME(enters[GLEANRIME_LENGTH], 4);
    SAME(record[GLEANRIME_CODE], 1);
    SAME(record[GLEANRIME_FIRST], 0);
    SAME(record[GLEANRIME_COUNT], 1);
    SAME(left.told[GLEANRIME_TOLD_MAGIC], 0xdec04342);
    SAME(left.told[GLEANRIME_TOLD_OFFSET], 4);
    SAME(left.told[GLEANRIME_TOLD_SIZE], 12);
    SAME(left.told[GLEANRIME_TOLD_EVENTS], 3);
    SAME(left.told[GLEANRIME_TOLD_OPERANDS], 1);

    walk_hex("4243c0de", 8, 8);
    TOLD(0, 0, 0, 0, 0xdec04342, 0, 0, 4, 0, 0, 0, 0);

    /* A record at the top level carries the top level's number; a block of that number is one like any other. */
    walk_hex("4243c0de07823000", 8, 2);
    EVENT(0, GLEANRIME_RECORD, GLEANRIME_TOP_LEVEL, 1, 0, 2, 0, 0, 0);
    SAME(left.told[GLEANRIME_TOLD_OPERANDS], 2);
    walk_hex("4243c0defdffffff3f0800000100000000000000", 16, 0);
    EVENT(0, GLEANRIME_ENTER, GLEANRIME_TOP_LEVEL, 2, 12, 4, 0, 0, 0);
    EVENT(1, GLEANRIME_LEAVE, GLEANRIME_TOP_LEVEL, 0, 0, 0, 0, 0, 0);
}

/* Each refusal that a walk can give, from small inputs, with its place and details. */
static void refusals(void) {
    static const struct {
        const char *input;
        size_t events, operands;
        uint64_t status, place, first, second;
    } all[] = {
        {"", 64, 64, GLEANRIME_INVALID_SIGNATURE, 0, 0, 0},
        {"4243c0", 64, 64, GLEANRIME_INVALID_SIGNATURE, 0, 0, 0},
        {"dec0170b", 64, 64, GLEANRIME_INVALID_SIGNATURE, 0, 0, 0},
        {"dec0170b010000001400000011000000070000004243c0de210c0000010000000b020100", 64, 64, GLEANRIME_INVALID_SIGNATURE, 0, 0, 0},
        {"4243c0de00", 64, 64, GLEANRIME_BUFFER_OVERFLOW, 0, 0, 0},
        {"4243c0de210c00000200000000000000", 64, 64, GLEANRIME_BUFFER_OVERFLOW, 0, 0, 0},
        {"4243c0de210c000001000000000000", 64, 64, GLEANRIME_BUFFER_OVERFLOW, 0, 0, 0},
        {"4243c0de420821841042082184100200", 64, 64, GLEANRIME_VBR_OVERFLOW, 0, 0, 0},
        {"4243c0de210000000100000000000000", 64, 64, GLEANRIME_VBR_OVERFLOW, 64, 0, 0},
        {"4243c0de06000000", 64, 64, GLEANRIME_INVALID_ABBREV, 0, 0, 0},
        {"4243c0de0a530000", 64, 64, GLEANRIME_UNEXPECTED_OPERAND, 0, 0, 0},
        {"4243c0de010c0000020000000b0244c214000000", 64, 64, GLEANRIME_UNEXPECTED_OPERAND, 85, 0, 0},
        {"4243c0de06010000", 64, 64, GLEANRIME_ABBREV_WIDTH_TOO_SMALL, 0, 0, 0},
        {"4243c0de06813000", 64, 64, GLEANRIME_ABBREV_WIDTH_TOO_SMALL, 0, 256, 0},
        {"4243c0de210c0000010000000a120000250c0000010000000c000000", 64, 64, GLEANRIME_NO_SUCH_ABBREV, 160, 4, 9},
        {"4243c0de010c00000100000004000000", 64, 64, GLEANRIME_NO_SUCH_ABBREV, 64, 4, 0},
        {"4243c0de210c000000000000", 64, 64, GLEANRIME_MISSING_END_BLOCK, 64, 8, 0},
        {"4243c0de010c0000010000000a320000", 64, 64, GLEANRIME_MISSING_SET_BID, 64, 0, 0},
        {"4243c0de010c0000010000000b022400", 64, 64, GLEANRIME_NESTED_BLOCK_IN_BLOCK_INFO, 85, 0, 0},
        {"4243c0de010c00000100000003830001", 64, 64, GLEANRIME_INVALID_BLOCK_INFO_RECORD, 64, 32, 0},
        {"4243c0de010c0000010000000b000000", 64, 64, GLEANRIME_INVALID_BLOCK_INFO_RECORD, 64, 1, 0},
        {"4243c0de010c0000020000000b02644202220000", 64, 64, GLEANRIME_VALUE_OVERFLOW, 85, 0, 0},
        {"4243c0de46010000", 64, 64, GLEANRIME_NO_ABBREVIATION_ROOM, 0, 0, 0},
        {"4243c0de07823000", 0, 2, GLEANRIME_NO_EVENT_ROOM, 0, 0, 0},
        {"4243c0de07823000", 8, 1, GLEANRIME_NO_OPERAND_ROOM, 0, 0, 0},
        {"4243c0de210202024200", 64, 64, GLEANRIME_BLOCK_NUMBER_TOO_LARGE, 0, UINT64_C(4294967304), 0},
    };
    for (size_t i = 0; i < sizeof all / sizeof *all; i++) {
        walk_hex(all[i].input, all[i].events, all[i].operands);
        TOLD(all[i].status, all[i].place, all[i].first, all[i].second, 0, 0, 0, 0, 0, 0, 0, 0);
    }
}

/* An accepted walk and a refused one tell as many numbers as fit, in the same order; what stands behind them stays. */
static void told_lengths(void) {
    uint8_t bytes[64];
    size_t length = bytes_of(SAMPLE, bytes);
    static const uint64_t accepted[GLEANRIME_TOLD] = {0, 0, 0, 0, 0xdec04342, 0, 0, 4, 12, 0, 3, 1};
    static const uint64_t refused[GLEANRIME_TOLD] = {GLEANRIME_NO_EVENT_ROOM, 85, 0, 0, 0, 0, 0, 0, 0, 0, 0, 0};
    for (size_t n = 0; n <= 16; n++) {
        for (size_t room = 16; room <= 24; room += 8) {
            uint64_t events[24], operands[1], *told = stained(left.told_room, n);
            uint64_t status = gleanrime_walk(bytes, length, NULL, 0, events, room, operands, 1, told, n);
            SAME(status, room == 24 ? GLEANRIME_ACCEPTED : GLEANRIME_NO_EVENT_ROOM);
            for (size_t i = 0; i < n; i++) SAME(told[i], i >= GLEANRIME_TOLD ? STAIN : room == 24 ? accepted[i] : refused[i]);
            check_guards("a guard of what is told", told, n);
        }
    }
}

/* An empty slice: any pointer, NULL too. */
static void empty_slices(void) {
    uint8_t bytes[64];
    size_t length = bytes_of(SAMPLE, bytes);
    uint64_t any = STAIN, events[24], operands[1];
    SAME(gleanrime_walk(NULL, 0, NULL, 0, NULL, 0, NULL, 0, NULL, 0), GLEANRIME_INVALID_SIGNATURE);
    SAME(gleanrime_walk(bytes, 4, NULL, 0, NULL, 0, NULL, 0, NULL, 0), GLEANRIME_ACCEPTED);
    SAME(gleanrime_walk(bytes, length, NULL, 0, NULL, 0, NULL, 0, NULL, 0), GLEANRIME_NO_EVENT_ROOM);
    SAME(gleanrime_walk(bytes, length, NULL, 0, events, 24, NULL, 0, NULL, 0), GLEANRIME_NO_OPERAND_ROOM);
    SAME(gleanrime_walk(bytes, length, NULL, 0, events, 24, operands, 1, NULL, 0), GLEANRIME_ACCEPTED);
    SAME(gleanrime_walk(bytes, length, &any, 0, &any, 0, &any, 0, &any, 0), GLEANRIME_NO_EVENT_ROOM);
    SAME(gleanrime_walk(bytes, GLEANRIME_MAX_INPUT + 1, NULL, 0, NULL, 0, NULL, 0, NULL, 0), GLEANRIME_INPUT_TOO_LONG); /* no byte is read */
    SAME(gleanrime_header(NULL, 0, NULL, 0), GLEANRIME_INVALID_SIGNATURE);
    SAME(gleanrime_header(bytes, length, NULL, 0), GLEANRIME_ACCEPTED);
    SAME(gleanrime_blob(NULL, 0, 0, 0, &any), 0);
    SAME(any, 0);
    SAME(gleanrime_unsigned(NULL, 0, 0, 1, 64, &any), GLEANRIME_END_OF_RECORD);
}

/* Rooms, each from both sides. A store of n numbers holds n / 8 events. */
static void rooms(void) {
    for (size_t events = 0; events <= 32; events++) {
        walk_hex(SAMPLE, events, 1);
        static const uint64_t places[3] = {0, 64, 85};
        if (events < 24) TOLD(GLEANRIME_NO_EVENT_ROOM, places[events / 8], 0, 0, 0, 0, 0, 0, 0, 0, 0, 0);
        if (events >= 24) SAME(left.status, GLEANRIME_ACCEPTED);
    }
    for (size_t operands = 0; operands <= 4; operands++) {
        walk_hex("4243c0de07833010", 8, operands);
        SAME(left.status, operands < 3 ? GLEANRIME_NO_OPERAND_ROOM : GLEANRIME_ACCEPTED);
    }
    /* An array of literals takes no bits for its elements: a log of some bytes fills 8,192 numbers, and one more doesn't fit. */
    for (unsigned more = 0; more <= 1; more++) {
        struct bits b;
        begin(&b);
        size_t at = enter(&b, 2, 8, 3);
        put(&b, 2, 3);
        put_vbr(&b, 3, 5);
        put(&b, 1, 1);
        put_vbr(&b, 7, 8);
        put(&b, 3 << 1, 4);
        put(&b, 1, 1);
        put_vbr(&b, 99, 8);
        put(&b, 4, 3);
        put_vbr(&b, ROOM + more, 6);
        leave(&b, 3, at);
        walk(&left, b.bytes, b.length / 8, NULL, 0, 24, ROOM);
        SAME(left.status, more ? GLEANRIME_NO_OPERAND_ROOM : GLEANRIME_ACCEPTED);
        if (more) continue;
        SAME(left.told[GLEANRIME_TOLD_OPERANDS], ROOM);
        EVENT(1, GLEANRIME_RECORD, 8, 7, 0, 0, GLEANRIME_ARRAY, 0, ROOM);
        for (size_t i = 0; i < ROOM; i++) SAME(left.operands[i], 99);
    }
}

/* The three payloads, and places of empty lists. */
static void payloads(void) {
    /* Block 8 defines 4 as: code 9, Fixed(3), array of Fixed(7); and uses it with 5 and 1, 2, 3; then with no elements. */
    struct bits b;
    begin(&b);
    size_t at = enter(&b, 2, 8, 3);
    put(&b, 2, 3);
    put_vbr(&b, 4, 5);
    put(&b, 1, 1);
    put_vbr(&b, 9, 8);
    put(&b, 1 << 1, 4);
    put_vbr(&b, 3, 5);
    put(&b, 3 << 1, 4);
    put(&b, 1 << 1, 4);
    put_vbr(&b, 7, 5);
    put(&b, 4, 3);
    put(&b, 5, 3);
    put_vbr(&b, 3, 6);
    for (int i = 1; i <= 3; i++) put(&b, 40 * i, 7);
    put(&b, 4, 3);
    put(&b, 6, 3);
    put_vbr(&b, 0, 6);
    leave(&b, 3, at);
    walk(&left, b.bytes, b.length / 8, NULL, 0, 64, 8);
    TOLD(0, 0, 0, 0, 0xdec04342, 0, 0, 4, b.length / 8 - 4, 0, 4, 5);
    EVENT(1, GLEANRIME_RECORD, 8, 9, 0, 1, GLEANRIME_ARRAY, 1, 3);
    EVENT(2, GLEANRIME_RECORD, 8, 9, 4, 1, GLEANRIME_ARRAY, 5, 0);
    static const uint64_t stored[5] = {5, 40, 80, 120, 6};
    for (int i = 0; i < 5; i++) SAME(left.operands[i], stored[i]);

    /* Letters: code 7 and an array of Char6, "aZ9._". */
    begin(&b);
    at = enter(&b, 2, 8, 3);
    put(&b, 2, 3);
    put_vbr(&b, 3, 5);
    put(&b, 1, 1);
    put_vbr(&b, 7, 8);
    put(&b, 3 << 1, 4);
    put(&b, 4 << 1, 4);
    put(&b, 4, 3);
    put_vbr(&b, 5, 6);
    static const uint8_t six[5] = {0, 51, 61, 62, 63};
    for (int i = 0; i < 5; i++) put(&b, six[i], 6);
    leave(&b, 3, at);
    walk(&left, b.bytes, b.length / 8, NULL, 0, 24, 5);
    EVENT(1, GLEANRIME_RECORD, 8, 7, 0, 0, GLEANRIME_CHAR6, 0, 5);
    for (int i = 0; i < 5; i++) SAME(left.operands[i], "aZ9._"[i]);
}

/* Writes a log: block 8, a record of code 7 with a blob of `size` bytes, each its own place. Returns the blob's byte of the stream. */
static size_t with_blob(struct bits *b, size_t size) {
    begin(b);
    size_t at = enter(b, 2, 8, 3);
    put(b, 2, 3);
    put_vbr(b, 2, 5);
    put(b, 1, 1);
    put_vbr(b, 7, 8);
    put(b, 5 << 1, 4);
    put(b, 4, 3);
    put_vbr(b, size, 6);
    align(b);
    size_t byte = b->length / 8;
    for (size_t i = 0; i < size; i++) put(b, i, 8);
    align(b);
    leave(b, 3, at);
    return byte - 4;
}

/* Headers with and without a wrapper, and blobs, which lie in the input. */
static void wrappers_and_blobs(void) {
    struct bits b;
    static uint8_t input[8192];
    for (size_t size = 0; size <= 9; size++) {
        size_t place = with_blob(&b, size), length = b.length / 8;
        /* Bare, then in a wrapper at 20, at 21 and at 33, with bytes behind. */
        static const size_t offsets[4] = {0, 20, 21, 33};
        for (int w = 0; w < 4; w++) {
            size_t offset = offsets[w], whole = offset == 0 ? length : offset + length + 5;
            memset(input, 0xEE, sizeof input);
            memcpy(input + offset, b.bytes, length);
            if (offset != 0) {
                const uint64_t words[5] = {GLEANRIME_WRAPPER_MAGIC, 1, offset, length, 7};
                for (int i = 0; i < 20; i++) input[i] = (uint8_t)(words[i / 4] >> 8 * (i % 4));
            }
            walk(&left, input, whole, NULL, 0, 24, 0);
            if (offset == 0) TOLD(0, 0, 0, 0, 0xdec04342, 0, 0, 4, length - 4, 0, 3, 0);
            if (offset != 0) TOLD(0, 0, 0, 0, GLEANRIME_WRAPPER_MAGIC, 0xdec04342, 1, offset, length, 7, 3, 0);
            EVENT(1, GLEANRIME_RECORD, 8, 7, 0, 0, GLEANRIME_BLOB, place, size);

            const uint64_t *record = left.events + GLEANRIME_EVENT_SIZE;
            uint64_t from = STAIN;
            SAME(gleanrime_blob(input, whole, record[GLEANRIME_PAYLOAD_PLACE], record[GLEANRIME_PAYLOAD_LENGTH], &from), size);
            SAME(from, offset + 4 + place);
            for (size_t i = 0; i < size; i++) SAME(input[from + i], i);

            /* Not inside the stream: past its end, far past it, and with a sum past 2^64. The stream itself is inside. */
            uint64_t stream = length - 4;
            SAME(gleanrime_blob(input, whole, 0, stream, &from), stream);
            SAME(from, offset + 4);
            SAME(gleanrime_blob(input, whole, stream, 0, &from), 0);
            SAME(from, offset + 4 + stream);
            const uint64_t outside[5][2] = {{0, stream + 1}, {stream, 1}, {stream + 1, 0}, {UINT64_MAX, 1}, {1, UINT64_MAX}};
            for (int i = 0; i < 5; i++) {
                from = STAIN;
                SAME(gleanrime_blob(input, whole, outside[i][0], outside[i][1], &from), 0);
                SAME(from, 0);
            }

            /* The header alone: the same numbers, as many as fit. */
            for (size_t n = 0; n <= 8; n++) {
                uint64_t *told = stained(left.told_room, n);
                SAME(gleanrime_header(input, whole, told, n), 0);
                for (size_t i = 0; i < n; i++) SAME(told[i], i < GLEANRIME_HEADER ? left.told[GLEANRIME_TOLD_MAGIC + i] : STAIN);
                check_guards("a guard of the header's numbers", told, n);
            }
        }
    }
    /* No header: zeros. */
    for (size_t n = 0; n <= 8; n++) {
        uint64_t *told = stained(left.told_room, n), from = STAIN;
        SAME(gleanrime_header(input, 3, told, n), GLEANRIME_INVALID_SIGNATURE);
        for (size_t i = 0; i < n; i++) SAME(told[i], i < GLEANRIME_HEADER ? 0 : STAIN);
        check_guards("a guard of the header's numbers", told, n);
        SAME(gleanrime_blob(input, 3, 0, 0, &from), 0);
        SAME(from, 0);
    }
    SAME(GLEANRIME_HEADER_MAGIC + GLEANRIME_TOLD_MAGIC, GLEANRIME_TOLD_MAGIC);
    SAME(GLEANRIME_HEADER_CPU + GLEANRIME_TOLD_MAGIC, GLEANRIME_TOLD_CPU);
}

/* The skip list: a skip event in place of a body, which is not read; 0 and numbers that don't occur have no effect. */
static void skip_list(void) {
    uint8_t bytes[64];
    size_t length = bytes_of("4243c0de210c000001000000ffffffff250c00000100000000000000", bytes);
    const uint64_t skip[4] = {0, 77, UINT64_MAX, 8};
    walk(&left, bytes, length, skip, 4, 64, 0);
    TOLD(0, 0, 0, 0, 0xdec04342, 0, 0, 4, 24, 0, 3, 0);
    EVENT(0, GLEANRIME_SKIP, 8, 3, 8, 4, 0, 0, 0);
    EVENT(1, GLEANRIME_ENTER, 9, 3, 20, 4, 0, 0, 0);
    EVENT(2, GLEANRIME_LEAVE, 9, 0, 0, 0, 0, 0, 0);
    walk(&left, bytes, length, skip, 3, 64, 0);
    TOLD(GLEANRIME_NO_SUCH_ABBREV, 64, 7, 8, 0, 0, 0, 0, 0, 0, 0, 0);

    /* A BLOCKINFO is read though 0 is in the list: block 9 uses what it defined. */
    length = bytes_of("4243c0de010c0000020000000b82442101000000250c00000100000004000000", bytes);
    walk(&left, bytes, length, skip, 1, 64, 0);
    TOLD(0, 0, 0, 0, 0xdec04342, 0, 0, 4, 28, 0, 3, 0);
    EVENT(1, GLEANRIME_RECORD, 9, 4, 0, 0, GLEANRIME_NO_PAYLOAD, 0, 0);
}

/* Typed operands at the ends of what each takes. */
static void typed(void) {
    static const uint64_t values[] = {
        0, 1, 2, 3, 254, 255, 256, 65535, 65536, UINT32_MAX, UINT32_MAX + UINT64_C(1), INT64_MAX, UINT64_C(1) << 63, UINT64_MAX - 1, UINT64_MAX};
    static const unsigned widths[] = {1, 8, 16, 32, 64};
    size_t n = sizeof values / sizeof *values;
    for (size_t i = 0; i < n; i++) {
        uint64_t v = values[i];
        for (size_t k = 0; k < 5; k++) {
            uint64_t value = STAIN;
            int fits = widths[k] == 64 || v >> widths[k] == 0;
            SAME(gleanrime_unsigned(values, n, i, 1, widths[k], &value), fits ? GLEANRIME_ACCEPTED : GLEANRIME_VALUE_OVERFLOW);
            SAME(value, fits ? v : 0);
        }
        int64_t number = 77;
        int64_t wanted = v % 2 == 0 ? (int64_t)(v / 2) : v == 1 ? INT64_MIN : -(int64_t)(v / 2);
        SAME(gleanrime_signed(values, n, i, 1, &number), GLEANRIME_ACCEPTED);
        SAME(number, wanted);

        /* A range takes two: one left, or one in the store, is 14, whatever it is. */
        uint64_t start = STAIN, end = STAIN;
        SAME(gleanrime_range(values, n, i, 1, &start, &end), GLEANRIME_END_OF_RECORD);
        SAME(start, 0);
        SAME(end, 0);
        start = end = STAIN;
        if (i + 1 == n) {
            SAME(gleanrime_range(values, n, i, 2, &start, &end), GLEANRIME_END_OF_RECORD);
            SAME(start, 0);
            SAME(end, 0);
            continue;
        }
        uint64_t sum = v + values[i + 1];
        SAME(gleanrime_range(values, n, i, 2, &start, &end), sum < v ? GLEANRIME_VALUE_OVERFLOW : GLEANRIME_ACCEPTED);
        SAME(start, sum < v ? 0 : v);
        SAME(end, sum < v ? 0 : sum);
    }

    /* None left, a place outside of the store, and a count that reaches past it: the place decides. */
    static const struct {
        uint64_t first, count, status;
    } places[] = {{0, 0, 14}, {14, 0, 14}, {15, 1, 14}, {16, 1, 14}, {UINT64_MAX, 1, 14}, {UINT64_MAX, UINT64_MAX, 14}, {14, UINT64_MAX, 0}};
    for (size_t i = 0; i < sizeof places / sizeof *places; i++) {
        uint64_t value = STAIN, start = STAIN, end = STAIN;
        int64_t number = 77;
        SAME(gleanrime_unsigned(values, n, places[i].first, places[i].count, 64, &value), places[i].status);
        SAME(value, places[i].status == 0 ? UINT64_MAX : 0);
        SAME(gleanrime_signed(values, n, places[i].first, places[i].count, &number), places[i].status);
        SAME(number, places[i].status == 0 ? -INT64_MAX : 0);
        SAME(gleanrime_range(values, n, places[i].first, places[i].count, &start, &end), GLEANRIME_END_OF_RECORD);
        SAME(start, 0);
        SAME(end, 0);
    }
}

/* 16,777,216 bytes, and one more, which comes before any other refusal. */
static void longest(void) {
    uint8_t *input = calloc(GLEANRIME_MAX_INPUT + 1, 1);
    if (input == NULL) abort();
    SAME(walk(&left, input, GLEANRIME_MAX_INPUT, NULL, 0, 8, 8), GLEANRIME_ACCEPTED);
    SAME(left.told[GLEANRIME_TOLD_SIZE], GLEANRIME_MAX_INPUT - 4);
    walk(&left, input, GLEANRIME_MAX_INPUT + 1, NULL, 0, 8, 8);
    TOLD(GLEANRIME_INPUT_TOO_LONG, 0, 0, 0, 0, 0, 0, 0, 0, 0, 0, 0);
    const uint64_t words[5] = {GLEANRIME_WRAPPER_MAGIC, 0, UINT32_MAX, UINT32_MAX, 0};
    for (int i = 0; i < 20; i++) input[i] = (uint8_t)(words[i / 4] >> 8 * (i % 4));
    SAME(walk(&left, input, GLEANRIME_MAX_INPUT + 1, NULL, 0, 8, 8), GLEANRIME_INPUT_TOO_LONG);
    SAME(walk(&left, input, GLEANRIME_MAX_INPUT, NULL, 0, 8, 8), GLEANRIME_INVALID_SIGNATURE);

    /* The header has no limit. */
    memset(input, 1, 4);
    uint64_t told[GLEANRIME_HEADER];
    SAME(gleanrime_header(input, GLEANRIME_MAX_INPUT + 1, told, GLEANRIME_HEADER), 0);
    SAME(told[GLEANRIME_HEADER_SIZE], GLEANRIME_MAX_INPUT - 3);
    free(input);
}

/* Limits on abbreviations, each from both sides: operands in one; local ones, of one block and of two; shared ones. */
static void abbreviations(void) {
    struct bits b;
    for (unsigned operands = 32; operands <= 33; operands++) {
        begin(&b);
        put(&b, 2, 2);
        put_vbr(&b, operands, 5);
        for (unsigned i = 0; i < operands; i++) put(&b, 4 << 1, 4);
        align(&b);
        SAME(walk(&left, b.bytes, b.length / 8, NULL, 0, 64, 0), operands > GLEANRIME_MAX_OPERANDS ? GLEANRIME_NO_ABBREVIATION_ROOM : 0);
    }
    for (unsigned more = 0; more <= 1; more++) {
        begin(&b);
        size_t at = enter(&b, 2, 8, 3), inner = 0;
        for (unsigned i = 0; i < GLEANRIME_MAX_LOCAL + more; i++) {
            if (i == 20) inner = enter(&b, 3, 9, 3);
            define(&b, 3, 5);
        }
        leave(&b, 3, inner);
        for (unsigned i = 20; i < GLEANRIME_MAX_LOCAL; i++) define(&b, 3, 5); /* what was freed is used again */
        leave(&b, 3, at);
        SAME(walk(&left, b.bytes, b.length / 8, NULL, 0, 64, 0), more ? GLEANRIME_NO_ABBREVIATION_ROOM : 0);

        begin(&b);
        at = enter(&b, 2, 0, 3);
        for (unsigned i = 0; i < GLEANRIME_MAX_SHARED + more; i++) {
            set_bid(&b, 3, 8 + i);
            define(&b, 3, 5);
        }
        leave(&b, 3, at);
        SAME(walk(&left, b.bytes, b.length / 8, NULL, 0, 64, 0), more ? GLEANRIME_NO_ABBREVIATION_ROOM : 0);
    }
}

/* Stack: the deepest inputs run in a thread of 128 KiB, whose memory is stained before and looked at behind. */

#define STACK 131072
#define PROMISED 57344 /* the header's 56 KiB */

static _Alignas(4096) uint8_t stack[STACK];

static struct {
    struct bits bits;
    uint64_t status, events[8 * 70], operands[8], told[GLEANRIME_TOLD];
    uintptr_t caller; /* where the stack stands when the walk is called */
} deep;

static void *walk_deep(void *unused) {
    volatile uint8_t here = 0;
    deep.caller = (uintptr_t)&here;
    deep.status = gleanrime_walk(deep.bits.bytes, deep.bits.length / 8, NULL, 0, deep.events, 8 * 70, deep.operands, 8, deep.told, GLEANRIME_TOLD);
    return unused;
}

/* Walks the deep log on that stack, and returns how many bytes of it were touched, all in all. */
static size_t touched(void) {
    memset(stack, 0x5C, STACK);
    pthread_attr_t attributes;
    pthread_t thread;
    if (pthread_attr_init(&attributes) != 0 || pthread_attr_setstack(&attributes, stack, STACK) != 0) abort();
    if (pthread_create(&thread, &attributes, walk_deep, NULL) != 0 || pthread_join(thread, NULL) != 0) abort();
    pthread_attr_destroy(&attributes);
    size_t clean = 0;
    while (clean < STACK && stack[clean] == 0x5C) clean++;
    return STACK - clean;
}

static void depth(void) {
    size_t most = 0, most_walk = 0;
    for (unsigned turn = 0; turn < 80; turn++) {
        unsigned levels = 1 + turn / 2, cut = turn % 2;
        nest(&deep.bits, levels, (int)cut);
        size_t all = touched(), own = all - ((uintptr_t)stack + STACK - deep.caller);
        if (all > most) most = all;
        if (own > most_walk) most_walk = own;
        walk(&left, deep.bits.bytes, deep.bits.length / 8, NULL, 0, 8 * 70, 8);
        SAME(deep.status, left.status);
        if (levels > GLEANRIME_MAX_OPEN) {
            TOLD(GLEANRIME_TOO_DEEP, 64 * GLEANRIME_MAX_OPEN, levels == 33 ? 9 : 8, 0, 0, 0, 0, 0, 0, 0, 0, 0);
        } else if (cut) {
            SAME(left.status, GLEANRIME_BUFFER_OVERFLOW);
        } else {
            SAME(left.status, GLEANRIME_ACCEPTED);
            SAME(left.told[GLEANRIME_TOLD_EVENTS], 2 * levels + 1);
            EVENT(levels, GLEANRIME_RECORD, 9, 6, 0, 0, GLEANRIME_ARRAY, 0, 3);
            SAME(left.operands[2], UINT64_MAX / 3);
        }
    }
    printf("the deepest walk takes %zu bytes of stack; with the thread's own, %zu of %d were touched\n", most_walk, most, STACK);
    HOLDS(most_walk < PROMISED);
    HOLDS(most_walk > 20000); /* else nothing was measured */
}

/* Calls in several threads at once: nothing is shared. */
static void *walk_often(void *unused) {
    struct left *mine = malloc(sizeof *mine);
    if (mine == NULL) abort();
    for (int i = 0; i < 2000; i++) {
        struct bits b;
        nest(&b, 1 + i % 33, 0);
        SAME(walk(mine, b.bytes, b.length / 8, NULL, 0, 8 * 70, 8), i % 33 == 32 ? GLEANRIME_TOO_DEEP : GLEANRIME_ACCEPTED);
    }
    free(mine);
    uint64_t *counts = unused;
    counts[0] = checks;
    counts[1] = faults;
    return NULL;
}

static void threads(void) {
    pthread_t thread[3];
    uint64_t counts[3][2];
    for (int i = 0; i < 3; i++)
        if (pthread_create(&thread[i], NULL, walk_often, counts[i]) != 0) abort();
    for (int i = 0; i < 3; i++) {
        if (pthread_join(thread[i], NULL) != 0) abort();
        checks += counts[i][0];
        faults += counts[i][1];
    }
}

/* An input may begin at any byte. */
static void any_byte(void) {
    uint8_t bytes[64];
    for (size_t shift = 0; shift < 8; shift++) {
        size_t length = bytes_of(SAMPLE, bytes + shift);
        SAME(walk(&left, bytes + shift, length, NULL, 0, 24, 1), GLEANRIME_ACCEPTED);
        SAME(left.operands[0], 2);
    }
}

int main(void) {
    sample();
    refusals();
    told_lengths();
    empty_slices();
    rooms();
    payloads();
    wrappers_and_blobs();
    skip_list();
    typed();
    longest();
    abbreviations();
    depth();
    threads();
    any_byte();
    printf("%" PRIu64 " checks, %" PRIu64 " failed\n", checks, faults);
    return faults == 0 ? 0 : 1;
}
