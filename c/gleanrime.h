/* Gleanrime: reads a log (an LLVM bitstream container: blocks with records in them) into stores that you lend.
 *
 * Numbers and slices only; a slice is a pointer and how many elements it has. Nothing is allocated, and nothing is kept between calls, so calls may
 * run in any number of threads at once. Any bytes at all are safe to hand in: they give events, or a numbered refusal with its place.
 *
 *     uint64_t events[8000], operands[4000], told[GLEANRIME_TOLD];
 *     if (gleanrime_walk(log, length, NULL, 0, events, 8000, operands, 4000, told, GLEANRIME_TOLD) == GLEANRIME_ACCEPTED)
 *         for (uint64_t i = 0; i < told[GLEANRIME_TOLD_EVENTS]; i++) {
 *             const uint64_t *event = events + i * GLEANRIME_EVENT_SIZE;
 *             if (event[GLEANRIME_KIND] == GLEANRIME_ENTER && event[GLEANRIME_BLOCK] == 8) puts("a casing");
 *         }
 *
 * What you promise in each call: a pointer is good for its length and aligned for its type, and what is lent for writing overlaps nothing else that
 * is lent in the same call. For an empty slice (length 0) any pointer will do, NULL too: it is never followed. The pointers to a single number
 * (`from`, `value`, `start`, `end`) must not be NULL.
 *
 * Link libgleanrime.a. It calls memcpy and memset of the C library and no other function. A walk takes less than 56 KiB of stack, however deep the
 * log is.
 */
#ifndef GLEANRIME_H
#define GLEANRIME_H

#include <stddef.h>
#include <stdint.h>

#ifdef __cplusplus
extern "C" {
#endif

/* Status: 0, or the number of a refusal. Behind the colon: its first and second detail, where it has any; other details are 0.
 * A walk can give all but 4 and 14, the typed operands give 13 and 14, and the header gives 1. */
enum gleanrime_status {
    GLEANRIME_ACCEPTED = 0,
    GLEANRIME_INVALID_SIGNATURE = 1,          /* no header: under 4 bytes, or a wrapper that points outside of the input */
    GLEANRIME_BUFFER_OVERFLOW = 2,            /* the bits end, in the log or in its block, before the item is complete */
    GLEANRIME_VBR_OVERFLOW = 3,               /* a number of too many chunks, or a block's width outside 1..32 */
    GLEANRIME_ALIGNMENT = 4,                  /* bytes read off a byte boundary; no call of this library gives it */
    GLEANRIME_INVALID_ABBREV = 5,             /* an abbreviation that can't be, or one without a code that is used */
    GLEANRIME_UNEXPECTED_OPERAND = 6,         /* an abbreviation with an array of blobs */
    GLEANRIME_ABBREV_WIDTH_TOO_SMALL = 7,     /* an operand's width outside 1..32: width */
    GLEANRIME_NO_SUCH_ABBREV = 8,             /* an abbreviation that is not defined for its block: abbreviation, block (0 for BLOCKINFO) */
    GLEANRIME_MISSING_END_BLOCK = 9,          /* a block whose bits end without its end mark: block */
    GLEANRIME_MISSING_SET_BID = 10,           /* BLOCKINFO defines or names something before it said for which block */
    GLEANRIME_NESTED_BLOCK_IN_BLOCK_INFO = 11,
    GLEANRIME_INVALID_BLOCK_INFO_RECORD = 12, /* a record of BLOCKINFO that is unknown or faulty: code */
    GLEANRIME_VALUE_OVERFLOW = 13,            /* a letter above 255 in BLOCKINFO; or an operand too large for what you asked for */
    GLEANRIME_END_OF_RECORD = 14,             /* no operand is left in the record */
    GLEANRIME_INPUT_TOO_LONG = 15,            /* more than GLEANRIME_MAX_INPUT bytes */
    GLEANRIME_TOO_DEEP = 16,                  /* more than GLEANRIME_MAX_OPEN blocks open at once: the block that can't be entered */
    GLEANRIME_NO_ABBREVIATION_ROOM = 17,      /* more abbreviations, or more operands in one, than the limits below */
    GLEANRIME_NO_EVENT_ROOM = 18,             /* the event store is full: lend a larger one and walk again */
    GLEANRIME_NO_OPERAND_ROOM = 19,           /* the operand store is full: the same */
    GLEANRIME_BLOCK_NUMBER_TOO_LARGE = 20     /* a block number of 2^32 or more: number */
};

/* Limits of a log. */
enum gleanrime_limit {
    GLEANRIME_MAX_INPUT = 16777216, /* bytes */
    GLEANRIME_MAX_OPEN = 32,        /* blocks open at once; the top level isn't one */
    GLEANRIME_MAX_OPERANDS = 32,    /* operands of one abbreviation, the element of an array included */
    GLEANRIME_MAX_SHARED = 32,      /* abbreviations that BLOCKINFO defines, over all block numbers */
    GLEANRIME_MAX_LOCAL = 32        /* abbreviations of the open blocks and the top level together; leaving a block frees its own */
};

/* What a walk tells: twelve numbers. After a refusal those from `magic` on are 0; after acceptance place and details are. */
enum gleanrime_told {
    GLEANRIME_TOLD_STATUS = 0,
    GLEANRIME_TOLD_PLACE = 1,     /* the bit of the stream where the innermost item being read began; for 9 the end of the block; 0 for 1 and 15 */
    GLEANRIME_TOLD_FIRST = 2,     /* the refusal's details */
    GLEANRIME_TOLD_SECOND = 3,
    GLEANRIME_TOLD_MAGIC = 4,     /* the first word of the input */
    GLEANRIME_TOLD_MAGIC2 = 5,    /* in a wrapper the first word of what it holds, else 0 */
    GLEANRIME_TOLD_VERSION = 6,   /* the wrapper's, else 0; so for cpu */
    GLEANRIME_TOLD_OFFSET = 7,    /* the wrapper's, else 4 */
    GLEANRIME_TOLD_SIZE = 8,      /* the wrapper's, else the number of bytes behind the magic */
    GLEANRIME_TOLD_CPU = 9,
    GLEANRIME_TOLD_EVENTS = 10,   /* how many events the event store holds */
    GLEANRIME_TOLD_OPERANDS = 11, /* how many numbers the operand store holds */
    GLEANRIME_TOLD = 12
};

/* The header's numbers, in the same order. */
enum gleanrime_header_told {
    GLEANRIME_HEADER_MAGIC = 0,
    GLEANRIME_HEADER_MAGIC2 = 1,
    GLEANRIME_HEADER_VERSION = 2,
    GLEANRIME_HEADER_OFFSET = 3,
    GLEANRIME_HEADER_SIZE = 4,
    GLEANRIME_HEADER_CPU = 5,
    GLEANRIME_HEADER = 6
};

/* An event: eight numbers, one event behind the other in the event store. Those that a kind doesn't use are 0.
 * Definitions of abbreviations and BLOCKINFO give no event. */
enum gleanrime_event {
    GLEANRIME_KIND = 0,
    GLEANRIME_BLOCK = 1, /* the block's number; for a record that of the block it stands in */

    /* enter and skip */
    GLEANRIME_WIDTH = 2,  /* bits of an abbreviation number in the block */
    GLEANRIME_START = 3,  /* the byte of the stream where the body begins */
    GLEANRIME_LENGTH = 4, /* the body's bytes */

    /* record */
    GLEANRIME_CODE = 2,
    GLEANRIME_FIRST = 3,          /* the place of its first operand in the operand store; for none the place where it would be */
    GLEANRIME_COUNT = 4,          /* how many operands, the code and the payload not counted */
    GLEANRIME_PAYLOAD = 5,        /* the payload's kind */
    GLEANRIME_PAYLOAD_PLACE = 6,  /* of an array: its first number's place in the operand store; of a blob: its first byte in the stream */
    GLEANRIME_PAYLOAD_LENGTH = 7, /* numbers or bytes */

    GLEANRIME_EVENT_SIZE = 8
};

enum gleanrime_kind {
    GLEANRIME_ENTER = 1,
    GLEANRIME_LEAVE = 2, /* has the block's number alone */
    GLEANRIME_RECORD = 3,
    GLEANRIME_SKIP = 4 /* a block of the skip list, its body unread */
};

enum gleanrime_payload {
    GLEANRIME_NO_PAYLOAD = 0,
    GLEANRIME_ARRAY = 1,
    GLEANRIME_CHAR6 = 2, /* an array of letters, each as its ASCII code */
    GLEANRIME_BLOB = 3   /* its bytes lie in your input: see gleanrime_blob */
};

/* The block number that records at the top level carry. (A block may have this number too.) */
#define GLEANRIME_TOP_LEVEL 4294967295

/* The word that a wrapper begins with. Places in events count from the stream's first byte: byte 4 of the input, in a wrapper byte offset + 4. */
#define GLEANRIME_WRAPPER_MAGIC 186106078

/* Walks an input whole. Returns the status, and tells as many of the twelve numbers as `told` has room for, the first ones first.
 *
 * skip: numbers of blocks whose bodies stay unread; each gives a skip event. 0 (BLOCKINFO) has no effect there.
 *
 * events, operands: the stores. A store of n numbers holds n / 8 events, or n operands, arrays' numbers included. A log of n bytes has fewer than
 * 3 n events, and most have far fewer. For operands no bound follows from the log's length: the elements of an array of literals take no bits, so a
 * few bytes can ask for any number of them. Begin with a guess, say one number for each byte of the log in either store; on 18 or 19 lend a larger
 * one, up to what you are willing to spend. A walk clears what it doesn't fill, so a store that is far too large costs time.
 *
 * Accepted: the events and operands stand at the front of their stores, in the order of the log; every number behind them is 0.
 * Refused: both stores are 0 all over. Nothing of a refused log is left to be taken for a good one. */
uint64_t gleanrime_walk(const uint8_t *input, size_t input_len, const uint64_t *skip, size_t skip_len, uint64_t *events, size_t events_len,
                        uint64_t *operands, size_t operands_len, uint64_t *told, size_t told_len);

/* The header alone: returns 0, or 1 where there is none. Tells as many of the six numbers as `told` has room for; after a refusal they are 0. The
 * input may be of any length. */
uint64_t gleanrime_header(const uint8_t *input, size_t input_len, uint64_t *told, size_t told_len);

/* A blob, by its event's place and length: sets *from to the byte of the input where it begins, and returns how many bytes it has. Both are 0 where
 * that is not inside of the input's stream. */
uint64_t gleanrime_blob(const uint8_t *input, size_t input_len, uint64_t place, uint64_t length, uint64_t *from);

/* Typed operands: the one at place `first` of the store, where `count` are left in its record, this one included. To go on, add 1 to `first` and
 * take 1 from `count`. 13: it is too large. 14: none is left, or the place is outside of the store. After a refusal what you lent for the answer
 * is 0. */

/* One below 2^bits: 8, 16, 32 and 64 bits, or 1 for a bool; any other number of bits does too, and from 64 on every value fits. */
uint64_t gleanrime_unsigned(const uint64_t *operands, size_t operands_len, uint64_t first, uint64_t count, uint64_t bits, uint64_t *value);

/* A signed one: the lowest bit is the sign, the others the value; 1 stands for -2^63. */
uint64_t gleanrime_signed(const uint64_t *operands, size_t operands_len, uint64_t first, uint64_t count, int64_t *value);

/* Two of them, a start and a length; *end is their sum (13 where that is 2^64 or more). To go on, add and take 2. */
uint64_t gleanrime_range(const uint64_t *operands, size_t operands_len, uint64_t first, uint64_t count, uint64_t *start, uint64_t *end);

#ifdef __cplusplus
}
#endif

#endif
