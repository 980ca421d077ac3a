/* Prints each casing of a log with its records: example [FILE], or the log on standard input.
 *
 * A casing is a block of number 8. Blocks inside it are indented; those of other numbers are shown as what they are. */
#include "gleanrime.h"

#include <inttypes.h>
#include <stdio.h>
#include <stdlib.h>

#define CASING 8

/* A store that is grown when a walk finds it full, up to 64 million numbers (512 MiB). */
struct store {
    uint64_t *numbers;
    size_t length;
};

static void grow(struct store *store) {
    const size_t most = (size_t)1 << 26;
    if (store->length >= most) {
        fputs("this log needs more memory than it gets here\n", stderr);
        exit(1);
    }
    free(store->numbers);
    store->length = store->length == 0 ? 4096 : 2 * store->length;
    store->numbers = malloc(store->length * sizeof *store->numbers);
    if (store->numbers == NULL) {
        fputs("out of memory\n", stderr);
        exit(1);
    }
}

/* Reads all of a file, but at most one byte more than a log may have: the walk then says that it is too long. */
static uint8_t *read_log(FILE *file, size_t *length) {
    uint8_t *log = malloc(GLEANRIME_MAX_INPUT + 1);
    if (log == NULL) return NULL;
    *length = fread(log, 1, GLEANRIME_MAX_INPUT + 1, file);
    return ferror(file) ? NULL : log;
}

static void explain(const uint64_t *told) {
    uint64_t first = told[GLEANRIME_TOLD_FIRST], second = told[GLEANRIME_TOLD_SECOND];
    fprintf(stderr, "refusal %" PRIu64 " at bit %" PRIu64 ": ", told[GLEANRIME_TOLD_STATUS], told[GLEANRIME_TOLD_PLACE]);
    switch (told[GLEANRIME_TOLD_STATUS]) {
    case GLEANRIME_INVALID_SIGNATURE: fputs("this is no log: its header is missing or cut short", stderr); break;
    case GLEANRIME_BUFFER_OVERFLOW: fputs("the log, or a block of it, is cut short", stderr); break;
    case GLEANRIME_NO_SUCH_ABBREV:
        fprintf(stderr, "block %" PRIu64 " uses abbreviation %" PRIu64 ", which is not defined for it", second, first);
        break;
    case GLEANRIME_MISSING_END_BLOCK: fprintf(stderr, "block %" PRIu64 " ends without its end mark", first); break;
    case GLEANRIME_INPUT_TOO_LONG: fprintf(stderr, "the log is longer than %d bytes", GLEANRIME_MAX_INPUT); break;
    case GLEANRIME_TOO_DEEP: fprintf(stderr, "block %" PRIu64 " has %d blocks open around it", first, GLEANRIME_MAX_OPEN); break;
    default: fprintf(stderr, "the log is damaged (details %" PRIu64 ", %" PRIu64 "); gleanrime.h has the numbers", first, second); break;
    }
    fputc('\n', stderr);
}

static void print_record(const uint64_t *event, const uint64_t *operands, const uint8_t *log, size_t length) {
    printf("record %" PRIu64 ":", event[GLEANRIME_CODE]);
    for (uint64_t i = 0; i < event[GLEANRIME_COUNT]; i++) printf(" %" PRIu64, operands[event[GLEANRIME_FIRST] + i]);
    uint64_t place = event[GLEANRIME_PAYLOAD_PLACE], many = event[GLEANRIME_PAYLOAD_LENGTH], from;
    switch (event[GLEANRIME_PAYLOAD]) {
    case GLEANRIME_ARRAY:
        fputs(" array", stdout);
        for (uint64_t i = 0; i < many; i++) printf(" %" PRIu64, operands[place + i]);
        break;
    case GLEANRIME_CHAR6:
        fputs(" \"", stdout);
        for (uint64_t i = 0; i < many; i++) putchar((int)operands[place + i]);
        putchar('"');
        break;
    case GLEANRIME_BLOB:
        many = gleanrime_blob(log, length, place, many, &from);
        fputs(" blob ", stdout);
        for (uint64_t i = 0; i < many; i++) printf("%02x", log[from + i]);
        break;
    }
    putchar('\n');
}

int main(int count, char **words) {
    FILE *file = count > 1 ? fopen(words[1], "rb") : stdin;
    size_t length = 0;
    uint8_t *log = file == NULL ? NULL : read_log(file, &length);
    if (log == NULL) {
        perror(count > 1 ? words[1] : "standard input");
        return 1;
    }

    struct store events = {NULL, 0}, operands = {NULL, 0};
    uint64_t told[GLEANRIME_TOLD];
    do {
        gleanrime_walk(log, length, NULL, 0, events.numbers, events.length, operands.numbers, operands.length, told, GLEANRIME_TOLD);
        switch (told[GLEANRIME_TOLD_STATUS]) {
        case GLEANRIME_ACCEPTED: break;
        case GLEANRIME_NO_EVENT_ROOM: grow(&events); break;
        case GLEANRIME_NO_OPERAND_ROOM: grow(&operands); break;
        default: explain(told); return 1;
        }
    } while (told[GLEANRIME_TOLD_STATUS] != GLEANRIME_ACCEPTED);

    int depth = 0;
    uint64_t casings = 0;
    for (uint64_t i = 0; i < told[GLEANRIME_TOLD_EVENTS]; i++) {
        const uint64_t *event = events.numbers + GLEANRIME_EVENT_SIZE * i;
        uint64_t block = event[GLEANRIME_BLOCK];
        if (event[GLEANRIME_KIND] == GLEANRIME_LEAVE) {
            depth--;
            continue;
        }
        printf("%*s", 2 * depth, "");
        if (event[GLEANRIME_KIND] == GLEANRIME_RECORD) {
            print_record(event, operands.numbers, log, length);
        } else if (block == CASING) {
            printf("casing %" PRIu64 "\n", ++casings);
            depth++;
        } else {
            printf("block %" PRIu64 "\n", block);
            depth++;
        }
    }
    free(events.numbers);
    free(operands.numbers);
    free(log);
    return 0;
}
