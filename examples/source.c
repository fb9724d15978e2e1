/* Evaluates a program on the tree that begins a token file:
 *
 *     cc -std=c99 -Iinclude examples/source.c target/staticlib/libhogvax_c.a -o source
 *     ./source samples/programs/swap.program samples/small.tokens
 *
 * The program need not take its trees in order. The example prints the answer,
 * then the bytes written. The exit status is 0, or 1 if the run was refused, or
 * 2 if a file can't be read or there is no memory. */
#include <inttypes.h>
#include <stdio.h>
#include <stdlib.h>
#include <string.h>

#include "hogvax.h"

/* The most expressions to be begun: a program that takes a tree more than once
 * may begin very many. */
#define FUEL 1000000000

/* The bytes that the output has at first, and the most that it may have. */
#define FIRST_BYTES 16
#define MOST_BYTES 1073741824

/* What is lent to every run. Static buffers are initialised: they are 0. */
static uint32_t values[HOGVAX_VALUE_WORDS];
static uint64_t returns[HOGVAX_RETURN_WORDS];

/* The bytes of a file, or of the output. */
struct bytes {
    uint8_t *start;
    size_t length;
};

static void fail(const char *name) {
    perror(name);
    exit(2);
}

/* The bytes in a longer buffer. The new ones are 0, so that what is lent is
 * initialised. */
static void lengthen(struct bytes *bytes, size_t length) {
    bytes->start = realloc(bytes->start, length);
    if (bytes->start == NULL) {
        fail("memory");
    }
    memset(bytes->start + bytes->length, 0, length - bytes->length);
    bytes->length = length;
}

/* All bytes of a file. The buffer has more, so that it is never empty. */
static struct bytes read_file(const char *name) {
    struct bytes file = {NULL, 0};
    size_t length = 0, count;
    FILE *stream = fopen(name, "rb");
    if (stream == NULL) {
        fail(name);
    }
    do {
        lengthen(&file, length + 4096);
        count = fread(file.start + length, 1, 4096, stream);
        length += count;
    } while (count == 4096);
    if (ferror(stream)) {
        fail(name);
    }
    fclose(stream);
    file.length = length;
    return file;
}

/* Runs the program until the output has room for the result. */
static uint32_t source(struct bytes program, struct bytes tokens,
                       struct bytes *output, uint64_t *answer) {
    size_t room = FIRST_BYTES;
    for (;;) {
        uint32_t number;
        lengthen(output, room);
        number = hogvax_source(
            program.start, program.length, tokens.start, tokens.length, FUEL,
            output->start, output->length,
            values, HOGVAX_VALUE_WORDS, returns, HOGVAX_RETURN_WORDS,
            answer, HOGVAX_SOURCE_SLOTS);
        if (number != HOGVAX_OUTPUT_FULL || room == MOST_BYTES) {
            return number;
        }
        room *= 2;
    }
}

static void print_answer(uint32_t number, const uint64_t *answer) {
    if (number == 0) {
        printf("ended");
    } else {
        printf("refused %" PRIu32 " %" PRIu64, number, answer[HOGVAX_POSITION]);
    }
    printf(" begun %" PRIu64 " written %" PRIu64 " number %" PRId64,
           answer[HOGVAX_SOURCE_BEGUN], answer[HOGVAX_SOURCE_WRITTEN],
           (int64_t)answer[HOGVAX_SOURCE_NUMBER]);
    printf(" tips %" PRIu64 " depth %" PRIu64 "\n",
           answer[HOGVAX_SOURCE_TIPS], answer[HOGVAX_SOURCE_DEPTH]);
}

static void print_bytes(const uint8_t *bytes, uint64_t length) {
    uint64_t k;
    for (k = 0; k < length; k++) {
        printf("%02x%c", (unsigned)bytes[k], k + 1 == length ? '\n' : ' ');
    }
}

int main(int count, char **words) {
    struct bytes program, tokens, output = {NULL, 0};
    uint64_t answer[HOGVAX_SOURCE_SLOTS] = {0};
    uint32_t number;
    if (count != 3) {
        fprintf(stderr, "usage: source PROGRAM TOKENS\n");
        return 2;
    }
    program = read_file(words[1]);
    tokens = read_file(words[2]);
    number = source(program, tokens, &output, answer);
    print_answer(number, answer);
    print_bytes(output.start, answer[HOGVAX_SOURCE_WRITTEN]);
    return number == 0 ? 0 : 1;
}
