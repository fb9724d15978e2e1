/* Runs a program over the trees of a token file, one after the other:
 *
 *     cc -std=c99 -Iinclude examples/run.c target/staticlib/libhogvax_c.a -o run
 *     ./run samples/programs/grow.program samples/small.tokens
 *
 * For each tree it prints the answer, then the bytes written. The exit status
 * is 0, or 1 if a run was refused, or 2 if a file can't be read. */
#include <inttypes.h>
#include <stdio.h>
#include <stdlib.h>

#include "hogvax.h"

/* More bytes than the result of a run here may have. */
#define OUTPUT_BYTES 65536

/* What is lent to every run. Static buffers are initialised: they are 0. */
static uint8_t output[OUTPUT_BYTES];
static uint8_t code[HOGVAX_LONGEST_CODE];
static uint32_t values[HOGVAX_VALUE_WORDS];
static uint64_t returns[HOGVAX_RETURN_WORDS];

/* The bytes of a file. */
struct bytes {
    uint8_t *start;
    size_t length;
};

static void fail(const char *name) {
    perror(name);
    exit(2);
}

/* All bytes of a file. The buffer has one more, so that it is never empty. */
static struct bytes read_file(const char *name) {
    struct bytes file = {NULL, 0};
    FILE *stream = fopen(name, "rb");
    if (stream == NULL) {
        fail(name);
    }
    for (;;) {
        size_t room = file.length + 4096;
        size_t count;
        file.start = realloc(file.start, room + 1);
        if (file.start == NULL) {
            fail(name);
        }
        count = fread(file.start + file.length, 1, 4096, stream);
        file.length += count;
        if (count < 4096) {
            break;
        }
    }
    if (ferror(stream)) {
        fail(name);
    }
    fclose(stream);
    return file;
}

static void print_answer(uint32_t number, const uint64_t *answer) {
    if (number == 0) {
        printf("ended");
    } else {
        printf("refused %" PRIu32 " %" PRIu64, number, answer[HOGVAX_POSITION]);
    }
    printf(" units %" PRIu64 " read %" PRIu64 " written %" PRIu64 " number %" PRId64 "\n",
           answer[HOGVAX_UNITS], answer[HOGVAX_READ], answer[HOGVAX_WRITTEN],
           (int64_t)answer[HOGVAX_NUMBER]);
}

static void print_bytes(const uint8_t *bytes, uint64_t length) {
    uint64_t k;
    for (k = 0; k < length; k++) {
        printf("%02x%c", (unsigned)bytes[k], k + 1 == length ? '\n' : ' ');
    }
}

/* Runs the program over the tree that begins the tokens, and gives the bytes
 * read; 0 if the run was refused. */
static uint64_t run(struct bytes program, const uint8_t *tokens, size_t length) {
    uint64_t answer[HOGVAX_RUN_SLOTS] = {0};
    uint32_t number = hogvax_run(
        program.start, program.length, tokens, length, UINT64_MAX,
        output, sizeof output, code, sizeof code,
        values, HOGVAX_VALUE_WORDS, returns, HOGVAX_RETURN_WORDS,
        answer, HOGVAX_RUN_SLOTS);
    print_answer(number, answer);
    print_bytes(output, answer[HOGVAX_WRITTEN]);
    return number == 0 ? answer[HOGVAX_READ] : 0;
}

int main(int count, char **words) {
    struct bytes program, tokens;
    size_t offset = 0;
    if (count != 3) {
        fprintf(stderr, "usage: run PROGRAM TOKENS\n");
        return 2;
    }
    program = read_file(words[1]);
    tokens = read_file(words[2]);
    do {
        uint64_t read = run(program, tokens.start + offset, tokens.length - offset);
        if (read == 0) {
            return 1;
        }
        offset += (size_t)read;
    } while (offset < tokens.length);
    return 0;
}
