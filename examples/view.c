/* Finds the trees of a token file, which stand one after the other, as a viewer
 * does before it draws them:
 *
 *     cc -std=c99 -Iinclude examples/view.c target/staticlib/libhogvax_view.a -o view
 *     ./view samples/trees/forest.tokens
 *
 * The library is the tree reader alone: no routine in it is recursive, and none is
 * here. For each tree the example prints the offset at which it begins, its bytes,
 * its tips and its depth: all that a viewer needs to make room for a picture. Where
 * no tree begins, it prints the refusal's number, and the offset of the tag or label
 * refused. The exit status is 0, or 1 if the file does not end with a tree, or 2 if
 * it can't be read or there is no memory. An empty file has no trees. */
#include <inttypes.h>
#include <stdio.h>
#include <stdlib.h>

#include "hogvax.h"

/* The bytes that the buffer has at first. */
#define FIRST_BYTES 65536

/* The bytes of a file. */
struct bytes {
    uint8_t *start;
    size_t length;
};

static void fail(const char *name) {
    perror(name);
    exit(2);
}

/* All bytes of a file, in a buffer that is never empty. */
static struct bytes read_file(const char *name) {
    struct bytes file = {NULL, 0};
    size_t room = 0;
    FILE *stream = fopen(name, "rb");
    if (stream == NULL) {
        fail(name);
    }
    do {
        if (file.length == room) {
            room = room == 0 ? FIRST_BYTES : 2 * room;
            file.start = realloc(file.start, room);
            if (file.start == NULL) {
                fail("memory");
            }
        }
        file.length += fread(file.start + file.length, 1, room - file.length, stream);
    } while (file.length == room);
    if (ferror(stream)) {
        fail(name);
    }
    fclose(stream);
    return file;
}

/* Prints the measures of the tree that begins at an offset, and gives the offset of
 * its end; its own offset if there is none. */
static size_t view(struct bytes file, size_t offset) {
    uint64_t answer[HOGVAX_TREE_SLOTS] = {0};
    uint32_t number = hogvax_tree(file.start + offset, file.length - offset,
                                  answer, HOGVAX_TREE_SLOTS);
    if (number == 0) {
        printf("offset %zu bytes %" PRIu64 " tips %" PRIu64 " depth %" PRIu64 "\n",
               offset, answer[HOGVAX_BYTES], answer[HOGVAX_TIPS], answer[HOGVAX_DEPTH]);
    } else {
        printf("refused %" PRIu32 " %" PRIu64 "\n", number, offset + answer[HOGVAX_POSITION]);
    }
    return offset + (size_t)answer[HOGVAX_BYTES];
}

int main(int count, char **words) {
    struct bytes file;
    size_t offset = 0;
    int status = 0;
    if (count != 2) {
        fprintf(stderr, "usage: view TOKENS\n");
        return 2;
    }
    file = read_file(words[1]);
    while (status == 0 && offset < file.length) {
        size_t end = view(file, offset);
        status = end == offset;
        offset = end;
    }
    free(file.start);
    return status;
}
