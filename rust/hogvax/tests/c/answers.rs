//! The header's constants for slots and work words beside the library: each
//! call needs as many slots as the header says, fills them and no more, and
//! touches nothing where it has fewer.

use super::*;

/// Makes each call with a slot less than it needs, then with all. Then calls that
/// are refused before their run leave the work words as they were. Last, the tree
/// reader in as many slots as are enough for all calls but the runs. The exit status
/// is 0, or 1 with the test that failed on standard error.
const TEXT: &str = r#"
#include <stdio.h>
#include <stdlib.h>
#include <string.h>
#include "hogvax.h"

#define FILLER 0xa5
/* The slots of a call that answers a position and bytes alone. */
#define TWO_SLOTS (HOGVAX_BYTES + 1)
#define TEST(what) if (!(what)) { fprintf(stderr, "%s\n", #what); exit(1); }

/* Case 0, Leaf, Var 0, Node, Call 0 on 2, Call 0 on 1. */
static const uint8_t swap[] = {
    1, 1, 6, 0, 0, 0, 0, 0, 1, 0, 6, 0, 0, 0, 0, 0, 7, 0, 0, 0, 0, 0, 0, 0, 5, 0, 0, 0, 0, 0, 0, 0,
    1, 0, 0, 0, 0, 0, 0, 0, 6, 0, 0, 0, 0, 0, 0, 0, 8, 2, 0, 0, 0, 0, 0, 0, 8, 1, 0, 0, 0, 0, 0, 0};
static const uint8_t tokens[] = {2, 1, 5, 0, 0, 0, 1, 7, 0, 0, 0};

/* What the calls read: a program file, its code, and a tree. */
static uint8_t program[HOGVAX_LONGEST_FILE], stream[HOGVAX_LONGEST_CODE];
static size_t program_length, stream_length;
static uint8_t input[2000];
static size_t input_length;

/* What the calls write, and what it was before. */
static struct lent {
    uint8_t file[HOGVAX_LONGEST_FILE], records[HOGVAX_LONGEST_RECORDS];
    uint8_t code[HOGVAX_LONGEST_CODE], output[11];
    uint32_t values[HOGVAX_VALUE_WORDS];
    uint64_t returns[HOGVAX_RETURN_WORDS], answer[8];
} lent, before;
static size_t code_length = sizeof lent.code;
static size_t value_words = HOGVAX_VALUE_WORDS, return_words = HOGVAX_RETURN_WORDS;

static uint32_t tree(size_t slots) {
    return hogvax_tree(input, input_length, lent.answer, slots);
}
static uint32_t pack(size_t slots) {
    return hogvax_pack(grow, sizeof grow, lent.file, sizeof lent.file, lent.answer, slots);
}
static uint32_t unpack(size_t slots) {
    return hogvax_unpack(program, program_length, lent.records, sizeof lent.records,
                         lent.answer, slots);
}
static uint32_t check(size_t slots) {
    return hogvax_check(program, program_length, lent.answer, slots);
}
static uint32_t check_records(size_t slots) {
    return hogvax_check_records(grow, sizeof grow, lent.answer, slots);
}
static uint32_t translate(size_t slots) {
    return hogvax_translate(program, program_length, lent.code, code_length, lent.answer, slots);
}
static uint32_t perform(size_t slots) {
    return hogvax_perform(stream, stream_length, input, input_length, 100,
                          lent.output, sizeof lent.output, lent.values, value_words,
                          lent.returns, return_words, lent.answer, slots);
}
static uint32_t run(size_t slots) {
    return hogvax_run(program, program_length, input, input_length, 100,
                      lent.output, sizeof lent.output, lent.code, code_length,
                      lent.values, value_words, lent.returns, return_words, lent.answer, slots);
}
static uint32_t source(size_t slots) {
    return hogvax_source(program, program_length, input, input_length, 100,
                         lent.output, sizeof lent.output, lent.values, value_words,
                         lent.returns, return_words, lent.answer, slots);
}

/* Fills what is lent. */
static void refill(void) {
    memset(&lent, FILLER, sizeof lent);
    before = lent;
}

/* The program with these records, and this tree. */
static void prepare(const uint8_t *records, size_t length, const uint8_t *bytes, size_t count) {
    uint64_t answer[HOGVAX_ANSWER_SLOTS] = {0};
    TEST(hogvax_pack(records, length, program, sizeof program, answer, HOGVAX_ANSWER_SLOTS) == 0);
    program_length = (size_t)answer[HOGVAX_BYTES];
    memcpy(input, bytes, count);
    input_length = count;
}

/* A call that needs so many slots. */
static void needs(uint32_t (*call)(size_t), size_t slots) {
    size_t k;
    refill();
    TEST(call(slots - 1) == HOGVAX_SPACE_TOO_SHORT);
    TEST(memcmp(&lent, &before, sizeof lent) == 0);
    TEST(call(slots) == 0);
    for (k = 0; k < 8; k++) {
        TEST((lent.answer[k] == before.answer[k]) == (k >= slots));
    }
}

/* A call with this refusal leaves all but its answer as it was. */
static void leaves(uint32_t (*call)(size_t), size_t slots, uint32_t number) {
    refill();
    TEST(call(slots) == number);
    memset(lent.answer, FILLER, sizeof lent.answer);
    TEST(memcmp(&lent, &before, sizeof lent) == 0);
}

/* Either run, refused with this number. */
static void both_leave(uint32_t number) {
    leaves(run, HOGVAX_RUN_SLOTS, number);
    leaves(source, HOGVAX_SOURCE_SLOTS, number);
}

/* Every run with so many work words is refused with 13. */
static void too_few(size_t values, size_t returns) {
    value_words = values, return_words = returns;
    both_leave(HOGVAX_SPACE_TOO_SHORT);
    leaves(perform, HOGVAX_RUN_SLOTS, HOGVAX_SPACE_TOO_SHORT);
    value_words = HOGVAX_VALUE_WORDS, return_words = HOGVAX_RETURN_WORDS;
}

int main(void) {
    uint64_t answer[HOGVAX_ANSWER_SLOTS] = {0};
    prepare(grow, sizeof grow, tokens, sizeof tokens);
    TEST(hogvax_translate(program, program_length, stream, sizeof stream,
                          answer, HOGVAX_ANSWER_SLOTS) == 0);
    stream_length = (size_t)answer[HOGVAX_BYTES];
    needs(tree, HOGVAX_TREE_SLOTS);
    needs(pack, TWO_SLOTS);
    needs(unpack, TWO_SLOTS);
    needs(check, TWO_SLOTS);
    needs(check_records, TWO_SLOTS);
    needs(translate, TWO_SLOTS);
    needs(perform, HOGVAX_RUN_SLOTS);
    needs(run, HOGVAX_RUN_SLOTS);
    needs(source, HOGVAX_SOURCE_SLOTS);
    too_few(HOGVAX_VALUE_WORDS - 1, HOGVAX_RETURN_WORDS);
    too_few(HOGVAX_VALUE_WORDS, HOGVAX_RETURN_WORDS - 1);
    code_length = stream_length - 1;
    leaves(run, HOGVAX_RUN_SLOTS, HOGVAX_SPACE_TOO_SHORT);
    leaves(translate, HOGVAX_ANSWER_SLOTS, HOGVAX_SPACE_TOO_SHORT);
    code_length = sizeof lent.code;
    program_length--;
    both_leave(HOGVAX_FILE_LENGTH);
    program_length++;
    program[0]++;
    both_leave(HOGVAX_BLOCK_CHECK);
    program[0]--;
    input_length--;
    leaves(source, HOGVAX_SOURCE_SLOTS, HOGVAX_INPUT_ENDED);
    input[0] = 3;
    leaves(source, HOGVAX_SOURCE_SLOTS, HOGVAX_NOT_A_TAG);
    memset(input, 2, sizeof input);
    input_length = sizeof input;
    leaves(source, HOGVAX_SOURCE_SLOTS, HOGVAX_TOO_DEEP);
    prepare(swap, sizeof swap, tokens, sizeof tokens);
    leaves(run, HOGVAX_RUN_SLOTS, HOGVAX_OUT_OF_ORDER);
    refill();
    TEST(tree(HOGVAX_ANSWER_SLOTS) == 0);
    TEST(lent.answer[HOGVAX_POSITION] == 0 && lent.answer[HOGVAX_BYTES] == sizeof tokens);
    TEST(TWO_SLOTS <= HOGVAX_ANSWER_SLOTS);
    return 0;
}
"#;

#[test]
fn the_calls_need_the_places_that_the_header_names() {
    succeed(&mut Command::new(build_with_grow(TEXT, "answers")));
}
