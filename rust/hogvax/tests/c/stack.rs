//! The stack that the header asks for is enough for the deepest programs and
//! trees.

use super::*;

/// On a thread with 1 MiB of stack, for each call its number and its position.
/// Nested Calls use most in both passes and in the source run; in the translator
/// nested IfZero use most of the shapes that were measured (`docs/DECISIONS.md`).
const TEXT: &str = r#"
#define _POSIX_C_SOURCE 200112L
#include <pthread.h>
#include <stdio.h>
#include <stdlib.h>
#include <string.h>
#include "hogvax.h"

#define STACK_BYTES 1048576

static uint8_t records[HOGVAX_LONGEST_RECORDS], input[10000], output[10000];
static uint8_t file[HOGVAX_LONGEST_FILE], code[HOGVAX_LONGEST_CODE];
static uint32_t values[HOGVAX_VALUE_WORDS];
static uint64_t returns[HOGVAX_RETURN_WORDS];
static uint64_t answer[HOGVAX_SOURCE_SLOTS];
static size_t records_length, input_length, file_length;

static void print(const char *call, uint32_t number) {
    printf(" %s %d %d", call, (int)number, (int)answer[HOGVAX_POSITION]);
}

/* Appends a record: bytes 0 and 1, bytes 2 to 3, byte 4. */
static void add(int first, int a, int b, int i) {
    uint8_t *record = records + records_length;
    memset(record, 0, HOGVAX_RECORD_BYTES);
    record[0] = (uint8_t)first;
    record[1] = (uint8_t)a;
    record[2] = (uint8_t)(b % 256);
    record[3] = (uint8_t)(b / 256);
    record[4] = (uint8_t)i;
    records_length += HOGVAX_RECORD_BYTES;
}

/* 1,022 Calls, each the argument of the one before. */
static void nested_calls(void) {
    int k;
    records_length = 0;
    add(1, 2, 1024, 0);
    add(0, 0, 1, 0);
    add(0, 1, 1023, 0);
    add(8, 0, 0, 0);
    for (k = 0; k < 1022; k++) {
        add(8, 0, 1, 0);
    }
    add(1, 0, 0, 0);
}

/* 340 IfZero, each the last part of the one before, in a program that passes. */
static void nested_tests(void) {
    int k;
    records_length = 0;
    add(1, 1, 1023, 0);
    add(0, 0, 1023, 0);
    add(2, 0, 0, 0);
    add(8, 0, 0, 0);
    for (k = 0; k < 340; k++) {
        add(3, 0, 0, 0);
        add(0, 0, 0, 1);
        add(0, 0, 0, 1);
    }
    add(0, 0, 0, 1);
}

/* The tree of this depth whose right parts are leaves. */
static void deep_tree(int depth) {
    static const uint8_t leaf[] = {1, 5, 0, 0, 0};
    int k;
    memset(input, 2, (size_t)depth);
    input_length = (size_t)depth;
    for (k = 0; k <= depth; k++) {
        memcpy(input + input_length, leaf, sizeof leaf);
        input_length += sizeof leaf;
    }
}

/* Every call that reads a program, with these records and this input. */
static void calls(const char *name) {
    printf("%s:", name);
    print("pack", hogvax_pack(records, records_length, file, sizeof file,
                              answer, HOGVAX_ANSWER_SLOTS));
    file_length = (size_t)answer[HOGVAX_BYTES];
    print("unpack", hogvax_unpack(file, file_length, records, sizeof records,
                                  answer, HOGVAX_ANSWER_SLOTS));
    print("check", hogvax_check(file, file_length, answer, HOGVAX_ANSWER_SLOTS));
    print("check_records", hogvax_check_records(records, records_length,
                                                answer, HOGVAX_ANSWER_SLOTS));
    print("translate", hogvax_translate(file, file_length, code, sizeof code,
                                        answer, HOGVAX_ANSWER_SLOTS));
    print("run", hogvax_run(file, file_length, input, input_length, 1000000,
                            output, sizeof output, code, sizeof code,
                            values, HOGVAX_VALUE_WORDS, returns, HOGVAX_RETURN_WORDS,
                            answer, HOGVAX_RUN_SLOTS));
    print("source", hogvax_source(file, file_length, input, input_length, 1000000,
                                  output, sizeof output,
                                  values, HOGVAX_VALUE_WORDS, returns, HOGVAX_RETURN_WORDS,
                                  answer, HOGVAX_SOURCE_SLOTS));
    printf("\n");
}

static void tree(int depth) {
    deep_tree(depth);
    printf("depth %d:", depth);
    print("tree", hogvax_tree(input, input_length, answer, HOGVAX_TREE_SLOTS));
    printf(" bytes %d %d", (int)answer[HOGVAX_BYTES],
           (int)hogvax_tree_bytes(input, input_length));
    printf(" tips %d depth %d\n", (int)answer[HOGVAX_TIPS], (int)answer[HOGVAX_DEPTH]);
}

static void *deepest(void *unused) {
    tree(1025);
    tree(1024);
    nested_tests();
    calls("tests");
    nested_calls();
    calls("calls");
    return unused;
}

int main(void) {
    pthread_attr_t attributes;
    pthread_t thread;
    if (pthread_attr_init(&attributes) != 0
        || pthread_attr_setstacksize(&attributes, STACK_BYTES) != 0
        || pthread_create(&thread, &attributes, deepest, NULL) != 0
        || pthread_join(thread, NULL) != 0) {
        return 2;
    }
    return 0;
}
"#;

#[test]
fn the_deepest_calls_fit_in_1_mib_of_stack() {
    assert!(HEADER.contains("up to 1 MiB of the thread's stack"));
    let output = succeed(&mut Command::new(build_text(TEXT, "stack")));
    let lines = "depth 1025: tree 20 1024 bytes 0 0 tips 0 depth 0\n\
        depth 1024: tree 0 0 bytes 6149 6149 tips 1025 depth 1024\n\
        tests: pack 0 0 unpack 0 0 check 0 0 check_records 0 0 translate 0 0 run 18 0 \
        source 18 0\n\
        calls: pack 0 0 unpack 0 0 check 11 1024 check_records 11 1024 translate 11 1024 \
        run 11 1024 source 18 0\n";
    assert_eq!(String::from_utf8_lossy(&output.stdout), lines);
}
