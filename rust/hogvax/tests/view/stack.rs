//! The calls of the view library use less stack than the header says, however long or
//! deep the input is.

use std::process::Command;

use super::*;

/// A line for each input: its name and length, the number, bytes, tips and depth that
/// `hogvax_tree` answers, and how far below the frame of their caller the two calls
/// wrote. They run on a thread whose stack is known, and filled before each call.
const TEXT: &str = r#"
#define _POSIX_C_SOURCE 200112L
#include <pthread.h>
#include <stdio.h>
#include <stdlib.h>
#include <string.h>
#include "hogvax.h"

#define STACK_BYTES 1048576
#define INPUT_BYTES 120000000
#define FILLER 0xa5

/* More than the frame of a function here. */
#define FRAME_BYTES 512

static const uint8_t leaf[] = {1, 5, 0, 0, 0};
static void *stack;
static uint8_t *input;
static size_t length;
static uint64_t answer[HOGVAX_TREE_SLOTS];

/* Makes a call, and gives how far below this frame it wrote. */
static int used(int bytes_alone) {
    volatile uint8_t here = 0, *lowest, *end = &here - FRAME_BYTES;
    for (lowest = stack; lowest < end; lowest++) {
        *lowest = FILLER;
    }
    if (bytes_alone) {
        hogvax_tree_bytes(input, length);
    } else {
        hogvax_tree(input, length, answer, HOGVAX_TREE_SLOTS);
    }
    for (lowest = stack; lowest < end && *lowest == FILLER; lowest++) {
    }
    return (int)(&here - lowest);
}

static void *measure(void *name) {
    int number = (int)hogvax_tree(input, length, answer, HOGVAX_TREE_SLOTS);
    printf("%s, %d bytes: %d %d %d %d, ", (const char *)name, (int)length, number,
           (int)answer[HOGVAX_BYTES], (int)answer[HOGVAX_TIPS], (int)answer[HOGVAX_DEPTH]);
    printf("%d %d\n", used(0), used(1));
    return NULL;
}

/* Measures on the thread. */
static void on_thread(char *name) {
    pthread_attr_t attributes;
    pthread_t thread;
    if (pthread_attr_init(&attributes) != 0
        || pthread_attr_setstack(&attributes, stack, STACK_BYTES) != 0
        || pthread_create(&thread, &attributes, measure, name) != 0
        || pthread_join(thread, NULL) != 0) {
        exit(2);
    }
}

static void add(const uint8_t *bytes, size_t count) {
    memcpy(input + length, bytes, count);
    length += count;
}

/* A tree of this depth: node tags, then leaves; or each left part a leaf. */
static void caterpillar(int depth, int left_leaves) {
    static const uint8_t node = 2;
    int k;
    length = 0;
    for (k = 0; k < depth; k++) {
        add(&node, 1);
        if (left_leaves) {
            add(leaf, sizeof leaf);
        }
    }
    for (k = left_leaves ? depth : 0; k <= depth; k++) {
        add(leaf, sizeof leaf);
    }
}

/* The tree of this depth that has all its leaves there. */
static void full(int depth) {
    length = 0;
    add(leaf, sizeof leaf);
    for (; depth > 0; depth--) {
        memmove(input + 1, input, length);
        input[0] = 2;
        memcpy(input + 1 + length, input + 1, length);
        length = 2 * length + 1;
    }
}

int main(void) {
    input = malloc(INPUT_BYTES);
    if (input == NULL || posix_memalign(&stack, 65536, STACK_BYTES) != 0) {
        return 2;
    }
    full(0);
    on_thread("leaf");
    full(24);
    on_thread("full");
    caterpillar(1024, 0);
    on_thread("left");
    caterpillar(1024, 1);
    on_thread("right");
    caterpillar(1025, 0);
    on_thread("too deep");
    caterpillar(1025, 1);
    on_thread("too deep");
    length--;
    on_thread("too deep");
    caterpillar(1024, 0);
    length--;
    on_thread("broken");
    input[1024] = 3;
    on_thread("no tag");
    length = 0;
    on_thread("none");
    return 0;
}
"#;

/// What is printed before the last comma.
const ANSWERS: [&str; 10] = [
    "leaf, 5 bytes: 0 5 1 0",
    "full, 100663295 bytes: 0 100663295 16777216 24",
    "left, 6149 bytes: 0 6149 1025 1024",
    "right, 6149 bytes: 0 6149 1025 1024",
    "too deep, 6155 bytes: 20 0 0 0",
    "too deep, 6155 bytes: 20 0 0 0",
    "too deep, 6154 bytes: 20 0 0 0",
    "broken, 6148 bytes: 15 0 0 0",
    "no tag, 6148 bytes: 16 0 0 0",
    "none, 0 bytes: 15 0 0 0",
];

const PAGE: &str = include_str!("../../../../docs/CALLING.md");

/// The words of a text, without the stars of a comment.
fn words(text: &str) -> String {
    let words = text.split_whitespace().filter(|word| *word != "*");
    words.collect::<Vec<_>>().join(" ")
}

#[test]
fn header_and_page_say_how_much_stack_it_is() {
    let header =
        "The calls of libhogvax_view.a use less than 4 KiB, however long or deep the input is";
    assert!(words(HEADER).contains(header));
    let page = "a call uses less than 4 KiB of stack, however long or deep the input is";
    assert!(words(PAGE).contains(page));
}

#[test]
fn the_calls_use_less_than_4_kib_of_stack_for_every_input() {
    let program = linked(&source("stack", TEXT), &archives::view(), "stack");
    let output = succeed(&mut Command::new(program));
    let lines = String::from_utf8(output.stdout).unwrap();
    let lines = lines.lines().map(|line| line.rsplit_once(", ").unwrap());
    let (answers, used): (Vec<&str>, Vec<&str>) = lines.unzip();
    assert_eq!(answers, ANSWERS);
    let used = used.iter().map(|both| {
        let both = both.split(' ').map(|bytes| bytes.parse::<usize>().unwrap());
        both.collect::<Vec<usize>>()
    });
    let used: Vec<Vec<usize>> = used.collect();
    // A leaf alone needs no table of marks; all else needs the same.
    let (leaf, others) = (&used[0], &used[1..]);
    assert!(others.iter().all(|one| *one == others[0]), "{used:?}");
    for (leaf, other) in leaf.iter().zip(&others[0]) {
        assert!(leaf <= other && *other < 4096, "{used:?}");
    }
}
