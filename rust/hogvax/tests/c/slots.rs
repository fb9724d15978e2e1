//! A C program finds the answers of a source run and of the tree reader at the slots
//! that the header names.

use super::*;

/// Grow on T, with a fuel too short by one, too; Sum of the leaves -2147483647 and
/// -1, and of 2147483647 and 1, which is out of range; and a file of no blocks: a
/// line each with what C finds at the slots.
const SOURCE: &str = r#"
#include <inttypes.h>
#include <stdio.h>
#include "hogvax.h"

static uint32_t values[HOGVAX_VALUE_WORDS];
static uint64_t returns[HOGVAX_RETURN_WORDS];

static const uint8_t sum[] = {
    1, 1, 5, 0, 0, 0, 0, 0, 0, 0, 5, 0, 0, 0, 0, 0, 7, 0, 0, 0, 0, 0, 0, 0, 1, 0, 0, 0, 0, 0, 0, 0,
    2, 0, 0, 0, 0, 0, 0, 0, 8, 1, 0, 0, 0, 0, 0, 0, 8, 2, 0, 0, 0, 0, 0, 0};
static const uint8_t small[] = {2, 1, 5, 0, 0, 0, 1, 7, 0, 0, 0};
static const uint8_t least[] = {2, 1, 1, 0, 0, 128, 1, 255, 255, 255, 255};
static const uint8_t large[] = {2, 1, 255, 255, 255, 127, 1, 1, 0, 0, 0};

static void source(const uint8_t *file, size_t length, const uint8_t *input, uint64_t fuel) {
    uint8_t output[11] = {0};
    uint64_t answer[HOGVAX_SOURCE_SLOTS] = {0};
    uint32_t number = hogvax_source(file, length, input, 11, fuel, output, sizeof output,
                                    values, HOGVAX_VALUE_WORDS, returns, HOGVAX_RETURN_WORDS,
                                    answer, HOGVAX_SOURCE_SLOTS);
    printf("%" PRIu32 " %" PRIu64 " %" PRIu64 " %" PRIu64 " %" PRId64,
           number, answer[HOGVAX_POSITION], answer[HOGVAX_SOURCE_BEGUN],
           answer[HOGVAX_SOURCE_WRITTEN], (int64_t)answer[HOGVAX_SOURCE_NUMBER]);
    printf(" tips %" PRIu64 " depth %" PRIu64 "\n",
           answer[HOGVAX_SOURCE_TIPS], answer[HOGVAX_SOURCE_DEPTH]);
}

int main(void) {
    static uint8_t file[HOGVAX_LONGEST_FILE];
    uint64_t answer[HOGVAX_ANSWER_SLOTS] = {0};
    hogvax_pack(grow, sizeof grow, file, sizeof file, answer, HOGVAX_ANSWER_SLOTS);
    source(file, (size_t)answer[HOGVAX_BYTES], small, 14);
    source(file, (size_t)answer[HOGVAX_BYTES], small, 13);
    hogvax_pack(sum, sizeof sum, file, sizeof file, answer, HOGVAX_ANSWER_SLOTS);
    source(file, (size_t)answer[HOGVAX_BYTES], least, 8);
    source(file, (size_t)answer[HOGVAX_BYTES], large, 8);
    source(file, 0, large, 8);
    return 0;
}
"#;

#[test]
fn a_source_run_answers_at_its_slots() {
    let output = succeed(&mut Command::new(build_with_grow(SOURCE, "slots")));
    let lines = [
        "0 0 14 11 0 tips 2 depth 1\n",
        "14 0 13 0 0 tips 0 depth 0\n",
        "0 0 8 0 -2147483648 tips 2 depth 1\n",
        "21 4 8 0 0 tips 0 depth 0\n",
        "1 0 0 0 0 tips 0 depth 0\n",
    ];
    assert_eq!(String::from_utf8_lossy(&output.stdout), lines.concat());
}

/// A node of a leaf and two leaves, with a byte after it; the last leaf alone; and
/// what is refused: a line each with what C finds at the slots, as a program finds it
/// that lends `SLOTS` slots.
const TREE: &str = r#"
#include <inttypes.h>
#include <stdio.h>
#include "hogvax.h"

static const uint8_t tokens[] = {2, 1, 5, 0, 0, 0, 2, 1, 6, 0, 0, 0, 1, 7, 0, 0, 0, 9};

static void tree(size_t start, size_t end) {
    uint64_t answer[SLOTS] = {0};
    uint32_t number = hogvax_tree(tokens + start, end - start, answer, SLOTS);
    printf("%" PRIu32 " %" PRIu64 " bytes %" PRIu64, number, answer[HOGVAX_POSITION],
           answer[HOGVAX_BYTES]);
    printf(" tips %" PRIu64 " depth %" PRIu64 "\n", answer[HOGVAX_TIPS], answer[HOGVAX_DEPTH]);
}

int main(void) {
    tree(0, 18);
    tree(12, 17);
    tree(0, 16);
    tree(17, 18);
    return 0;
}
"#;

/// A program that was written for the first header lends `HOGVAX_ANSWER_SLOTS`, and
/// need only be compiled again.
#[test]
fn the_tree_reader_answers_at_its_slots() {
    let lines = [
        "0 0 bytes 17 tips 3 depth 2\n",
        "0 0 bytes 5 tips 1 depth 0\n",
        "15 13 bytes 0 tips 0 depth 0\n",
        "16 0 bytes 0 tips 0 depth 0\n",
    ];
    for slots in ["HOGVAX_TREE_SLOTS", "HOGVAX_ANSWER_SLOTS"] {
        let text = format!("#define SLOTS {slots}\n{TREE}");
        let output = succeed(&mut Command::new(build_text(
            &text,
            &format!("tree-{slots}"),
        )));
        assert_eq!(String::from_utf8_lossy(&output.stdout), lines.concat());
    }
}
