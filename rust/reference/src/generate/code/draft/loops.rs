//! Loops that fill the stack or open calls, counted by a number that each call
//! hands on less one, or by the tags of the input.

use crate::generate::label;
use crate::machine::mnemonic::{add, call, get, ifnot, jump, push, read_number, read_tag};
use crate::machine::OPEN_LIMIT;
use crate::random::Random;
use crate::tree::{LEAF_TAG, NODE_TAG};

use super::Draft;

impl Draft {
    /// Fills the stack to so many words, 8,000 or more.
    pub fn fill_to(&mut self, random: &mut Random, words: usize) {
        let missing = words - self.words;
        match random.below(4) {
            0 => {
                let bound = random.pick(&[60, OPEN_LIMIT - self.open - 5]);
                let frames = 5 + random.below(bound);
                self.calls_by_number(random, frames, (missing - 1) / frames - 1);
            }
            1 => {
                let each = 4 + random.below(500);
                self.words_by_tags(random, missing / each, each);
            }
            2 => {
                let each = 4 + random.below(500);
                self.labels_by_tags(random, missing / (each + 1), each);
            }
            _ => {
                let each = 18 + random.below(500);
                let calls = missing / each - 1;
                let arguments = random.below(18);
                self.calls_by_tags(random, calls, each, arguments);
            }
        }
        self.fillers(random, words - self.words);
    }

    /// Calls until so many are open, at least 2 more than now; each frame keeps
    /// a few words.
    pub fn open_to(&mut self, random: &mut Random, open: usize) {
        let bound = random.pick(&[3, 15]);
        let each = random.below(bound);
        let calls = open - self.open;
        if random.below(2) == 0 {
            self.calls_by_number(random, calls, each);
        } else {
            let arguments = random.below(each + 1);
            self.calls_by_tags(random, calls, each, arguments);
        }
    }

    /// So many words: a number, then numbers or the frame's first word.
    fn fillers(&mut self, random: &mut Random, count: usize) {
        for place in 0..count {
            match random.below(2) {
                0 if place > 0 => self.pushing(get(0)),
                _ => self.pushing(push(label(random))),
            }
        }
    }

    /// So many calls, at least 1: each frame has the number of calls to come
    /// as its argument, and so many words more.
    fn calls_by_number(&mut self, random: &mut Random, calls: usize, each: usize) {
        self.pushing(push(calls as i32 - 1));
        self.call(1);
        let entry = self.here();
        self.fillers(random, each);
        let test = self.here();
        self.put(get(0));
        self.put(ifnot(test + 3));
        self.put(jump(test + 7));
        self.put(get(0));
        self.put(push(-1));
        self.put(add());
        self.put(call(entry, 1));
        self.words += (calls - 1) * (each + 1);
        self.open += calls - 1;
    }

    /// So many calls, counted by node tags: each frame adds so many words, and
    /// hands on some of them.
    pub fn calls_by_tags(
        &mut self,
        random: &mut Random,
        calls: usize,
        each: usize,
        arguments: usize,
    ) {
        let entry = self.here();
        self.fillers(random, each);
        let test = self.here();
        self.put(read_tag(test + 2));
        self.put(jump(test + 3));
        self.put(call(entry, arguments as u8));
        self.input.extend(vec![NODE_TAG; calls]);
        self.input.push(LEAF_TAG);
        self.words += calls * each;
        self.open += calls;
        if calls > 0 {
            self.above = arguments + each;
        }
    }

    /// So many times so many words in one frame, counted by node tags.
    fn words_by_tags(&mut self, random: &mut Random, times: usize, each: usize) {
        let start = self.here();
        self.fillers(random, each);
        self.put(read_tag(start));
        self.input.extend(vec![NODE_TAG; times - 1]);
        self.input.push(LEAF_TAG);
        self.words += (times - 1) * each;
        self.above += (times - 1) * each;
    }

    /// So many labels in one frame, each with so many words after it, ended by
    /// a node tag.
    fn labels_by_tags(&mut self, random: &mut Random, times: usize, each: usize) {
        let start = self.here();
        let behind = start + 3 + each as u16;
        self.put(read_tag(behind));
        self.pushing(read_number());
        self.fillers(random, each);
        self.put(jump(start));
        for _ in 0..times {
            self.input.push(LEAF_TAG);
            self.input.extend(label(random).to_le_bytes());
        }
        self.input.push(NODE_TAG);
        self.words += (times - 1) * (each + 1);
        self.above += (times - 1) * (each + 1);
    }
}
