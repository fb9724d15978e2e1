//! The records by rows, and the longer kinds of damage to them; each gives
//! the position of the refusal.

use crate::generate::programs;
use crate::program::{kind, part_count, Record, PARAMETER_LIMIT};
use crate::random::Random;

/// A byte above this one: the next, the last, or any.
pub fn byte_above(random: &mut Random, byte: u8) -> u8 {
    let any = byte + 1 + random.below(usize::from(255 - byte)) as u8;
    random.pick(&[byte + 1, 255, any])
}

/// A number from `least` to `most`, at least two, that isn't this one.
pub fn other(random: &mut Random, number: usize, least: usize, most: usize) -> usize {
    loop {
        let other = least + random.below(most - least + 1);
        if other != number {
            return other;
        }
    }
}

/// Four bytes as a number, one of them not zero.
pub fn one_byte(random: &mut Random) -> u32 {
    (1 + random.below(255) as u32) << random.pick(&[0, 8, 16, 24])
}

/// The records by rows.
pub struct Rows {
    pub header: Record,
    pub functions: Vec<Record>,
    pub nodes: Vec<Record>,
}

impl Rows {
    pub fn new(records: &[u8]) -> Rows {
        let records = Record::list(records);
        let (functions, nodes) = records[1..].split_at(usize::from(records[0].a));
        Rows {
            header: records[0],
            functions: functions.to_vec(),
            nodes: nodes.to_vec(),
        }
    }

    pub fn bytes(&self) -> Vec<u8> {
        Record::bytes(&[&[self.header], &self.functions[..], &self.nodes[..]].concat())
    }

    fn parameters(&self) -> Vec<u8> {
        self.functions.iter().map(|function| function.a).collect()
    }

    /// The record number of a node.
    pub fn node_place(&self, node: usize) -> usize {
        1 + self.functions.len() + node
    }

    /// The record number of a function's first node.
    fn first_node_place(&self, function: usize) -> usize {
        let counts = self.functions[..function].iter();
        self.node_place(counts.map(|function| usize::from(function.b)).sum())
    }

    /// The function that a node belongs to.
    fn function_of(&self, node: usize) -> usize {
        let place = self.node_place(node);
        let functions = 0..self.functions.len();
        functions
            .rev()
            .find(|&k| self.first_node_place(k) <= place)
            .expect("function 0 has the first node")
    }

    /// No functions or more than 32, with that many records or not.
    pub fn function_range(&mut self, random: &mut Random) -> usize {
        let functions = random.pick(&[0, 33, 34, 35, 38, 128, 255]);
        self.header.a = functions as u8;
        if functions < 39 && random.below(2) == 0 {
            let last = self.functions[self.functions.len() - 1];
            self.functions.resize(functions, last);
        }
        0
    }

    /// No nodes or more than 1,024, with that many records or not.
    pub fn node_range(&mut self, random: &mut Random) -> usize {
        let nodes = random.pick(&[0, 1025, 1026, 1038, 2048, 32_768, 65_535]);
        self.header.b = nodes as u16;
        if nodes < 1039 && random.below(2) == 0 {
            let last = self.nodes[self.nodes.len() - 1];
            self.nodes.resize(nodes, last);
        }
        0
    }

    /// Nodes added or taken from the end.
    pub fn record_count(&mut self, random: &mut Random) -> usize {
        let parameters = self.parameters();
        if random.below(2) == 0 {
            for _ in 0..random.pick(&[1, 1, 2, 14]) {
                self.nodes.push(programs::record(random, 0, &parameters));
            }
        } else {
            let left = random.below(self.nodes.len());
            let left = random.pick(&[self.nodes.len() - 1, left]);
            self.nodes.truncate(left);
        }
        0
    }

    /// A count of 0; another function may get the nodes.
    pub fn zero_count(&mut self, random: &mut Random) -> usize {
        let k = random.below(self.functions.len());
        let count = self.functions[k].b;
        self.functions[k].b = 0;
        if self.functions.len() > 1 && random.below(2) == 0 {
            let heir = other(random, k, 0, self.functions.len() - 1);
            self.functions[heir].b += count;
        }
        1 + k
    }

    /// Adds 65,536 to the sum of one or more pairs of counts.
    pub fn count_sum_modulo(&mut self, random: &mut Random) -> Option<usize> {
        let functions = self.functions.len();
        if functions < 2 {
            return None;
        }
        let pairs = 1 + random.below(functions / 2);
        for pair in self.functions.chunks_exact_mut(2).take(pairs) {
            let sum = usize::from(pair[0].b) + usize::from(pair[1].b);
            let first = sum + 1 + random.below(65_535 - sum);
            pair[0].b = first as u16;
            pair[1].b = (65_536 + sum - first) as u16;
        }
        Some(functions)
    }

    /// A byte of a field that its kind doesn't use is not zero.
    pub fn unused_field(&mut self, random: &mut Random) -> usize {
        let n = random.below(self.nodes.len());
        let node = &mut self.nodes[n];
        let fields: &[char] = match node.kind {
            kind::CONST => &['a', 'b'],
            kind::VAR | kind::CASE => &['b', 'i'],
            kind::CALL => &['i'],
            _ => &['a', 'b', 'i'],
        };
        match random.pick(fields) {
            'a' => node.a = byte_above(random, 0),
            'b' => node.b = (1 + random.below(255) as u16) << random.pick(&[0, 8]),
            _ => node.i = one_byte(random),
        }
        self.node_place(n)
    }

    /// A Call, there before or not, of a function that isn't there.
    pub fn called_function(&mut self, random: &mut Random) -> usize {
        let calls: Vec<usize> = (0..self.nodes.len())
            .filter(|&n| self.nodes[n].kind == kind::CALL)
            .collect();
        let n = if calls.is_empty() || random.below(4) == 0 {
            random.below(self.nodes.len())
        } else {
            random.pick(&calls)
        };
        let functions = self.functions.len();
        let b = [
            functions,
            functions + 1,
            255,
            65_535,
            256 + random.below(functions),
        ];
        self.nodes[n] = Record {
            kind: kind::CALL,
            a: programs::name(random),
            b: random.pick(&b) as u16,
            i: 0,
        };
        self.node_place(n)
    }

    /// One function has fewer nodes counted, another more; the first of the
    /// two is refused.
    pub fn moved_nodes(&mut self, random: &mut Random) -> Option<usize> {
        let givers: Vec<usize> = (0..self.functions.len())
            .filter(|&k| self.functions[k].b > 1)
            .collect();
        if givers.is_empty() || self.functions.len() < 2 {
            return None;
        }
        let giver = random.pick(&givers);
        let taker = other(random, giver, 0, self.functions.len() - 1);
        let most = self.functions[giver].b - 1;
        let moved = 1 + random.below(usize::from(most)) as u16;
        let moved = random.pick(&[1, moved]);
        self.functions[giver].b -= moved;
        self.functions[taker].b += moved;
        Some(self.first_node_place(giver.min(taker)))
    }

    /// A record in the place of one with another number of parts.
    pub fn other_parts(&mut self, random: &mut Random) -> usize {
        let parameters = self.parameters();
        let n = random.below(self.nodes.len());
        let parts = part_count(self.nodes[n], &parameters).expect("a right record");
        let others: Vec<usize> = (0..4).filter(|&other| other != parts).collect();
        let parts = random.pick(&others);
        self.nodes[n] = programs::record(random, parts, &parameters);
        self.first_node_place(self.function_of(n))
    }

    /// The first function that calls the one changed is refused.
    pub fn called_parameters(&mut self, random: &mut Random) -> Option<usize> {
        let called: Vec<usize> = self
            .nodes
            .iter()
            .filter(|node| node.kind == kind::CALL && node.b > 0)
            .map(|node| usize::from(node.b))
            .collect();
        if called.is_empty() {
            return None;
        }
        let k = random.pick(&called);
        let parameters = usize::from(self.functions[k].a);
        self.functions[k].a = other(random, parameters, 0, PARAMETER_LIMIT) as u8;
        let mut nodes = self.nodes.iter();
        let n = nodes.position(|node| node.kind == kind::CALL && usize::from(node.b) == k)?;
        Some(self.first_node_place(self.function_of(n)))
    }
}
