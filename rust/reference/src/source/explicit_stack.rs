//! The source evaluation with fuel once more, for tests: over flat records and
//! tokens, with an explicit stack of what is still to be done, and with the
//! result written as it comes. It shares nothing with `evaluate` but the sum of
//! two numbers.

use crate::program::{kind, part_count, Record};
use crate::sum::{exact_sum, EndSums};
use crate::tree::{tree_end, Refusal};

/// A program's records.
pub struct Records {
    parameters: Vec<u8>,
    /// The first node of each function.
    entries: Vec<usize>,
    nodes: Vec<Record>,
    /// The first nodes of each node's parts.
    parts: Vec<Vec<usize>>,
}

/// What an evaluation gives.
#[derive(Clone, Debug, PartialEq, Eq)]
pub struct Outcome {
    /// 14 or 18, at 0, or 21 at the Add's record.
    pub refused: Option<Refusal>,
    pub begun: u64,
    /// What was written before the end or the refusal.
    pub written: Vec<u8>,
    pub number: i32,
    /// The kinds of the expressions begun; IfZero and Case by the part that
    /// they took, whose number is the second.
    pub begun_kinds: Vec<(u8, usize)>,
    /// The greatest tree name that a Case or Call took.
    pub greatest_name: usize,
    /// The greatest number of calls open.
    pub open: usize,
    pub end_sums: EndSums,
}

/// The names of a call: its numbers, and where in the tokens its trees begin.
struct Names {
    numbers: Vec<i32>,
    trees: Vec<usize>,
}

/// What is still to be done, with the node that it is for.
enum Task {
    Take(usize),
    AddFor(usize),
    PickOf(usize),
    NameFor(usize),
    WriteLabel,
    OpenFor(usize),
    /// So many number names and tree names were bound.
    Forget(usize, usize),
    /// The caller's names.
    Close(Names),
}

impl Records {
    /// Of a program that passes the rows header to prefix form.
    pub fn new(records: &[u8]) -> Records {
        let all = Record::list(records);
        let (functions, nodes) = all[1..].split_at(usize::from(all[0].a));
        let mut next = 0;
        let entries = functions.iter().map(|function| {
            next += usize::from(function.b);
            next - usize::from(function.b)
        });
        let entries = entries.collect();
        let parameters: Vec<u8> = functions.iter().map(|function| function.a).collect();
        Records {
            entries,
            parts: parts(nodes, &parameters),
            parameters,
            nodes: nodes.to_vec(),
        }
    }

    /// Evaluates on the tree at the start of these bytes.
    pub fn evaluate(&self, tokens: &[u8], fuel: u64, most_open: usize) -> Outcome {
        let mut run = Run {
            records: self,
            tokens,
            fuel,
            most_open,
            open: 1,
            tasks: vec![Task::Take(self.entries[0])],
            values: Vec::new(),
            names: Names {
                numbers: vec![],
                trees: vec![0],
            },
            outcome: Outcome {
                refused: None,
                begun: 0,
                written: vec![],
                number: 0,
                begun_kinds: vec![],
                greatest_name: 0,
                open: 1,
                end_sums: EndSums::default(),
            },
        };
        run.finish();
        let mut outcome = run.outcome;
        if outcome.refused.is_none() {
            outcome.number = run.values.pop().unwrap_or(0);
        }
        outcome
    }
}

/// The first nodes of each node's parts: `firsts` holds those of the
/// expressions that the nodes after the present one make up, the next one
/// last.
fn parts(nodes: &[Record], parameters: &[u8]) -> Vec<Vec<usize>> {
    let mut parts = vec![vec![]; nodes.len()];
    let mut firsts = Vec::new();
    for (node, &record) in nodes.iter().enumerate().rev() {
        let count = part_count(record, parameters).expect("a right record");
        parts[node] = firsts.split_off(firsts.len() - count);
        parts[node].reverse();
        firsts.push(node);
    }
    parts
}

struct Run<'a> {
    records: &'a Records,
    tokens: &'a [u8],
    fuel: u64,
    most_open: usize,
    open: usize,
    /// The next one last.
    tasks: Vec<Task>,
    values: Vec<i32>,
    names: Names,
    outcome: Outcome,
}

impl Run<'_> {
    fn finish(&mut self) {
        while self.outcome.refused.is_none() {
            let Some(task) = self.tasks.pop() else {
                return;
            };
            self.perform(task);
        }
    }

    fn perform(&mut self, task: Task) {
        match task {
            Task::Take(_) if self.outcome.begun == self.fuel => self.refuse(14, 0),
            Task::Take(node) => {
                self.outcome.begun += 1;
                self.take(node);
            }
            Task::AddFor(node) => self.add(node),
            Task::PickOf(node) => {
                let which = if self.value() == 0 { 1 } else { 2 };
                self.take_branch(node, which);
            }
            Task::NameFor(node) => {
                let number = self.value();
                let body = self.records.parts[node][1];
                self.take_with(body, vec![number], vec![]);
            }
            Task::WriteLabel => {
                let label = self.value();
                self.outcome.written.push(1);
                self.outcome.written.extend(label.to_le_bytes());
            }
            Task::OpenFor(_) if self.open == self.most_open => self.refuse(18, 0),
            Task::OpenFor(node) => self.open(node),
            Task::Forget(numbers, trees) => {
                self.names.numbers.truncate(numbers);
                self.names.trees.truncate(trees);
            }
            Task::Close(caller) => {
                self.names = caller;
                self.open -= 1;
            }
        }
    }

    fn refuse(&mut self, number: u8, position: usize) {
        self.outcome.refused = Some(Refusal { number, position });
    }

    /// The header and the function records stand before the nodes.
    fn add(&mut self, node: usize) {
        let (right, left) = (self.value(), self.value());
        match exact_sum(left, right) {
            None => self.refuse(21, 1 + self.records.entries.len() + node),
            Some(sum) => {
                self.outcome.end_sums.count(sum);
                self.values.push(sum);
            }
        }
    }

    fn value(&mut self) -> i32 {
        self.values.pop().expect("a number")
    }

    /// Puts tasks in front, the first one first.
    fn then(&mut self, tasks: Vec<Task>) {
        self.tasks.extend(tasks.into_iter().rev());
    }

    fn take(&mut self, node: usize) {
        let Record { kind, a, i, .. } = self.records.nodes[node];
        let parts = &self.records.parts[node];
        if !matches!(kind, kind::IF_ZERO | kind::CASE) {
            self.outcome.begun_kinds.push((kind, 0));
        }
        match kind {
            kind::CONST => self.values.push(i as i32),
            kind::VAR => self.values.push(self.names.numbers[usize::from(a)]),
            kind::ADD => {
                let (p, q) = (Task::Take(parts[0]), Task::Take(parts[1]));
                self.then(vec![p, q, Task::AddFor(node)]);
            }
            kind::IF_ZERO => self.then(vec![Task::Take(parts[0]), Task::PickOf(node)]),
            kind::LET => self.then(vec![Task::Take(parts[0]), Task::NameFor(node)]),
            kind::LEAF => self.then(vec![Task::Take(parts[0]), Task::WriteLabel]),
            kind::NODE => {
                self.outcome.written.push(2);
                self.then(vec![Task::Take(parts[0]), Task::Take(parts[1])]);
            }
            kind::CASE => self.case(node),
            _ => {
                let mut tasks: Vec<Task> = parts.iter().copied().map(Task::Take).collect();
                tasks.push(Task::OpenFor(node));
                self.then(tasks);
            }
        }
    }

    fn take_branch(&mut self, node: usize, which: usize) {
        let kind = self.records.nodes[node].kind;
        self.outcome.begun_kinds.push((kind, which));
        self.then(vec![Task::Take(self.records.parts[node][which])]);
    }

    /// Takes a part under these further names.
    fn take_with(&mut self, part: usize, numbers: Vec<i32>, trees: Vec<usize>) {
        let bound = (self.names.numbers.len(), self.names.trees.len());
        self.then(vec![Task::Take(part), Task::Forget(bound.0, bound.1)]);
        self.names.numbers.extend(numbers);
        self.names.trees.extend(trees);
    }

    fn tree(&mut self, node: usize) -> usize {
        let name = usize::from(self.records.nodes[node].a);
        self.outcome.greatest_name = self.outcome.greatest_name.max(name);
        self.names.trees[name]
    }

    fn case(&mut self, node: usize) {
        let place = self.tree(node);
        let parts = &self.records.parts[node];
        let is_node = self.tokens[place] == 2;
        let which = usize::from(is_node);
        self.outcome.begun_kinds.push((kind::CASE, which));
        if is_node {
            let left = place + 1;
            let right = left + tree_end(&self.tokens[left..]).expect("a tree");
            self.take_with(parts[1], vec![], vec![left, right]);
        } else {
            let label = self.tokens[place + 1..place + 5].try_into();
            let label = i32::from_le_bytes(label.expect("four bytes"));
            self.take_with(parts[0], vec![label], vec![]);
        }
    }

    fn open(&mut self, node: usize) {
        let b = usize::from(self.records.nodes[node].b);
        let tree = self.tree(node);
        let first = self.values.len() - usize::from(self.records.parameters[b]);
        let called = Names {
            numbers: self.values.split_off(first),
            trees: vec![tree],
        };
        let caller = std::mem::replace(&mut self.names, called);
        self.open += 1;
        self.outcome.open = self.outcome.open.max(self.open);
        let entry = self.records.entries[b];
        self.then(vec![Task::Take(entry), Task::Close(caller)]);
    }
}
