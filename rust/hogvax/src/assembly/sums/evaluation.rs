//! A program evaluated on a tree up to its first sum that is out of range.
//!
//! What is still to be done is on a stack of its own, and no more than 1,024
//! calls are open, so memory is bounded whatever the tree; time is bounded by the
//! expressions that may begin. Whatever is not as in a program that passes pass
//! one, on a tree that the tree reader takes, ends the evaluation.

use super::super::outline::Outline;
use super::super::records::{Record, ADD, CALL, CASE, CONST, IF_ZERO, LEAF, LET, NODE, VAR};

/// The most calls open at once, the first one counted.
const MOST_OPEN: usize = 1_024;

/// The bytes of a leaf: its tag and its label.
const LEAF_BYTES: usize = 5;

/// A sum that is out of range: the record of its Add, and its two numbers.
pub struct Sum {
    pub record: usize,
    pub first: i32,
    pub second: i32,
}

/// A program by record numbers, the header being record 0.
pub struct Program {
    records: Vec<Record>,
    /// The records of each record's parts.
    parts: Vec<Vec<usize>>,
    /// The first node of each function.
    entries: Vec<usize>,
}

impl Program {
    /// The program of these records, 8 bytes each.
    pub fn new(records: &[u8]) -> Program {
        let outline = Outline::new(records);
        let records: Vec<Record> = (0..)
            .map_while(|number| Record::nth(records, number))
            .collect();
        let mut parts = vec![Vec::new(); records.len()];
        for node in outline
            .functions
            .iter()
            .flat_map(|function| &function.nodes)
        {
            let whole = node.whole.and_then(|(whole, _)| parts.get_mut(whole));
            if let Some(whole) = whole {
                whole.push(node.number);
            }
        }
        Program {
            records,
            parts,
            entries: outline
                .functions
                .iter()
                .map(|function| function.first)
                .collect(),
        }
    }

    pub fn record(&self, number: usize) -> Option<Record> {
        self.records.get(number).copied()
    }

    /// The record of a part, counted from 0.
    pub fn part(&self, number: usize, part: usize) -> Option<usize> {
        self.parts.get(number)?.get(part).copied()
    }
}

/// Where a tree begins in the tokens.
#[derive(Clone, Copy)]
enum Start {
    At(usize),
    /// After the tree that begins there: the right tree of the node before it.
    /// Its offset is found when it is needed.
    After(usize),
}

/// The names of an open call.
struct Scope {
    numbers: Vec<i32>,
    trees: Vec<Start>,
    /// Where its own tree begins, and where the node whose right tree that is.
    own: usize,
    right_of: Option<usize>,
}

/// What is still to be done. Numbers in brackets are records.
enum Task {
    Begin(usize),
    /// The two numbers of an Add stand.
    Add(usize),
    /// The test of an IfZero stands.
    Choose(usize),
    /// The number of a Let stands.
    Bind(usize),
    /// The label of a Leaf stands.
    Label,
    /// The arguments of a Call stand.
    Open(usize),
    /// Back to so many names of numbers and of trees.
    Forget(usize, usize),
    Close,
}

/// The first sum that is out of range, where the program comes to it on the tree
/// that begins `tokens` and has then begun precisely so many expressions.
pub fn evaluate(program: &Program, tokens: &[u8], begun: u64) -> Option<Sum> {
    let mut evaluation = Evaluation {
        program,
        tokens,
        left: begun,
        tasks: vec![Task::Begin(*program.entries.first()?)],
        numbers: Vec::new(),
        scopes: vec![Scope::new(Vec::new(), 0, None)],
        passed: (0, 0),
    };
    let sum = evaluation.first_sum()?;
    (evaluation.left == 0).then_some(sum)
}

struct Evaluation<'a> {
    program: &'a Program,
    tokens: &'a [u8],
    /// How many expressions may still begin.
    left: u64,
    /// The next one last.
    tasks: Vec<Task>,
    /// The numbers that wait for others.
    numbers: Vec<i32>,
    /// One for each open call.
    scopes: Vec<Scope>,
    /// The start and the end of the last tree whose end is known: mostly the
    /// tree that stands before the one needed next.
    passed: (usize, usize),
}

impl Scope {
    fn new(numbers: Vec<i32>, own: usize, right_of: Option<usize>) -> Scope {
        Scope {
            numbers,
            trees: vec![Start::At(own)],
            own,
            right_of,
        }
    }
}

impl Evaluation<'_> {
    /// Goes on up to the first sum that is out of range; `None` if there is none.
    fn first_sum(&mut self) -> Option<Sum> {
        loop {
            match self.tasks.pop()? {
                Task::Add(record) => {
                    let (second, first) = (self.numbers.pop()?, self.numbers.pop()?);
                    match first.checked_add(second) {
                        Some(sum) => self.numbers.push(sum),
                        None => {
                            return Some(Sum {
                                record,
                                first,
                                second,
                            })
                        }
                    }
                }
                task => self.perform(task)?,
            }
        }
    }

    fn perform(&mut self, task: Task) -> Option<()> {
        match task {
            Task::Begin(number) => {
                self.left = self.left.checked_sub(1)?;
                self.begin(number)?;
            }
            Task::Choose(number) => {
                let part = if self.numbers.pop()? == 0 { 1 } else { 2 };
                self.begin_part(number, part)?;
            }
            Task::Bind(number) => {
                let bound = self.numbers.pop()?;
                self.begin_with(number, 1, &[bound], &[])?;
            }
            Task::Label => drop(self.numbers.pop()?),
            Task::Open(number) => self.open(number)?,
            Task::Forget(numbers, trees) => {
                let scope = self.scopes.last_mut()?;
                scope.numbers.truncate(numbers);
                scope.trees.truncate(trees);
            }
            Task::Close => self.close()?,
            Task::Add(_) => return None,
        }
        Some(())
    }

    /// Begins an expression.
    fn begin(&mut self, number: usize) -> Option<()> {
        let Record { kind, a, i, .. } = self.program.record(number)?;
        match kind {
            CONST => self.numbers.push(i),
            VAR => {
                let value = *self.scopes.last()?.numbers.get(usize::from(a))?;
                self.numbers.push(value);
            }
            ADD => self.begin_parts(number, Some(Task::Add(number))),
            IF_ZERO => self.begin_first(number, Task::Choose(number))?,
            LET => self.begin_first(number, Task::Bind(number))?,
            LEAF => self.begin_parts(number, Some(Task::Label)),
            NODE => self.begin_parts(number, None),
            CASE => self.case(number, usize::from(a))?,
            CALL => self.begin_parts(number, Some(Task::Open(number))),
            _ => return None,
        }
        Some(())
    }

    /// All parts in order, and then this.
    fn begin_parts(&mut self, number: usize, then: Option<Task>) {
        self.tasks.extend(then);
        let parts = self.program.parts.get(number).into_iter().flatten();
        self.tasks
            .extend(parts.rev().map(|&part| Task::Begin(part)));
    }

    /// The first part, and then this.
    fn begin_first(&mut self, number: usize, then: Task) -> Option<()> {
        self.tasks.push(then);
        self.begin_part(number, 0)
    }

    fn begin_part(&mut self, number: usize, part: usize) -> Option<()> {
        let part = self.program.part(number, part)?;
        self.tasks.push(Task::Begin(part));
        Some(())
    }

    /// A part under these further names.
    fn begin_with(
        &mut self,
        number: usize,
        part: usize,
        numbers: &[i32],
        trees: &[Start],
    ) -> Option<()> {
        let scope = self.scopes.last_mut()?;
        let forget = Task::Forget(scope.numbers.len(), scope.trees.len());
        scope.numbers.extend(numbers);
        scope.trees.extend(trees);
        self.tasks.push(forget);
        self.begin_part(number, part)
    }

    /// Takes the tree of this name apart.
    fn case(&mut self, number: usize, name: usize) -> Option<()> {
        let tree = self.start(self.named(name)?)?;
        match self.tokens.get(tree..)? {
            [1, a, b, c, d, ..] => {
                self.passed = (tree, tree + LEAF_BYTES);
                let label = i32::from_le_bytes([*a, *b, *c, *d]);
                self.begin_with(number, 0, &[label], &[])
            }
            [2, ..] => {
                let left = tree + 1;
                self.begin_with(number, 1, &[], &[Start::At(left), Start::After(left)])
            }
            _ => None,
        }
    }

    fn named(&self, name: usize) -> Option<Start> {
        self.scopes.last()?.trees.get(name).copied()
    }

    /// The offset at which a tree begins.
    fn start(&self, tree: Start) -> Option<usize> {
        match tree {
            Start::At(start) => Some(start),
            Start::After(left) if left == self.passed.0 => Some(self.passed.1),
            Start::After(left) => {
                let measures = crate::tree(self.tokens.get(left..)?).ok()?;
                Some(left + measures.bytes)
            }
        }
    }

    /// Opens a call, whose arguments stand.
    fn open(&mut self, number: usize) -> Option<()> {
        if self.scopes.len() == MOST_OPEN {
            return None;
        }
        let Record { a, b, .. } = self.program.record(number)?;
        let tree = self.named(usize::from(a))?;
        let own = self.start(tree)?;
        let right_of = match tree {
            Start::At(_) => None,
            Start::After(left) => left.checked_sub(1),
        };
        let arguments = self.program.parts.get(number)?.len();
        let first = self.numbers.len().checked_sub(arguments)?;
        let arguments = self.numbers.split_off(first);
        self.scopes.push(Scope::new(arguments, own, right_of));
        self.tasks.push(Task::Close);
        let entry = *self.program.entries.get(usize::from(b))?;
        self.tasks.push(Task::Begin(entry));
        Some(())
    }

    /// Closes a call. A right tree ends where its node does: where the end of the
    /// one is known, so is that of the other.
    fn close(&mut self) -> Option<()> {
        let scope = self.scopes.pop()?;
        if let (Some(node), true) = (scope.right_of, self.passed.0 == scope.own) {
            self.passed.0 = node;
        }
        Some(())
    }
}
