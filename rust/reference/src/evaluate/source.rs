//! The evaluation itself, by recursion on the expression and the tree.

use crate::program::{Expr, Function, PARAMETER_LIMIT};
use crate::sum::exact_sum;
use crate::tree::Tree;

use super::{Ended, Evaluation, Value};

/// Why an evaluation is given up.
pub enum Halt {
    TooManyOpen,
    TooLong,
    SumOutOfRange,
}

/// Where the names of an open call begin.
#[derive(Clone, Copy, Default)]
struct Frame {
    numbers: usize,
    trees: usize,
}

pub struct Source<'a> {
    functions: &'a [Function],
    most_open: usize,
    most_begun: u64,
    begun: u64,
    /// The instructions that the templates have performed.
    units: u64,
    /// The Add whose sum is out of range.
    broken_at: Option<&'a Expr>,
    /// The calls open, and the greatest number of them so far.
    open: usize,
    greatest: usize,
    /// The numbers and trees named in the open calls, call after call, by
    /// name in each.
    numbers: Vec<i32>,
    trees: Vec<&'a Tree>,
    /// Of the call opened last.
    frame: Frame,
}

impl<'a> Source<'a> {
    pub fn new(functions: &'a [Function], most_open: usize, most_begun: u64) -> Source<'a> {
        Source {
            functions,
            most_open,
            most_begun,
            begun: 0,
            units: 0,
            broken_at: None,
            open: 0,
            greatest: 0,
            numbers: Vec::new(),
            trees: Vec::new(),
            frame: Frame::default(),
        }
    }

    /// "It starts in function 0's body, the tree being tree 0, with 0
    /// expressions begun and 1 call open."; "the result is function 0's
    /// value".
    pub fn start(&mut self, tree: &'a Tree) -> Result<Value, Halt> {
        if self.functions[0].tree_valued {
            Ok(Value::Tree(self.call(0, &[], tree)?))
        } else {
            Ok(Value::Number(self.call(0, &[], tree)?))
        }
    }

    pub fn begun(&self) -> u64 {
        self.begun
    }

    pub fn ended(&self, value: Value) -> Ended {
        Ended {
            value,
            begun: self.begun,
            open: self.greatest,
            units: self.units,
        }
    }

    /// Where the evaluation broke off. Function records stand before the
    /// nodes, which stand "function by function, in prefix order".
    pub fn out_of_range(&self) -> Evaluation {
        let bodies = self.functions.iter();
        let mut nodes = bodies.flat_map(|function| function.body.prefix());
        let add = self.broken_at.expect("an Add");
        let place = nodes.position(|node| std::ptr::eq(node, add));
        Evaluation::SumOutOfRange {
            record: 1 + self.functions.len() + place.expect("a node of the program"),
            begun: self.begun,
            units: self.units,
        }
    }

    /// "opens a call: b's body, with these numbers and the named tree alone;
    /// its value closes it and is the Call's."
    fn call<T: Given>(&mut self, b: u16, numbers: &[i32], tree: &'a Tree) -> Result<T, Halt> {
        if self.open >= self.most_open {
            return Err(Halt::TooManyOpen);
        }
        self.open += 1;
        self.greatest = self.greatest.max(self.open);
        let frame = Frame {
            numbers: self.numbers.len(),
            trees: self.trees.len(),
        };
        let caller = std::mem::replace(&mut self.frame, frame);
        self.numbers.extend_from_slice(numbers);
        self.trees.push(tree);
        let value = self.take(&self.functions[usize::from(b)].body)?;
        self.numbers.truncate(frame.numbers);
        self.trees.truncate(frame.trees);
        self.frame = caller;
        self.open -= 1;
        Ok(value)
    }

    /// "Each expression begun adds 1"
    fn begin(&mut self) -> Result<(), Halt> {
        if self.begun >= self.most_begun {
            return Err(Halt::TooLong);
        }
        self.begun += 1;
        Ok(())
    }

    /// "to take a part is to begin it and find its value."
    fn take<T: Given>(&mut self, expr: &'a Expr) -> Result<T, Halt> {
        self.begin()?;
        match expr {
            Expr::IfZero(test, zero, other) => match self.take::<i32>(test)? {
                0 => self.part_of([1, 1], zero),
                _ => self.part_of([1, 0], other),
            },
            Expr::Let(number, body) => {
                let number = self.take(number)?;
                self.with_number([0, 1], number, body)
            }
            Expr::Case(a, leaf, node) => match self.tree_named(*a) {
                Tree::Leaf(label) => self.with_number([2, 2], *label, leaf),
                Tree::Node(left, right) => self.with_trees([1, 0], [left, right], node),
            },
            Expr::Call(a, b, arguments) => {
                let mut numbers = [0; PARAMETER_LIMIT];
                let numbers = &mut numbers[..arguments.len()];
                for (number, argument) in numbers.iter_mut().zip(arguments) {
                    *number = self.take(argument)?;
                }
                self.units += 1;
                let value = self.call(*b, numbers, self.tree_named(*a))?;
                self.units += 1;
                Ok(value)
            }
            _ => T::by_its_own_kinds(self, expr),
        }
    }

    /// "IfZero, Let and Case have the value of the part taken last." Of their
    /// instructions so many come before that part, and so many after it.
    fn part_of<T: Given>(&mut self, [before, after]: [u64; 2], part: &'a Expr) -> Result<T, Halt> {
        self.units += before;
        let value = self.take(part)?;
        self.units += after;
        Ok(value)
    }

    /// The part last taken, where this number has the next name.
    fn with_number<T: Given>(
        &mut self,
        units: [u64; 2],
        number: i32,
        part: &'a Expr,
    ) -> Result<T, Halt> {
        self.numbers.push(number);
        let value = self.part_of(units, part)?;
        self.numbers.pop();
        Ok(value)
    }

    /// The part last taken, where these trees have the next names, "left
    /// first".
    fn with_trees<T: Given>(
        &mut self,
        units: [u64; 2],
        trees: [&'a Tree; 2],
        part: &'a Expr,
    ) -> Result<T, Halt> {
        self.trees.extend(trees);
        let value = self.part_of(units, part)?;
        self.trees.truncate(self.trees.len() - trees.len());
        Ok(value)
    }

    /// The value of an Add, N3: "tested when both numbers stand".
    fn sum(&mut self, add: &'a Expr, left: i32, right: i32) -> Result<i32, Halt> {
        exact_sum(left, right).ok_or_else(|| {
            self.broken_at = Some(add);
            Halt::SumOutOfRange
        })
    }

    fn number_named(&self, a: u8) -> i32 {
        self.numbers[self.frame.numbers + usize::from(a)]
    }

    fn tree_named(&self, a: u8) -> &'a Tree {
        self.trees[self.frame.trees + usize::from(a)]
    }
}

/// What an expression may be expected to give: a number or a tree.
trait Given: Sized {
    /// The value of an expression, already begun, that isn't of one of the
    /// kinds that give both.
    fn by_its_own_kinds<'a>(source: &mut Source<'a>, expr: &'a Expr) -> Result<Self, Halt>;
}

impl Given for i32 {
    fn by_its_own_kinds<'a>(source: &mut Source<'a>, expr: &'a Expr) -> Result<i32, Halt> {
        let number = match expr {
            Expr::Const(i) => *i,
            Expr::Var(a) => source.number_named(*a),
            Expr::Add(p, q) => {
                let left = source.take(p)?;
                let right = source.take(q)?;
                source.sum(expr, left, right)?
            }
            _ => panic!("pass one: a number is expected"),
        };
        source.units += 1;
        Ok(number)
    }
}

impl Given for Tree {
    fn by_its_own_kinds<'a>(source: &mut Source<'a>, expr: &'a Expr) -> Result<Tree, Halt> {
        match expr {
            Expr::Leaf(number) => {
                source.units += 1;
                let leaf = Tree::leaf(source.take(number)?);
                source.units += 1;
                Ok(leaf)
            }
            Expr::Node(p, q) => {
                source.units += 1;
                let left = source.take(p)?;
                let right = source.take(q)?;
                Ok(Tree::node(left, right))
            }
            _ => panic!("pass one: a tree is expected"),
        }
    }
}
