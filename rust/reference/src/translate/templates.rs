//! The templates of the table. Parts are put in the place of their names in a
//! template until only lines of code are left.

use crate::machine::{mnemonic, Instruction};
use crate::program::{Expr, Function, Program};

use super::lines::{Label, Line};

/// What holds on entering an expression.
#[derive(Clone)]
struct Scope {
    /// A tree is expected here, or else a number.
    tree: bool,
    /// The words above the frame's base.
    words: u16,
    /// For each number name the word that it was bound to.
    names: Vec<u16>,
}

impl Scope {
    /// "arguments, the new frame's first words"; "Names count from 0 along the
    /// path: parameters first".
    fn of_body(function: &Function) -> Scope {
        let parameters = u16::from(function.parameters);
        Scope {
            tree: function.tree_valued,
            words: parameters,
            names: (0..parameters).collect(),
        }
    }

    /// For a part that is a number, with so many temporaries more below.
    fn number(&self, temporaries: u16) -> Scope {
        Scope {
            tree: false,
            words: self.words + temporaries,
            names: self.names.clone(),
        }
    }

    /// For a part after a number that stands in the next word and has the
    /// next name: "Let's body and Case's leaf part add one number name".
    fn one_more_name(&self) -> Scope {
        Scope {
            tree: self.tree,
            words: self.words + 1,
            names: [&self.names[..], &[self.words]].concat(),
        }
    }

    /// "\"end\" is slide where a number is expected, drop where a tree is."
    fn end(&self) -> Instruction {
        if self.tree {
            mnemonic::drop_word()
        } else {
            mnemonic::slide()
        }
    }
}

/// A line of a template, or the name of a part.
enum Item<'a> {
    Line(Line),
    Part(&'a Expr, Scope),
}

fn whole<'a>(instruction: Instruction) -> Item<'a> {
    Item::Line(Line::Whole(instruction))
}

fn to<'a>(instruction: Instruction, label: Label) -> Item<'a> {
    Item::Line(Line::To(instruction, label))
}

fn here<'a>(label: Label) -> Item<'a> {
    Item::Line(Line::Here(label))
}

/// The code of all functions, with names for addresses.
pub fn lines(program: &Program) -> Vec<Line> {
    let mut lines = Vec::new();
    let mut unused = program.functions.len();
    for (b, function) in program.functions.iter().enumerate() {
        let mut pending = of_function(b, function);
        pending.reverse();
        while let Some(item) = pending.pop() {
            match item {
                Item::Line(line) => lines.push(line),
                Item::Part(expr, scope) => {
                    pending.extend(template(expr, &scope, unused).into_iter().rev());
                    unused += 2;
                }
            }
        }
    }
    lines
}

/// "A function is its body, then return"; "return (byte 1: 0 or 1 words
/// kept".
fn of_function(b: usize, function: &Function) -> Vec<Item<'_>> {
    let kept = u8::from(!function.tree_valued);
    vec![
        here(b),
        Item::Part(&function.body, Scope::of_body(function)),
        whole(mnemonic::ret(kept)),
    ]
}

/// The column "code" of the table. Names L and M are the unused one and the
/// next; operands are put in later.
fn template<'a>(expr: &'a Expr, scope: &Scope, unused: Label) -> Vec<Item<'a>> {
    use Item::Part;
    let (l, m) = (unused, unused + 1);
    match expr {
        Expr::Const(i) => vec![whole(mnemonic::push(*i))],
        Expr::Var(a) => vec![whole(mnemonic::get(scope.names[usize::from(*a)]))],
        Expr::Add(p, q) => vec![
            Part(p, scope.number(0)),
            Part(q, scope.number(1)),
            whole(mnemonic::add()),
        ],
        Expr::IfZero(t, z, o) => vec![
            Part(t, scope.number(0)),
            to(mnemonic::ifnot(0), l),
            Part(z, scope.clone()),
            to(mnemonic::jump(0), m),
            here(l),
            Part(o, scope.clone()),
            here(m),
        ],
        Expr::Let(p, body) => vec![
            Part(p, scope.number(0)),
            Part(body, scope.one_more_name()),
            whole(scope.end()),
        ],
        Expr::Leaf(p) => vec![
            whole(mnemonic::leaf_tag()),
            Part(p, scope.number(0)),
            whole(mnemonic::write_number()),
        ],
        Expr::Node(p, q) => vec![
            whole(mnemonic::node_tag()),
            Part(p, scope.clone()),
            Part(q, scope.clone()),
        ],
        Expr::Case(_, p, q) => case(p, q, scope, l, m),
        Expr::Call(_, b, arguments) => call(*b, arguments, scope),
    }
}

/// "read tag L, read number, p, end, jump M, L: q, M:"
fn case<'a>(p: &'a Expr, q: &'a Expr, scope: &Scope, l: Label, m: Label) -> Vec<Item<'a>> {
    vec![
        to(mnemonic::read_tag(0), l),
        whole(mnemonic::read_number()),
        Item::Part(p, scope.one_more_name()),
        whole(scope.end()),
        to(mnemonic::jump(0), m),
        here(l),
        Item::Part(q, scope.clone()),
        here(m),
    ]
}

/// "arguments, call"; "call (operand: entry; byte 1: arguments". The arguments
/// before one are temporaries below it.
fn call<'a>(b: u16, arguments: &'a [Expr], scope: &Scope) -> Vec<Item<'a>> {
    let parts = (0..).zip(arguments);
    let mut items: Vec<Item<'a>> = parts
        .map(|(k, argument)| Item::Part(argument, scope.number(k)))
        .collect();
    let count = arguments.len() as u8;
    items.push(to(mnemonic::call(0, count), usize::from(b)));
    items
}
