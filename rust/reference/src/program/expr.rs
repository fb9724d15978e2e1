//! Expressions. They may be as deep as they are long: nothing here recurs on
//! an expression.

use std::fmt;
use std::mem;

use super::record::{kind, Record};

/// An expression: the operands of its record, a before b, then its parts in
/// order.
pub enum Expr {
    /// i
    Const(i32),
    /// "a: number name"
    Var(u8),
    /// "two numbers"
    Add(Box<Expr>, Box<Expr>),
    /// "test, zero part, other part"
    IfZero(Box<Expr>, Box<Expr>, Box<Expr>),
    /// "number, body"
    Let(Box<Expr>, Box<Expr>),
    /// "number"
    Leaf(Box<Expr>),
    /// "two trees"
    Node(Box<Expr>, Box<Expr>),
    /// "a: tree name; leaf part, node part"
    Case(u8, Box<Expr>, Box<Expr>),
    /// "a: tree name, b: function; its number arguments"
    Call(u8, u16, Vec<Expr>),
}

impl Expr {
    pub fn constant(i: i32) -> Expr {
        Expr::Const(i)
    }

    pub fn var(a: u8) -> Expr {
        Expr::Var(a)
    }

    pub fn plus(left: Expr, right: Expr) -> Expr {
        Expr::Add(Box::new(left), Box::new(right))
    }

    pub fn if_zero(test: Expr, zero: Expr, other: Expr) -> Expr {
        Expr::IfZero(Box::new(test), Box::new(zero), Box::new(other))
    }

    pub fn let_in(number: Expr, body: Expr) -> Expr {
        Expr::Let(Box::new(number), Box::new(body))
    }

    pub fn leaf(number: Expr) -> Expr {
        Expr::Leaf(Box::new(number))
    }

    pub fn node(left: Expr, right: Expr) -> Expr {
        Expr::Node(Box::new(left), Box::new(right))
    }

    pub fn case(a: u8, leaf: Expr, node: Expr) -> Expr {
        Expr::Case(a, Box::new(leaf), Box::new(node))
    }

    /// A call of function b on tree a.
    pub fn call(a: u8, b: u16, arguments: Vec<Expr>) -> Expr {
        Expr::Call(a, b, arguments)
    }

    /// The record of the expression without its parts: "unused ones zero".
    pub fn record(&self) -> Record {
        let (kind, a, b, i) = match *self {
            Expr::Const(i) => (kind::CONST, 0, 0, i as u32),
            Expr::Var(a) => (kind::VAR, a, 0, 0),
            Expr::Add(..) => (kind::ADD, 0, 0, 0),
            Expr::IfZero(..) => (kind::IF_ZERO, 0, 0, 0),
            Expr::Let(..) => (kind::LET, 0, 0, 0),
            Expr::Leaf(..) => (kind::LEAF, 0, 0, 0),
            Expr::Node(..) => (kind::NODE, 0, 0, 0),
            Expr::Case(a, ..) => (kind::CASE, a, 0, 0),
            Expr::Call(a, b, _) => (kind::CALL, a, b, 0),
        };
        Record { kind, a, b, i }
    }

    /// The parts in order.
    pub fn parts(&self) -> Vec<&Expr> {
        match self {
            Expr::Const(_) | Expr::Var(_) => vec![],
            Expr::Leaf(p) => vec![p],
            Expr::Add(p, q) | Expr::Let(p, q) | Expr::Node(p, q) => vec![p, q],
            Expr::Case(_, p, q) => vec![p, q],
            Expr::IfZero(t, z, o) => vec![t, z, o],
            Expr::Call(_, _, arguments) => arguments.iter().collect(),
        }
    }

    fn parts_mut(&mut self) -> Vec<&mut Expr> {
        match self {
            Expr::Const(_) | Expr::Var(_) => vec![],
            Expr::Leaf(p) => vec![p],
            Expr::Add(p, q) | Expr::Let(p, q) | Expr::Node(p, q) => vec![p, q],
            Expr::Case(_, p, q) => vec![p, q],
            Expr::IfZero(t, z, o) => vec![t, z, o],
            Expr::Call(_, _, arguments) => arguments.iter_mut().collect(),
        }
    }

    /// The expression of this record with these parts, if the kind is one of
    /// the nine and has so many parts; a Call has any number of them.
    pub fn from_record(record: Record, parts: Vec<Expr>) -> Option<Expr> {
        if record.kind == kind::CALL {
            return Some(Expr::Call(record.a, record.b, parts));
        }
        let mut parts = parts.into_iter().map(Box::new);
        let mut part = || parts.next();
        let expr = match record.kind {
            kind::CONST => Expr::Const(record.i as i32),
            kind::VAR => Expr::Var(record.a),
            kind::ADD => Expr::Add(part()?, part()?),
            kind::IF_ZERO => Expr::IfZero(part()?, part()?, part()?),
            kind::LET => Expr::Let(part()?, part()?),
            kind::LEAF => Expr::Leaf(part()?),
            kind::NODE => Expr::Node(part()?, part()?),
            kind::CASE => Expr::Case(record.a, part()?, part()?),
            _ => return None,
        };
        parts.next().is_none().then_some(expr)
    }

    /// The expression and all under it "in prefix order": each before its
    /// parts.
    pub fn prefix(&self) -> Vec<&Expr> {
        let mut exprs = Vec::new();
        let mut pending = vec![self];
        while let Some(expr) = pending.pop() {
            exprs.push(expr);
            pending.extend(expr.parts().into_iter().rev());
        }
        exprs
    }

    /// The records in prefix order, each with the number of its parts.
    pub fn prefix_records(&self) -> Vec<(Record, usize)> {
        self.prefix()
            .iter()
            .map(|expr| (expr.record(), expr.parts().len()))
            .collect()
    }

    /// The expression with these records in prefix order, each with the
    /// number of its parts, if they are exactly one expression. `exprs` holds
    /// the expressions that the records after the present one make up, the
    /// first one last.
    pub fn from_prefix(records: &[(Record, usize)]) -> Option<Expr> {
        let mut exprs = Vec::new();
        for &(record, count) in records.iter().rev() {
            let mut parts = Vec::new();
            for _ in 0..count {
                parts.push(exprs.pop()?);
            }
            exprs.push(Expr::from_record(record, parts)?);
        }
        let expr = exprs.pop()?;
        exprs.is_empty().then_some(expr)
    }

    /// The number of records nested in each other at the deepest place.
    pub fn depth(&self) -> usize {
        let mut deepest = 0;
        let mut pending = vec![(self, 1)];
        while let Some((expr, depth)) = pending.pop() {
            deepest = deepest.max(depth);
            pending.extend(expr.parts().into_iter().map(|part| (part, depth + 1)));
        }
        deepest
    }
}

/// Two expressions are equal if their records in prefix order are, with the
/// numbers of their parts.
impl PartialEq for Expr {
    fn eq(&self, other: &Expr) -> bool {
        self.prefix_records() == other.prefix_records()
    }
}

impl Eq for Expr {}

impl Clone for Expr {
    fn clone(&self) -> Expr {
        Expr::from_prefix(&self.prefix_records()).expect("an expression's records are one")
    }
}

/// The first records, in the words of document 01: "Case 0, Leaf, Add, Var 0,
/// Const 1, Node, Call 0 on 1, Call 0 on 2".
impl fmt::Debug for Expr {
    fn fmt(&self, f: &mut fmt::Formatter<'_>) -> fmt::Result {
        for (k, expr) in self.prefix().into_iter().enumerate() {
            if k == 32 {
                return write!(f, ", ...");
            }
            if k > 0 {
                write!(f, ", ")?;
            }
            match expr {
                Expr::Const(i) => write!(f, "Const {i}"),
                Expr::Var(a) => write!(f, "Var {a}"),
                Expr::Add(..) => write!(f, "Add"),
                Expr::IfZero(..) => write!(f, "IfZero"),
                Expr::Let(..) => write!(f, "Let"),
                Expr::Leaf(..) => write!(f, "Leaf"),
                Expr::Node(..) => write!(f, "Node"),
                Expr::Case(a, ..) => write!(f, "Case {a}"),
                Expr::Call(a, b, _) => write!(f, "Call {b} on {a}"),
            }?;
        }
        Ok(())
    }
}

/// Takes an expression apart record by record, so that no drop is nested
/// deeply.
impl Drop for Expr {
    fn drop(&mut self) {
        let mut pending = Vec::new();
        take_parts(self, &mut pending);
        while let Some(mut expr) = pending.pop() {
            take_parts(&mut expr, &mut pending);
        }
    }
}

/// Moves the parts of an expression to the pending expressions.
fn take_parts(expr: &mut Expr, pending: &mut Vec<Expr>) {
    for part in expr.parts_mut() {
        pending.push(mem::replace(part, Expr::Const(0)));
    }
}
