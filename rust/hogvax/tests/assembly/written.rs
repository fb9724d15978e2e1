//! The lines of a program, as the reference's expressions have them.

use reference::{Expr, Function, Program};

/// A line of a program's text.
pub struct Line {
    /// The number of its record.
    pub record: usize,
    /// How many steps it is indented: none for a function.
    pub steps: usize,
    pub text: String,
    /// What it binds, if it binds anything.
    pub bound: Option<String>,
}

/// An expression where it stands: the steps of its line, and how many numbers
/// and trees are bound there.
struct Standing<'a> {
    expr: &'a Expr,
    steps: usize,
    numbers: usize,
    trees: usize,
}

/// The lines of a program, function by function.
pub fn lines(program: &Program) -> Vec<Line> {
    let mut lines = Vec::new();
    let mut record = program.functions.len();
    for (number, function) in program.functions.iter().enumerate() {
        lines.push(Line {
            record: 1 + number,
            steps: 0,
            text: function_line(number, function),
            bound: None,
        });
        let mut pending = vec![Standing {
            expr: &function.body,
            steps: 1,
            numbers: usize::from(function.parameters),
            trees: 1,
        }];
        while let Some(standing) = pending.pop() {
            record += 1;
            lines.push(standing.line(record));
            pending.extend(standing.parts().into_iter().rev());
        }
    }
    lines
}

fn function_line(number: usize, function: &Function) -> String {
    let numbers: String = (0..function.parameters)
        .map(|parameter| format!(", number {parameter}"))
        .collect();
    let result = if function.tree_valued {
        "tree"
    } else {
        "number"
    };
    format!("function {number} takes tree 0{numbers} gives {result}")
}

impl<'a> Standing<'a> {
    fn line(&self, record: usize) -> Line {
        let (numbers, trees) = (self.numbers, self.trees);
        let bound = match self.expr {
            Expr::Let(..) => Some(format!("# body: number {numbers}")),
            Expr::Case(..) => Some(format!(
                "# leaf part: number {numbers}; node part: trees {trees}, {}",
                trees + 1
            )),
            _ => None,
        };
        let records = format!("{:?}", self.expr);
        let (text, _) = records.split_once(", ").unwrap_or((&records, ""));
        Line {
            record,
            steps: self.steps,
            text: text.to_owned(),
            bound,
        }
    }

    /// Its parts. "Let's body and Case's leaf part add one number name, Case's
    /// node part two tree names".
    fn parts(&self) -> Vec<Standing<'a>> {
        let parts = self.expr.parts().into_iter().enumerate();
        let part = |(place, expr)| {
            let (numbers, trees) = match (self.expr, place) {
                (Expr::Let(..), 1) | (Expr::Case(..), 0) => (1, 0),
                (Expr::Case(..), 1) => (0, 2),
                _ => (0, 0),
            };
            Standing {
                expr,
                steps: self.steps + 1,
                numbers: self.numbers + numbers,
                trees: self.trees + trees,
            }
        };
        parts.map(part).collect()
    }
}
