//! "The word count is that of the value stack above the frame's base; 16 is
//! the most."

use super::*;

/// "refused where 16 stand already", at each kind that is tested.
pub fn at_each_kind() -> Vec<Known> {
    let at_const = |words| number(lets(words, call(0), one()));
    let at_var = |words| number(lets(words, call(0), Expr::var(words as u8 - 1)));
    let at_call = |words| number(lets(words, one(), call(0)));
    let at_tree_call = |words| tree(lets(words, one(), call(0)));
    let unbound = number(lets(16, one(), Expr::var(16)));
    vec![
        passes("15 words at a Const", at_const(15)),
        refused(10, 34, "16 words at a Const", at_const(16)),
        passes("15 words at a Var", at_var(15)),
        refused(10, 34, "16 words at a Var", at_var(16)),
        passes("15 words at a Call", at_call(15)),
        refused(10, 34, "16 words at a Call", at_call(16)),
        passes("15 words at a Case", at_case(15)),
        refused(10, 37, "16 words at a Case", at_case(16)),
        passes("16 words at a tree-valued Call", at_tree_call(16)),
        refused(10, 35, "17 Lets", at_tree_call(17)),
        refused(9, 34, "9 before 10", unbound),
        refused(8, 34, "8 before 10", tree(lets(16, one(), one()))),
    ]
}

/// A Case under so many Lets, whose leaf part needs no word.
fn at_case(words: usize) -> Vec<Function> {
    let others = Expr::node(call(4), call(2));
    let inner = Expr::case(1, call(2), Expr::node(call(3), others));
    tree(Expr::case(0, leaf(), lets(words, one(), inner)))
}

/// Where a part has a word more, and where not.
pub fn of_parts() -> Vec<Known> {
    let under = |words, body| number(lets(words, call(0), body));
    let add = || Expr::plus(one(), one());
    let if_zero = || Expr::if_zero(one(), one(), one());
    let case = Expr::case(0, one(), one());
    let node = Expr::node(leaf(), call(0));
    let left = nested(20, call(0), |sum| Expr::plus(sum, one()));
    let right = |count| {
        let sum = nested(count, one(), |sum| Expr::plus(one(), sum));
        number(Expr::plus(sum, call(0)))
    };
    vec![
        passes("Add's numbers", under(14, add())),
        refused(10, 34, "Add's second number", under(15, add())),
        passes("Adds to the left", number(left)),
        passes("15 Adds to the right", right(15)),
        refused(10, 35, "16 Adds to the right", right(16)),
        passes("IfZero's parts", under(15, if_zero())),
        refused(10, 35, "IfZero's test", under(16, if_zero())),
        refused(10, 35, "Leaf's number", tree(lets(16, one(), leaf()))),
        passes("Node's parts", tree(lets(15, one(), node))),
        refused(10, 33, "Case's leaf part", number(lets(15, one(), case))),
    ]
}

/// "arguments, the new frame's first words": parameters are words of their
/// function, and arguments are words of its caller one by one.
pub fn of_arguments() -> Vec<Known> {
    vec![
        passes("four arguments", four_arguments(8, 0)),
        refused(10, 26, "the fourth argument", four_arguments(9, 0)),
        refused(10, 29, "the first argument", four_arguments(12, 0)),
        passes("an argument's own words", four_arguments(7, 1)),
        refused(10, 26, "one too many of them", four_arguments(8, 1)),
    ]
}

/// Function 1, whose first node has record 4, has four number parameters, so
/// many Lets, and a Call of itself whose last argument is so many Adds to the
/// right.
fn four_arguments(count: usize, adds: usize) -> Vec<Function> {
    let last = nested(adds, one(), |sum| Expr::plus(one(), sum));
    let call_itself = Expr::call(0, 1, vec![one(), one(), one(), last]);
    vec![
        function(true, 0, call(0)),
        function(false, 4, lets(count, one(), call_itself)),
    ]
}
