//! Programs and trees so deep that a recursion over expressions would need
//! much stack: on threads that have little.

use std::thread;

use reference::generate::{left_caterpillar, mixed_caterpillar, right_caterpillar};
use reference::{Token, Tree};

use super::*;

/// The bytes of a thread's stack: as many as a program's first thread mostly
/// has, and few.
const STACKS: [usize; 2] = [8 << 20, 1 << 20];

/// More fuel than a run here uses.
const MUCH: u64 = 10_000_000;

/// The source run on a thread with each of these stacks: the line of its
/// answer, and the whole output.
fn source(file: &[u8], input: &[u8], fuel: u64, output: usize) -> (String, Vec<u8>) {
    let on_a_thread = |stack| {
        thread::scope(|scope| {
            let run = || {
                let mut output = vec![FILLER; output];
                let sourced = hogvax::source(file, input, fuel, &mut output);
                (sourced.to_string(), output)
            };
            let thread = thread::Builder::new().stack_size(stack);
            thread.spawn_scoped(scope, run).unwrap().join().unwrap()
        })
    };
    let [much, little] = STACKS.map(on_a_thread);
    assert!(much == little, "{} and {}", much.0, little.0);
    much
}

/// The line of the answer to a run that gives a number.
fn line(file: &[u8], input: &[u8], fuel: u64) -> String {
    source(file, input, fuel, 0).0
}

/// The caterpillar of that depth whose right parts are leaves, with labels 1.
fn left(depth: usize) -> Vec<u8> {
    let leaves = vec![Token::Leaf(1); depth + 1];
    let tokens = [vec![Token::Node; depth], leaves].concat();
    Tree::from_prefix(&tokens).unwrap().tokens()
}

/// So many Adds, each the left part of the one before, around an expression.
/// Each adds 1.
fn adds(count: usize, inner: Expr) -> Expr {
    (0..count).fold(inner, |left, _| Expr::plus(left, Expr::constant(1)))
}

/// A call of function 0.
fn call(tree: u8) -> Expr {
    Expr::call(tree, 0, vec![])
}

/// 511 Adds are the most that a body has room for. In each of 1,024 open calls
/// all of them wait for their left parts.
#[test]
fn adds_wait_in_every_open_call() {
    let body = adds(511, call(0));
    let endless = file(&Program::new(vec![number_valued(0, body)]));
    let begun = 512 * 1_024;
    let refused = |number, begun| {
        format!("refused {number} 0 begun {begun} written 0 number 0 tips 0 depth 0")
    };
    assert_eq!(line(&endless, &left(0), u64::MAX), refused(18, begun));
    assert_eq!(line(&endless, &left(0), begun), refused(18, begun));
    let less = begun - 1;
    assert_eq!(line(&endless, &left(0), less), refused(14, less));
}

/// 510 Adds wait in each of 1,023 open calls; the last one gives a label.
#[test]
fn adds_are_taken_up_again_in_every_open_call() {
    let body = Expr::case(0, Expr::var(0), adds(510, call(1)));
    let program = file(&Program::new(vec![number_valued(0, body)]));
    let begun = 1_023 * (1 + 510 + 1 + 510) + 2;
    let number = 1_023 * 510 + 1;
    let ended = format!("ended begun {begun} written 0 number {number} tips 1024 depth 1023");
    assert_eq!(line(&program, &left(1_023), begun), ended);
    // A tree of depth 1,024 is read, and opens a call too many.
    let refused = line(&program, &left(1_024), MUCH);
    assert!(refused.starts_with("refused 18 0 "), "{refused}");
    let deeper = line(&program, &left(1_025), MUCH);
    assert_eq!(
        deeper,
        "refused 20 1024 begun 0 written 0 number 0 tips 0 depth 0"
    );
}

/// A thousand calls, each the argument of the one before, with two open at
/// once.
#[test]
fn calls_are_arguments_of_calls() {
    let nest = |argument| Expr::call(0, 1, vec![argument]);
    let body = (0..1_000).fold(Expr::constant(-7), |argument, _| nest(argument));
    let more = Expr::plus(Expr::var(0), Expr::constant(1));
    let program = file(&Program::new(vec![
        number_valued(0, body),
        number_valued(1, more),
    ]));
    let begun = 1_000 + 1 + 3 * 1_000;
    let ended = format!("ended begun {begun} written 0 number 993 tips 1 depth 0");
    assert_eq!(line(&program, &left(0), begun), ended);
}

/// 1,020 calls, each the argument of the one before, in each of 1,024 open
/// calls.
#[test]
fn arguments_wait_in_every_open_call() {
    let nest = |argument| Expr::call(0, 1, vec![argument]);
    let body = (0..1_020).fold(Expr::var(0), |argument, _| nest(argument));
    let program = file(&Program::new(vec![
        number_valued(0, nest(Expr::constant(1))),
        number_valued(1, body),
    ]));
    let begun = 2 + 1_023 * 1_021;
    let refused = format!("refused 18 0 begun {begun} written 0 number 0 tips 0 depth 0");
    assert_eq!(line(&program, &left(0), MUCH), refused);
}

/// 300 Nodes wait in each of 1,023 open calls. The result is far deeper than a
/// tree that is read.
#[test]
fn results_may_be_deeper_than_the_tree_reader_reads() {
    let leaf = || Expr::leaf(Expr::constant(1));
    let nodes = (0..300).fold(call(1), |left, _| Expr::node(left, leaf()));
    let body = Expr::case(0, Expr::leaf(Expr::var(0)), nodes);
    let program = file(&Program::new(vec![tree_valued(0, body)]));
    let result = left(300 * 1_023);
    let (begun, written) = (1_023 * (1 + 300 + 1 + 300 * 2) + 3, result.len());
    let (line, output) = source(&program, &left(1_023), begun as u64, written + 1);
    let ended = format!("ended begun {begun} written {written} number 0 tips 1024 depth 1023");
    assert_eq!(line, ended);
    assert!(output[..written] == result && output[written] == FILLER);
    let short = source(&program, &left(1_023), MUCH, written - 1);
    let line = format!("refused 17 0 begun {begun} written 0 number 0 tips 0 depth 0");
    assert_eq!(short, (line, vec![FILLER; written - 1]));
}

/// The deepest trees that are read, on either side, two levels of them in each
/// call.
#[test]
fn the_deepest_trees_are_evaluated() {
    let mut random = Random::new(430);
    let copy = |name: u8, left: Expr, right: Expr| {
        Expr::case(name, Expr::leaf(Expr::var(0)), Expr::node(left, right))
    };
    let below = |name: u8| copy(name, call(3), call(4));
    let body = copy(0, below(1), below(2));
    let program = file(&Program::new(vec![tree_valued(0, body)]));
    let mut lent = Lent::new();
    for make in [left_caterpillar, right_caterpillar, mixed_caterpillar] {
        for depth in [1_022, 1_023, 1_024] {
            let tokens = make(&mut random, depth).tokens();
            let length = tokens.len();
            let (line, output) = source(&program, &tokens, MUCH, length);
            assert!(line.starts_with("ended "), "{line}");
            let measured = format!(" tips {} depth {depth}", depth + 1);
            assert!(line.ends_with(&measured), "{line}");
            assert!(output == tokens, "depth {depth}");
            let _ = lent.answer(&SourceCase::new(&program, &tokens, MUCH, length));
        }
        let tokens = make(&mut random, 1_025).tokens();
        let (line, _) = source(&program, &tokens, MUCH, tokens.len());
        assert!(line.starts_with("refused 20 "), "{line}");
    }
}
