//! What `show` prints.

use hogvax::assembly::{show, Numbers, LONGEST_TEXT};
use reference::generate::{program_shapes, FileDamage};
use reference::{lay_out, Expr, Function};

use super::written::{lines, Line};
use super::*;

/// The texts of a program, with numbers and without.
fn shown(program: &Program) -> [String; 2] {
    let file = lay_out(&program.records());
    [Numbers::Shown, Numbers::Bare].map(|numbers| show(&file, numbers).unwrap())
}

fn one_function(tree_valued: bool, body: Expr) -> Program {
    Program::new(vec![Function {
        tree_valued,
        parameters: 0,
        body,
    }])
}

#[test]
fn show_prints_numbers_records_and_names() {
    let text = "\
# record 0: edition 1, 2 functions, 14 nodes
 1  function 0 takes tree 0 gives tree
 3    Call 1 on 0
 4      Const 0
 2  function 1 takes tree 0, number 0 gives tree
 5    Case 0  # leaf part: number 1; node part: trees 1, 2
 6      Leaf
 7        Var 0
 8      Let   # body: number 1
 9        Add
10          Var 0
11          Const 1
12        Node
13          Call 1 on 1
14            Var 1
15          Call 1 on 2
16            Var 1
";
    let file = sample("depth.program");
    assert_eq!(show(&file, Numbers::Shown).unwrap(), text);
    let bare = "\
function 0 takes tree 0 gives tree
  Call 1 on 0
    Const 0
function 1 takes tree 0, number 0 gives tree
  Case 0  # leaf part: number 1; node part: trees 1, 2
    Leaf
      Var 0
    Let   # body: number 1
      Add
        Var 0
        Const 1
      Node
        Call 1 on 1
          Var 1
        Call 1 on 2
          Var 1
";
    assert_eq!(show(&file, Numbers::Bare).unwrap(), bare);
}

#[test]
fn show_counts_one_function_and_one_node_as_one() {
    let [text, _] = shown(&one_function(false, Expr::constant(5)));
    let heading = "# record 0: edition 1, 1 function, 1 node";
    assert_eq!(text.lines().next(), Some(heading));
}

/// The text of each line: its indentation, its record, and what it binds,
/// after two blanks or more.
fn assert_line(text: &str, line: &Line, step: usize) {
    let indent = " ".repeat(step * line.steps);
    let rest = text
        .strip_prefix(&indent)
        .and_then(|text| text.strip_prefix(&line.text));
    let rest = rest.unwrap_or_else(|| panic!("not {}: {text}", line.text));
    match &line.bound {
        None => assert_eq!(rest, ""),
        Some(bound) => {
            assert!(rest.starts_with("  "), "{text}");
            assert_eq!(rest.trim_start(), bound);
        }
    }
}

/// Both texts of a program are what the reference's expressions have, each
/// step of the indentation so wide.
fn assert_shown(program: &Program, step: usize) {
    let lines = lines(program);
    let width = lines.len().to_string().len();
    let [numbered, bare] = shown(program);
    let numbered: Vec<&str> = numbered.lines().skip(1).collect();
    let bare: Vec<&str> = bare.lines().collect();
    assert_eq!((numbered.len(), bare.len()), (lines.len(), lines.len()));
    for (place, line) in lines.iter().enumerate() {
        let number = format!("{:>width$}  ", line.record);
        let rest = numbered[place].strip_prefix(&number).unwrap();
        assert_line(rest, line, step);
        assert_line(bare[place], line, step);
    }
}

#[test]
fn show_prints_what_the_expressions_are() {
    let mut random = Random::new(320);
    let mut bound = 0;
    for _ in 0..300 {
        let program = any_program(&mut random);
        assert_shown(&program, 2);
        bound += lines(&program)
            .iter()
            .filter(|line| line.bound.is_some())
            .count();
    }
    assert!(bound > 1_000, "{bound}");
}

/// Comments stand in one column, but for those of lines that are too long.
#[test]
fn comments_stand_in_one_column() {
    let mut random = Random::new(321);
    let (mut aligned, mut further) = (0, 0);
    for _ in 0..300 {
        let functions = 1 + random.below(3);
        let nodes = random.pick(&[20, 300]);
        let program = programs::program(&mut random, functions, nodes);
        for text in shown(&program) {
            let commented = text.lines().filter(|line| !line.starts_with('#'));
            let starts = commented.filter_map(|line| Some((line.split_once('#')?.0, line)));
            let starts: Vec<(&str, &str)> = starts.collect();
            let column = starts
                .iter()
                .map(|(start, _)| start.len())
                .min()
                .unwrap_or(0);
            for (start, line) in starts {
                let length = start.trim_end().len() + 2;
                assert_eq!(start.len(), column.max(length), "{line}");
                assert!(column <= 40, "{line}");
                aligned += usize::from(length < column);
                further += usize::from(length > column);
            }
        }
    }
    assert!(aligned > 100 && further > 20, "{aligned} and {further}");
}

/// A record has no room for a name above 255, but it may be bound.
#[test]
fn names_above_255_are_told() {
    let case = |body, _| Expr::case(0, Expr::var(255), body);
    let body = (0..300).fold(Expr::let_in(Expr::constant(1), Expr::var(0)), case);
    let [text, _] = shown(&one_function(false, body));
    assert!(text.contains("# leaf part: number 0; node part: trees 599, 600\n"));
    let bind = |body, _| Expr::let_in(Expr::constant(1), body);
    let body = (0..300).fold(Expr::var(255), bind);
    let [text, _] = shown(&one_function(false, body));
    assert!(text.contains("  # body: number 299\n"));
}

/// With two blanks a step the deepest text would be longer than a text may be.
#[test]
fn the_deepest_program_is_indented_by_single_blanks() {
    let mut random = Random::new(322);
    let mut seen = [0; 2];
    for nodes in [900, 1_000, 1_010, 1_020, 1_023, 1_024] {
        let program = program_shapes::leaf_chain(&mut random, nodes);
        let steps: usize = lines(&program).iter().map(|line| line.steps).sum();
        let single = shown(&program).map(|text| {
            assert!(text.len() <= LONGEST_TEXT);
            let single = !text.contains(&" ".repeat(2 * nodes));
            // With a blank more for each step it would be too long.
            let wide = text.len() + if single { steps } else { 0 };
            assert_eq!(single, wide > LONGEST_TEXT, "{nodes}");
            single
        });
        seen[usize::from(single[0])] += 1;
    }
    assert!(seen.iter().all(|&count| count > 0), "{seen:?}");
}

#[test]
fn files_that_are_no_programs_are_refused_as_unpack_does() {
    let mut random = Random::new(323);
    let mut seen = [0; 8];
    for _ in 0..200 {
        let file = lay_out(&any_program(&mut random).records());
        let damage = random.pick(&FileDamage::ALL);
        let Some((damaged, refusal)) = damage.apply(&mut random, &file) else {
            continue;
        };
        let refused = hogvax::unpack(&damaged).unwrap_err();
        assert_eq!(show(&damaged, Numbers::Bare), Err(refused));
        seen[usize::from(refusal.number)] += 1;
    }
    for records in [vec![], vec![1; 8], sample("grow.records")[..72].to_vec()] {
        let file = lay_out(&records);
        let refused = hogvax::unpack(&file).unwrap_err();
        assert_eq!(show(&file, Numbers::Shown), Err(refused));
        seen[refused.number as usize] += 1;
    }
    assert!(seen[1..=4].iter().all(|&count| count > 0), "{seen:?}");
}
