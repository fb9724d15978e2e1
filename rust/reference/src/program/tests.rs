use super::*;
use crate::generate::programs;
use crate::random::Random;

mod blocks;
mod damage;
mod prefix_form;
mod rows;

fn constant(i: i32) -> Expr {
    Expr::constant(i)
}

fn call(b: u16, a: u8) -> Expr {
    Expr::call(a, b, vec![])
}

/// A program of one function.
fn single(tree_valued: bool, body: Expr) -> Program {
    Program::new(vec![Function {
        tree_valued,
        parameters: 0,
        body,
    }])
}

/// "Grow: Case 0, Leaf, Add, Var 0, Const 1, Node, Call 0 on 1, Call 0 on 2."
fn grow() -> Program {
    let leaf = Expr::leaf(Expr::plus(Expr::var(0), constant(1)));
    let node = Expr::node(call(0, 1), call(0, 2));
    single(true, Expr::case(0, leaf, node))
}

/// "Sum (Case 0, Var 0, Add, Call 0 on 1, Call 0 on 2)"
fn sum() -> Program {
    let node = Expr::plus(call(0, 1), call(0, 2));
    single(false, Expr::case(0, Expr::var(0), node))
}

const GROW: [u8; 80] = [
    1, 1, 8, 0, 0, 0, 0, 0, // header
    1, 0, 8, 0, 0, 0, 0, 0, // function 0
    7, 0, 0, 0, 0, 0, 0, 0, // Case 0
    5, 0, 0, 0, 0, 0, 0, 0, // Leaf
    2, 0, 0, 0, 0, 0, 0, 0, // Add
    1, 0, 0, 0, 0, 0, 0, 0, // Var 0
    0, 0, 0, 0, 1, 0, 0, 0, // Const 1
    6, 0, 0, 0, 0, 0, 0, 0, // Node
    8, 1, 0, 0, 0, 0, 0, 0, // Call 0 on 1
    8, 2, 0, 0, 0, 0, 0, 0, // Call 0 on 2
];

const SUM: [u8; 56] = [
    1, 1, 5, 0, 0, 0, 0, 0, // header
    0, 0, 5, 0, 0, 0, 0, 0, // function 0
    7, 0, 0, 0, 0, 0, 0, 0, // Case 0
    1, 0, 0, 0, 0, 0, 0, 0, // Var 0
    2, 0, 0, 0, 0, 0, 0, 0, // Add
    8, 1, 0, 0, 0, 0, 0, 0, // Call 0 on 1
    8, 2, 0, 0, 0, 0, 0, 0, // Call 0 on 2
];

/// A buffer longer than any file.
const UNTOUCHED: [u8; 9000] = [0xaa; 9000];

/// The records are those of the program, and its file is read back.
fn assert_accepted(records: &[u8], program: &Program) {
    assert_eq!(program.records(), records);
    assert_eq!(Program::from_records(records).as_ref(), Ok(program));
    let file = write_file(records).unwrap();
    let count = 1 + program.functions.len() + program.nodes();
    assert_eq!(file.len(), 512 * count.div_ceil(63));
    assert_eq!(read_file(&file).unwrap(), records);
}

/// The records are refused by themselves, by the writer, and, if they are
/// whole records, in a file.
fn assert_records_refused(records: &[u8], number: u8, position: usize) {
    let refusal = Refusal { number, position };
    assert_eq!(Program::from_records(records), Err(refusal));
    assert_eq!(write_file(records), Err(refusal));
    let mut buffer = UNTOUCHED;
    assert_eq!(write_file_into(records, &mut buffer), Err(refusal));
    assert_eq!(write_file_into(records, &mut []), Err(refusal));
    assert!(buffer == UNTOUCHED);
    if !records.is_empty() && records.chunks_exact(8).remainder().is_empty() {
        assert_file_refused(&lay_out(records), number, position);
    }
}

/// The file is refused, with a long buffer or none.
fn assert_file_refused(file: &[u8], number: u8, position: usize) {
    let refusal = Refusal { number, position };
    assert_eq!(read_file(file), Err(refusal));
    let mut buffer = UNTOUCHED;
    assert_eq!(read_file_into(file, &mut buffer), Err(refusal));
    assert_eq!(read_file_into(file, &mut []), Err(refusal));
    assert!(buffer == UNTOUCHED);
}

// Records and expressions

#[test]
fn a_record_has_eight_bytes_low_byte_first() {
    let bytes = [8, 255, 1, 2, 3, 4, 5, 6];
    let record = Record {
        kind: 8,
        a: 255,
        b: 0x0201,
        i: 0x0605_0403,
    };
    assert_eq!(Record::from_bytes(bytes), record);
    assert_eq!(record.to_bytes(), bytes);
    assert_eq!(Record::list(&[bytes, bytes].concat()), [record, record]);
    assert_eq!(Record::list(&bytes[..7]), []);
}

#[test]
fn the_nine_kinds() {
    let c = constant;
    let exprs = [
        constant(-2),
        Expr::var(3),
        Expr::plus(c(1), c(2)),
        Expr::if_zero(c(1), c(2), c(3)),
        Expr::let_in(c(1), c(2)),
        Expr::leaf(c(1)),
        Expr::node(c(1), c(2)),
        Expr::case(255, c(1), c(2)),
        Expr::call(4, 0x0105, vec![c(1), c(2), c(3), c(4)]),
    ];
    let parts = [0, 0, 2, 3, 2, 1, 2, 2, 4];
    for (kind, expr) in exprs.iter().enumerate() {
        let record = expr.record();
        assert_eq!(usize::from(record.kind), kind);
        let found: Vec<Expr> = expr.parts().into_iter().cloned().collect();
        let expected: Vec<Expr> = (1..=parts[kind]).map(constant).collect();
        assert_eq!(found, expected);
        assert_eq!(Expr::from_record(record, found).as_ref(), Some(expr));
        assert_eq!(&expr.clone(), expr);
    }
    let bytes = |k: usize| exprs[k].record().to_bytes();
    assert_eq!(bytes(0), [0, 0, 0, 0, 254, 255, 255, 255]);
    assert_eq!(bytes(1), [1, 3, 0, 0, 0, 0, 0, 0]);
    for k in [2, 3, 4, 5, 6] {
        assert_eq!(bytes(k), [k as u8, 0, 0, 0, 0, 0, 0, 0]);
    }
    assert_eq!(bytes(7), [7, 255, 0, 0, 0, 0, 0, 0]);
    assert_eq!(bytes(8), [8, 4, 5, 1, 0, 0, 0, 0]);
}

#[test]
fn equality_is_of_records_and_parts() {
    let inner = Expr::call(0, 0, vec![constant(1)]);
    let one = Expr::plus(inner, constant(2));
    let inner = Expr::call(0, 0, vec![]);
    let two = Expr::plus(inner, constant(1));
    assert_ne!(one, two);
    assert_eq!(one, one.clone());
    assert_ne!(Expr::var(0), Expr::var(1));
    assert_ne!(constant(0), Expr::var(0));
    assert_eq!(Expr::from_record(one.record(), vec![]), None);
    assert_eq!(Expr::from_record(constant(1).record(), vec![two]), None);
}

#[test]
fn an_expression_is_shown_as_in_the_document() {
    let text = "Case 0, Leaf, Add, Var 0, Const 1, Node, Call 0 on 1, Call 0 on 2";
    assert_eq!(format!("{:?}", grow().functions[0].body), text);
}

#[test]
fn expressions_tens_of_thousands_deep() {
    let mut expr = constant(1);
    for _ in 0..20_000 {
        expr = Expr::call(0, 0, vec![Expr::leaf(expr)]);
    }
    assert_eq!(expr.depth(), 40_001);
    assert!(expr == expr.clone());
}

// Worked programs

#[test]
fn grow_and_sum() {
    assert_accepted(&GROW, &grow());
    assert_accepted(&SUM, &sum());
}

#[test]
fn other_worked_programs() {
    let leaf = Expr::leaf(Expr::var(0));
    let swapped = Expr::node(call(0, 2), call(0, 1));
    let records = [
        [1, 1, 6, 0, 0, 0, 0, 0],
        [1, 0, 6, 0, 0, 0, 0, 0],
        [7, 0, 0, 0, 0, 0, 0, 0],
        [5, 0, 0, 0, 0, 0, 0, 0],
        [1, 0, 0, 0, 0, 0, 0, 0],
        [6, 0, 0, 0, 0, 0, 0, 0],
        [8, 2, 0, 0, 0, 0, 0, 0],
        [8, 1, 0, 0, 0, 0, 0, 0],
    ];
    let program = single(true, Expr::case(0, leaf, swapped));
    assert_accepted(&records.concat(), &program);

    let records = [
        [1, 1, 3, 0, 0, 0, 0, 0],
        [0, 0, 3, 0, 0, 0, 0, 0],
        [7, 0, 0, 0, 0, 0, 0, 0],
        [0, 0, 0, 0, 1, 0, 0, 0],
        [8, 1, 0, 0, 0, 0, 0, 0],
    ];
    let program = single(false, Expr::case(0, constant(1), call(0, 1)));
    assert_accepted(&records.concat(), &program);

    let records = [
        [1, 1, 1, 0, 0, 0, 0, 0],
        [1, 0, 1, 0, 0, 0, 0, 0],
        [8, 0, 0, 0, 0, 0, 0, 0],
    ];
    assert_accepted(&records.concat(), &single(true, call(0, 0)));
}

/// The words of Grow's file before the check sum to 1,091.
#[test]
fn the_file_of_grow() {
    let mut file = [0; 512];
    file[..80].copy_from_slice(&GROW);
    file[504..].copy_from_slice(&[0, 0, 10, 0, 1, 0, 0xbc, 0xfb]);
    assert_eq!(write_file(&GROW).unwrap(), file);
    assert_eq!(read_file(&file).unwrap(), GROW);
}

#[test]
fn functions_with_arguments() {
    let arguments = vec![constant(-1), Expr::var(2)];
    let program = Program::new(vec![
        Function {
            tree_valued: false,
            parameters: 0,
            body: Expr::call(255, 1, arguments),
        },
        Function {
            tree_valued: true,
            parameters: 2,
            body: call(0, 7),
        },
    ]);
    let records = [
        [1, 2, 4, 0, 0, 0, 0, 0],
        [0, 0, 3, 0, 0, 0, 0, 0],
        [1, 2, 1, 0, 0, 0, 0, 0],
        [8, 255, 1, 0, 0, 0, 0, 0],
        [0, 0, 0, 0, 255, 255, 255, 255],
        [1, 2, 0, 0, 0, 0, 0, 0],
        [8, 7, 0, 0, 0, 0, 0, 0],
    ];
    assert_accepted(&records.concat(), &program);
}

// Round trips

#[test]
fn random_programs_are_read_as_written() {
    let mut random = Random::new(30);
    for _ in 0..100 {
        let program = programs::any_program(&mut random);
        assert_accepted(&program.records(), &program);
    }
}
