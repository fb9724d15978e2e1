//! `why`.

use reference::generate::programs;
use reference::{mend_checks, Expr, Random};

use super::*;

#[test]
fn why_explains_the_numbers_1_to_21() {
    for number in 1..=21 {
        let text = printed(run(&["why", &number.to_string()]));
        assert!(text.starts_with(&format!("{number}: ")), "{text}");
        assert!(text.contains("\nPosition: "), "{text}");
        assert!(text.contains("\nExample: "), "{text}");
        assert!(text.contains(&format!("\n  refused {number} ")), "{text}");
    }
}

#[test]
fn why_knows_no_other_number() {
    for number in (22..=30).chain([0]) {
        let message = trouble(run(&["why", &number.to_string()]));
        assert!(message.contains("1 to 21"), "{message}");
    }
    for number in ["4294967297", "18446744073709551617"] {
        trouble(run(&["why", number]));
    }
}

#[test]
fn the_tree_readers_examples_are_true() {
    for (number, input) in [("15", &[1, 5, 0, 0][..]), ("16", &[3]), ("20", &[2; 1_025])] {
        let line = String::from_utf8(run_on(&["tree"], input).stdout).unwrap();
        let text = printed(run(&["why", number]));
        assert!(text.contains(&format!("\n  {line}")), "{text}");
    }
}

/// The commands of an example, each with the line that it is to print. A
/// command may have two lines.
#[cfg(unix)]
fn commands(text: &str) -> Vec<(String, String)> {
    let told = |text: &str| {
        let (command, rest) = text.split_once("\n  refused ").unwrap();
        let line = rest.lines().next().unwrap();
        (command.to_owned(), format!("refused {line}\n"))
    };
    text.split("\n  $ ").skip(1).map(told).collect()
}

/// Runs a command of a shell as if it were typed at the root of the
/// repository, where `./hogvax` is the program.
#[cfg(unix)]
fn typed(command: &str) -> Output {
    let program = env!("CARGO_BIN_EXE_hogvax");
    let command = command.replace("./hogvax", &format!("'{program}'"));
    let root = Path::new(env!("CARGO_MANIFEST_DIR")).join("../..");
    let mut shell = Command::new("sh");
    shell.args(["-c", &command]).current_dir(root);
    shell.stdin(Stdio::null()).output().unwrap()
}

#[cfg(unix)]
#[test]
fn the_commands_are_true() {
    let (mut performed, mut run_programs) = (Vec::new(), Vec::new());
    let mut sourced = Vec::new();
    for number in 1..=21 {
        let text = printed(run(&["why", &number.to_string()]));
        for (command, line) in commands(&text) {
            let output = typed(&command);
            assert_eq!(output.status.code(), Some(1), "{command}");
            let said = [output.stdout, output.stderr].concat();
            let mut said = String::from_utf8(said).unwrap();
            // Which sum it is, is not shown there.
            if number == 21 {
                said.truncate(line.len());
            }
            assert_eq!(said, line, "{command}");
            if command.contains("./hogvax perform ") {
                performed.push(number);
            }
            if command.contains("./hogvax run ") {
                run_programs.push(number);
            }
            if command.contains("./hogvax source ") {
                sourced.push(number);
            }
        }
    }
    assert_eq!(performed, [14, 15, 16, 17, 18, 19, 21]);
    assert_eq!(run_programs, [11, 14, 17, 21]);
    assert_eq!(sourced, [14, 15, 16, 17, 20, 21]);
}

/// The example of 13, which this command never meets.
#[test]
fn the_example_of_short_work_space_is_true() {
    let (mut values, mut returns) = ([0; 16_383], [0; 2_048]);
    let mut answer = [9; 5];
    let (values, returns) = (&mut values, &mut returns);
    let number = hogvax::perform_into(&[], &[], 0, &mut [], values, returns, &mut answer);
    assert_eq!((number, answer), (13, [0; 5]));
    let text = printed(run(&["why", "13"]));
    let line = "  refused 13 0 units 0 read 0 written 0 number 0\n";
    assert!(text.ends_with(line), "{text}");
}

/// One function, whose only node is Add.
const ONLY_ADD: [u8; 24] = [
    1, 1, 1, 0, 0, 0, 0, 0, // header
    0, 0, 1, 0, 0, 0, 0, 0, // function 0
    2, 0, 0, 0, 0, 0, 0, 0, // Add
];

#[test]
fn the_program_files_examples_are_true() {
    let records = fs::read(sample("programs/grow.records")).unwrap();
    let file = fs::read(sample("programs/grow.program")).unwrap();
    let program = programs::program_of_records(&mut Random::new(140), 100);
    let mut two_blocks = reference::write_file(&program.records()).unwrap();
    two_blocks[600] ^= 1;
    let mut says_two = with(&file, 508, 2);
    mend_checks(&mut says_two);
    for (number, verb, input) in [
        ("1", "unpack", vec![]),
        ("2", "unpack", two_blocks),
        ("3", "unpack", says_two),
        ("4", "pack", records[..72].to_vec()),
        ("5", "pack", with(&records, 10, 7)),
        ("6", "pack", with(&records, 16, 9)),
        ("7", "pack", ONLY_ADD.to_vec()),
    ] {
        let line = String::from_utf8(run_on(&[verb], &input).stderr).unwrap();
        let text = printed(run(&["why", number]));
        assert!(text.ends_with(&format!("\n  {line}")), "{line}{text}");
    }
}

#[test]
fn the_order_checkers_examples_are_true() {
    let one = || Expr::constant(1);
    let lets = (0..16).fold(one(), |body, _| Expr::let_in(one(), body));
    let right_first = Expr::node(call(2), call(1));
    let right_first = Expr::case(0, Expr::leaf(Expr::var(0)), right_first);
    let left = |above: u8| if above == 0 { 0 } else { 2 * above - 1 };
    let cases = (0..16).rev();
    let cases = cases.fold(one(), |node, above| Expr::case(left(above), one(), node));
    for (number, input) in [
        ("8", file(true, one())),
        ("9", file(false, Expr::var(0))),
        ("10", file(false, lets)),
        ("11", file(true, right_first)),
        ("12", file(false, cases)),
    ] {
        let output = run_on(&["check"], &input);
        assert_eq!(output.status.code(), Some(1));
        let line = String::from_utf8(output.stdout).unwrap();
        let text = printed(run(&["why", number]));
        assert!(text.ends_with(&format!("\n  {line}")), "{line}{text}");
    }
}
