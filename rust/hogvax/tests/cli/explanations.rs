//! What is said of a program's text besides the answer: why it is refused, and
//! which line stands elsewhere than it seems to.

use super::run_verbs::{OF_PROGRAMS, RUN, SOURCE};
use super::texts::{explained, written, GROW, MISPLACED, MISPLACED_NOTICE};
use super::*;

/// Document 01's program whose trees are out of order.
const SWAP: &str = "\
# Exchanges the parts of every node.
function 0 takes tree 0 gives tree
  Case 0
    Leaf
      Var 0
    Node
      Call 0 on 2
      Call 0 on 1
";

// Programs that are refused

/// Document 01: "11 at record 6."
#[test]
fn trees_out_of_order_are_explained() {
    let path = written("texts-swap", SWAP);
    let told = format!(
        "{path}:7:7: record 6, 'Call 0 on 2': \
         this is not the first of the pending trees\n  \
         pending: tree 1, tree 2\n  asked for: tree 2\n"
    );
    let output = run(&["check", &path]);
    assert_eq!(output.stdout, b"refused 11 6\n");
    let explanation = String::from_utf8(output.stderr).unwrap();
    assert!(explanation.starts_with(&told), "{explanation}");
    assert_eq!(explanation, explained(&path, SWAP, "refused 11 6\n"));
}

/// A text for each refusal of a program.
fn refused_texts() -> Vec<(String, &'static str)> {
    let tree = |body: &str| format!("function 0 takes tree 0 gives tree\n{body}");
    let number = |body: &str| format!("function 0 takes tree 0 gives number\n{body}");
    let words = format!("{}Const 1\n", "Let\nConst 1\n".repeat(16));
    // Each leaves one tree more, and the last one is one too many.
    let names = [0].into_iter().chain((1..=29).step_by(2));
    let cases: String = names
        .map(|name| format!("Case {name}\nConst 1\n"))
        .collect();
    vec![
        ("# Nothing.\n".to_owned(), "refused 4 0"),
        (tree(""), "refused 4 0"),
        (
            "function 0 takes tree 0, number 0 gives tree\nVar 0\n".to_owned(),
            "refused 5 1",
        ),
        (tree("  Leaf\n    Call 1 on 0\n"), "refused 6 3"),
        (tree("  Node\n    Call 0 on 0\n"), "refused 7 2"),
        (tree("  Const 1\n"), "refused 8 2"),
        (tree("  Leaf\n    Var 0\n"), "refused 9 3"),
        (number(&words), "refused 10 34"),
        (tree("  Leaf\n    Const 1\n"), "refused 11 2"),
        (
            number("  Case 0\n    Const 1\n    Call 0 on 1\n"),
            "refused 11 2",
        ),
        (SWAP.to_owned(), "refused 11 6"),
        (number(&format!("{cases}Const 1\n")), "refused 12 32"),
    ]
}

/// On standard output, with the explanation on standard error.
#[test]
fn refusals_of_check_and_listing_are_explained() {
    for (text, line) in refused_texts() {
        let told = explained("standard input", &text, line);
        for verb in ["check", "listing"] {
            let output = run_on(&[verb], text.as_bytes());
            assert_gives(&output, 1, format!("{line}\n").as_bytes(), &told);
        }
    }
}

/// On standard error, with counts of 0 and the explanation after them. The
/// source run takes trees in any order.
#[test]
fn refusals_of_runs_are_explained() {
    let mut ended = 0;
    for (text, line) in refused_texts() {
        let told = explained("standard input", &text, line);
        for verb in OF_PROGRAMS {
            let output = verb.run_first(text.as_bytes(), &[]);
            let ordered = !line.starts_with("refused 11 ") && !line.starts_with("refused 12 ");
            if verb.name == "source" && !ordered {
                assert_eq!(output.status.code(), Some(0));
                ended += 1;
                continue;
            }
            let told = format!("{line} {}{told}", verb.not_begun);
            assert_gives(&output, 1, &[], &told);
        }
    }
    assert_eq!(ended, 4);
}

/// As with a program file: data that was written before the refusal is none.
#[test]
fn partial_data_of_a_refused_text_is_none() {
    let out = folder("texts-partial").join("out");
    let options = ["--partial", "--out", out.to_str().unwrap()];
    for (text, line) in refused_texts() {
        fs::write(&out, "before").unwrap();
        let output = RUN.run_first(text.as_bytes(), &options);
        let told = explained("standard input", &text, line);
        assert_gives(&output, 1, &[], &format!("{line} {}{told}", RUN.not_begun));
        assert_eq!(fs::read(&out).unwrap(), b"");
    }
    fs::write(&out, "before").unwrap();
    let output = RUN.run_first(b"Case 0", &options);
    assert_eq!(output.status.code(), Some(1));
    assert_eq!(fs::read(&out).unwrap(), b"before");
}

/// They are not the program's.
#[test]
fn refusals_of_the_run_itself_are_not_explained() {
    let line = "refused 14 0 units 0 read 0 written 0 number 0\n";
    let output = RUN.run_first(GROW.as_bytes(), &["--fuel", "0"]);
    assert_gives(&output, 1, &[], line);
    let line = "refused 17 0 begun 14 written 0 number 0 tips 0 depth 0\n";
    let output = SOURCE.run_first(GROW.as_bytes(), &["--space", "10"]);
    assert_gives(&output, 1, &[], line);
}

#[test]
fn an_explanation_that_cannot_be_written_is_trouble() {
    let mut child = piped(&["check"]);
    drop(child.stderr.take());
    child
        .stdin
        .take()
        .unwrap()
        .write_all(SWAP.as_bytes())
        .unwrap();
    let output = child.wait_with_output().unwrap();
    assert_eq!(output.stdout, b"refused 11 6\n");
    assert_eq!(output.status.code(), Some(2));
}

// Notices

/// After the answer, and no reason to refuse.
#[test]
fn a_line_that_stands_elsewhere_is_told() {
    for (verb, text) in [
        ("check", "passed\n"),
        ("listing", "code 9\n"),
        ("show", "# record 0: "),
    ] {
        let output = run_on(&[verb], MISPLACED.as_bytes());
        assert_eq!(output.status.code(), Some(0));
        assert!(output.stdout.starts_with(text.as_bytes()));
        assert_eq!(String::from_utf8_lossy(&output.stderr), MISPLACED_NOTICE);
    }
    for (verb, line) in [
        (RUN, "ended units 17 read 11 written 0 number 12\n"),
        (SOURCE, "ended begun 8 written 0 number 12 tips 2 depth 1\n"),
    ] {
        let output = verb.run_first(MISPLACED.as_bytes(), &[]);
        assert_gives(&output, 0, b"12\n", &format!("{line}{MISPLACED_NOTICE}"));
    }
}

/// After the explanation.
#[test]
fn a_line_that_stands_elsewhere_is_told_of_a_refused_program() {
    let text = MISPLACED.replace("Var 0", "Var 1");
    let told = explained("standard input", &text, "refused 9 3");
    let output = run_on(&["check"], text.as_bytes());
    let told = format!("{told}{MISPLACED_NOTICE}");
    assert_gives(&output, 1, b"refused 9 3\n", &told);
}
