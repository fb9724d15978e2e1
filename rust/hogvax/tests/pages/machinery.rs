//! The trial of a page: what it takes for files and commands, and that it can
//! fail.

use crate::page::{Act, Page};
use crate::trial::{differences, folder};

/// A page with a file, commands of every form, and another block.
const PAGE: &str = "\
# A page

Save this as `one.txt`:

```
first
  $ second

```

and then type, beside `this`:

```text
$ cat one.txt
first
  $ second

$ echo out; echo err >&2
out
err
$ cat one.txt |
  head -n 1
first
$ echo a \\
  b
a b
$ true
```

No file is `named`:

```rust
fn main() {}
```
";

fn said(act: &Act) -> (&str, &str) {
    match act {
        Act::File { name, text } => (name, text),
        Act::Command { command, printed } => (command, printed),
    }
}

#[test]
fn a_page_is_taken_apart() {
    let page = Page::new(PAGE);
    let steps: Vec<_> = page.steps.iter().map(|step| said(&step.act)).collect();
    let text = "first\n  $ second\n\n";
    let expected = [
        ("one.txt", text),
        ("cat one.txt", text),
        ("echo out; echo err >&2", "out\nerr\n"),
        ("cat one.txt |\n  head -n 1", "first\n"),
        ("echo a \\\n  b", "a b\n"),
        ("true", ""),
    ];
    assert_eq!(steps, expected);
    assert_eq!(page.files().collect::<Vec<_>>(), [("one.txt", text)]);
    assert_eq!(page.commands().count(), 5);
    let lines: Vec<usize> = page.steps.iter().map(|step| step.line).collect();
    assert_eq!(lines, [5, 14, 18, 21, 24, 27]);
    let others = page.others.iter();
    let others: Vec<_> = others.map(|one| (one.line, &one.language[..])).collect();
    assert_eq!(others, [(32, "rust")]);
}

#[test]
fn a_page_that_is_right_has_no_differences() {
    let found = differences(&Page::new(PAGE), &folder("right"));
    assert_eq!(found, [""; 0]);
}

/// One line more, one less, another text, or streams the other way round.
#[test]
fn a_command_that_prints_something_else_is_told() {
    for (old, new, line) in [
        ("$ true\n", "$ true\nmore\n", "line 27: true\n"),
        ("$ true\n", "$ echo more\n", "line 27: echo more\n"),
        ("\na b\n", "\na  b\n", "line 24: "),
        ("out\nerr\n", "err\nout\n", "line 18: "),
        ("$ true\n", "$ ./hogvax check no-file\n", "line 27: "),
    ] {
        let text = PAGE.replace(old, new);
        let found = differences(&Page::new(&text), &folder("wrong"));
        assert_eq!(found.len(), 1, "{found:?}");
        assert!(found[0].starts_with(line), "{found:?}");
    }
}

/// A file that is not there is not left over from an earlier trial.
#[test]
fn every_trial_has_a_new_folder() {
    differences(&Page::new(PAGE), &folder("new"));
    let text = PAGE.replace("`one.txt`:", "one.txt:");
    let page = Page::new(&text);
    assert_eq!((page.files().count(), page.others.len()), (0, 2));
    assert_eq!(differences(&page, &folder("new")).len(), 2);
}

#[test]
fn the_command_line_and_the_samples_are_there() {
    let text = "```\n$ ./hogvax tree samples/small.tokens\ntree 11 tips 2 depth 1\n```\n";
    let found = differences(&Page::new(text), &folder("there"));
    assert_eq!(found, [""; 0]);
}

/// A name with a folder in it, without an ending or with a blank is none.
#[test]
fn no_file_is_written_elsewhere() {
    for name in ["../one.txt", "a/b.txt", "named", ".one", "one two.txt"] {
        let text = PAGE.replace("`one.txt`:", &format!("`{name}`:"));
        assert_eq!(Page::new(&text).files().count(), 0, "{name}");
    }
}

#[test]
#[should_panic(expected = "not closed")]
fn a_block_that_is_not_closed_is_told() {
    Page::new("```\n$ true\n");
}

#[test]
#[should_panic(expected = "goes on")]
fn a_command_that_breaks_off_is_told() {
    Page::new("```\n$ true |\n```\n");
}
