//! What the sample programs give on the sample trees.

use std::path::{Path, PathBuf};
use std::process::{Command, Stdio};

use super::*;

/// The lines of a README table, each cell without its marks.
fn table(heading: &str) -> Vec<Vec<String>> {
    let readme = fs::read_to_string(samples("README.md")).unwrap();
    let section = section(&readme, heading);
    let lines = section.lines().filter(|line| line.starts_with("| `"));
    let cells = lines.map(|line| line.trim_matches('|').split('|'));
    let cell = |cell: &str| cell.trim().trim_matches('`').to_owned();
    cells.map(|cells| cells.map(cell).collect()).collect()
}

/// The tree that begins such a text: `(a,b)` for a node, its label for a leaf;
/// and the rest of the text.
fn tree(text: &str) -> (Tree, &str) {
    if let Some(rest) = text.strip_prefix('(') {
        let (left, rest) = tree(rest);
        let (right, rest) = tree(rest.strip_prefix(',').unwrap());
        return (Tree::node(left, right), rest.strip_prefix(')').unwrap());
    }
    let end = text.find([',', ')']).unwrap_or(text.len());
    let (label, rest) = text.split_at(end);
    (Tree::leaf(label.parse().unwrap()), rest)
}

fn tokens(text: &str) -> Vec<u8> {
    let (tree, rest) = tree(text);
    assert_eq!(rest, "");
    tree.tokens()
}

#[test]
fn the_token_files_are_what_the_readme_says() {
    assert_eq!(bytes("small.tokens"), tokens("(5,7)"));
    let clades = "((1,(2,(3,(4,5)))),((6,7),(8,9)))";
    assert_eq!(bytes("clades.tokens"), tokens(clades));
    let readme = fs::read_to_string(samples("README.md")).unwrap();
    assert!(readme.contains("\n| `clades.tokens` | ") && readme.contains(clades));
}

/// Every program on every token file, by this verb, as the README's table says.
fn each_gives_what_is_said(verb: &str, heading: &str) {
    let rows = table(heading);
    let mut runs: Vec<(&str, &str)> = Vec::new();
    for row in &rows {
        let [name, file, data, line] = &row[..] else {
            panic!("not four cells: {row:?}");
        };
        let program = format!("samples/programs/{name}.program");
        let output = hogvax_at_root(&[verb, &program, &format!("samples/{file}")]);
        let data = match data.as_str() {
            "nothing" => vec![],
            tree if tree.starts_with('(') => tokens(tree),
            number => format!("{number}\n").into_bytes(),
        };
        assert_eq!(output.stdout, data, "{row:?}");
        assert_eq!(
            String::from_utf8(output.stderr).unwrap(),
            format!("{line}\n")
        );
        let status = i32::from(line.starts_with("refused "));
        assert_eq!(output.status.code(), Some(status), "{row:?}");
        runs.push((file, name));
    }
    let names = programs().map(|(name, _)| name);
    let on_each = |file| names.map(|name| (file, name));
    let all = [on_each("small.tokens"), on_each("clades.tokens")].concat();
    assert_eq!(runs, all);
}

#[test]
fn runs_give_what_the_readme_says() {
    each_gives_what_is_said("run", "Running the programs");
}

#[test]
fn source_runs_give_what_the_readme_says() {
    each_gives_what_is_said("source", "Evaluating the programs");
}

/// The commands of the README, each with what is said of it.
fn commands(readme: &str) -> Vec<(&str, &str)> {
    let lines: Vec<&str> = readme.lines().collect();
    let pairs = lines.windows(2);
    let pairs = pairs.filter_map(|pair| Some((pair[0].strip_prefix("    ./hogvax ")?, pair[1])));
    pairs.collect()
}

/// The last line that each prints stands after the last colon.
#[test]
fn the_commands_print_what_the_readme_says() {
    let readme = fs::read_to_string(samples("README.md")).unwrap();
    let folder = Path::new(env!("CARGO_TARGET_TMPDIR")).join("samples");
    fs::create_dir_all(&folder).unwrap();
    let place = |word: &str| match word.strip_prefix("samples/") {
        Some(name) => samples(name),
        None => PathBuf::from(word),
    };
    let commands = commands(&readme);
    for (words, said) in &commands {
        let mut command = Command::new(env!("CARGO_BIN_EXE_hogvax"));
        command.current_dir(&folder).stdin(Stdio::null());
        let output = command.args(words.split(' ').map(place)).output().unwrap();
        let printed = String::from_utf8([output.stdout, output.stderr].concat()).unwrap();
        let last = said
            .rsplit_once(": ")
            .map_or("12 13 0 0 0", |(_, line)| line);
        assert_eq!(printed.lines().last(), Some(last), "{words}");
    }
    assert_eq!(commands.len(), 14);
}
