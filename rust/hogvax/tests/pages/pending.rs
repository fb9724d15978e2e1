//! The tables of `docs/WRITING.md` that go through a program step by step: the
//! records are the program's, and the pending trees follow the rules.

use hogvax::assembly::{read, show, Numbers};

use crate::trial;

const PAGE: &str = "docs/WRITING.md";

/// The heading of such a table.
const HEADING: &str = "| record | what it does | pending before | pending after |";

/// A row: its records, what it does, and the pending trees before and after.
type Row = [String; 4];

/// The tables, each without its heading.
fn tables(text: &str) -> Vec<Vec<Row>> {
    let behind = text.split(HEADING).skip(1);
    let rows = behind.map(|table| {
        let lines = table.lines().skip(2);
        lines.take_while(|line| line.starts_with('|')).map(row)
    });
    rows.map(Iterator::collect).collect()
}

fn row(line: &str) -> Row {
    let cells = line.trim_matches('|').split('|');
    let cells: Vec<String> = cells.map(|cell| cell.trim().to_owned()).collect();
    cells.try_into().expect("a row of four cells")
}

/// The numbers and records of a program of the page, as `show` prints them.
fn records(name: &str) -> Vec<(String, String)> {
    let page = trial::read(PAGE);
    let (_, text) = page.files().find(|file| file.0 == name).unwrap();
    let file = hogvax::pack(&read(text.as_bytes()).unwrap().records).unwrap();
    let shown = show(&file, Numbers::Shown).unwrap();
    let lines = shown.lines().filter_map(|line| {
        let line = line.split('#').next()?.trim();
        let (number, record) = line.split_once(' ')?;
        Some((number.to_owned(), record.trim().to_owned()))
    });
    lines.collect()
}

/// The records of a row: "4 `Add`, 5 `Var 0`" are two, and "the end" is none.
fn listed(cell: &str) -> Vec<(String, String)> {
    let pieces: Vec<&str> = cell.split('`').collect();
    let pairs = pieces.chunks_exact(2).map(|pair| {
        let number = pair[0].rsplit([' ', ',']).find(|word| !word.is_empty());
        (number.unwrap().to_owned(), pair[1].to_owned())
    });
    pairs.collect()
}

/// What a list of pending trees looks like.
fn list(trees: &[&str]) -> String {
    match trees {
        [] => "none".to_owned(),
        trees => trees.join(", "),
    }
}

/// The lists of this row follow the rules. Whether it is refused.
fn is_refused([records, does, before, after]: &Row) -> bool {
    let (_, last) = listed(records).pop().unwrap();
    let pending: Vec<&str> = before.split(", ").filter(|&tree| tree != "none").collect();
    let words: Vec<&str> = last.split(' ').collect();
    let asked = match words[..] {
        ["Case", tree] | ["Call", _, "on", tree] => format!("tree {tree}"),
        _ => {
            assert_eq!(before, after, "{records}");
            return false;
        }
    };
    let Some((_, rest)) = pending.split_first().filter(|(first, _)| **first == asked) else {
        assert!(
            does.ends_with(": **refused**") && after.is_empty(),
            "{records}"
        );
        return true;
    };
    let expected = match words[0] {
        "Call" => list(rest),
        _ => {
            let parts = [&["tree 1", "tree 2"], rest].concat();
            let [leaf, node] = [list(rest), list(&parts)];
            format!("{leaf} in the leaf part; {node} in the node part")
        }
    };
    assert_eq!(*after, expected, "{records}");
    false
}

#[test]
fn the_tables_go_through_their_programs() {
    let tables = tables(&trial::text(PAGE));
    let programs = [("grow.txt", false), ("swap.txt", true)];
    assert_eq!(tables.len(), programs.len());
    for (table, (name, refused)) in tables.iter().zip(programs) {
        let steps = table.iter().filter(|row| !listed(&row[0]).is_empty());
        let steps: Vec<&Row> = steps.collect();
        let listed: Vec<_> = steps.iter().flat_map(|row| listed(&row[0])).collect();
        // The function's own record comes first, and the last Call of `swap`
        // stands after the one that is refused.
        let records = records(name);
        assert_eq!(
            listed,
            records[1..records.len() - usize::from(refused)],
            "{name}"
        );
        let told: Vec<bool> = steps.iter().map(|row| is_refused(row)).collect();
        let (last, others) = told.split_last().unwrap();
        assert!(others.iter().all(|told| !told), "{name}");
        assert_eq!(*last, refused, "{name}");
    }
}
