//! The tables have a cell for each column.

use crate::memory::Used;
use crate::tables::{grouped, memory_row, times_row, MEMORY_HEADING, TIMES_HEADING};
use crate::times::Timed;

/// The cells of a row that begins and ends with a bar.
fn cells(row: &str) -> Vec<&str> {
    let inner = row.strip_prefix('|').and_then(|row| row.strip_suffix('|'));
    inner.expect("bars").split('|').map(str::trim).collect()
}

fn assert_columns(heading: &str, row: &str) {
    for line in heading.lines() {
        assert_eq!(cells(line).len(), cells(row).len(), "{line}");
    }
}

fn used(peak: u64) -> Option<Used> {
    Some(Used {
        input: 1_000_000,
        output: 1_000_000,
        before: 1_500_000,
        peak,
    })
}

#[test]
fn a_row_of_memory_has_every_column() {
    let all = [used(4_510_000), used(4_500_000), used(1_234_000_000)];
    let row = memory_row("Grow", 1, &all);
    assert_columns(MEMORY_HEADING, &row);
    let expected = "| Grow | 1 | 2 | 0.50 | 2.51 | 2.50 | 1,232 | 1232.0 |";
    assert_eq!(row, expected);
    let row = memory_row("Grow", 200, &[used(4_510_000), used(4_500_000), None]);
    assert_eq!(row, "| Grow | 200 | 2 | 0.50 | 2.51 | 2.50 | - | - |");
    let row = memory_row("Sum", 200, &[None; 3]);
    assert_eq!(row, "| Sum | 200 | - | - | - | - | - | - |");
}

#[test]
fn a_row_of_times_has_every_column() {
    let timed = Timed {
        seconds: [Some(0.5), Some(1.0), Some(20.0)],
        ratios: [Some(1.0), Some(2.0), Some(40.0)],
    };
    let row = times_row("Sum", 1_000, &timed);
    assert_columns(TIMES_HEADING, &row);
    assert_eq!(row, "| Sum | 1,000 | 2,000 | 1,000 | 50 | 2.00 | 40.0 |");
    let row = times_row("Sum", 5, &Timed::default());
    assert_eq!(row, "| Sum | 5 | - | - | - | - | - |");
}

#[test]
fn digits_are_grouped_by_three() {
    for (number, text) in [
        (0, "0"),
        (999, "999"),
        (1_000, "1,000"),
        (12_345, "12,345"),
        (999_999, "999,999"),
        (1_000_000, "1,000,000"),
    ] {
        assert_eq!(grouped(number), text);
    }
}
