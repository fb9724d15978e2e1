//! The rows of a page's tables.

/// The cells of a table's row, without the bars around them.
pub fn cells(line: &str) -> Option<Vec<&str>> {
    let inside = line.strip_prefix('|')?.strip_suffix('|')?;
    Some(inside.split('|').map(str::trim).collect())
}

/// The cells of each row of this table, which begins with this heading.
pub fn rows<'a>(text: &'a str, heading: &str) -> Vec<Vec<&'a str>> {
    let (_, after) = text.split_once(heading).expect("a table with this heading");
    let lines = after.lines().skip(2);
    lines.map_while(cells).collect()
}
