//! How generated text is laid out.

/// The most columns of a line.
const COLUMNS: usize = 100;

/// The second line of every page that is generated here.
pub const MADE: &str =
    "Generated: `cargo run --release --offline -p pages` in `rust/` writes this page.";

/// A paragraph or a list item, in lines of at most 100 columns. Lines after the first one begin
/// with `indent`. A text between backticks is not parted.
pub fn wrapped(first: &str, indent: &str, text: &str) -> String {
    let (mut all, mut line) = (String::new(), first.to_owned());
    let mut is_empty = true;
    for word in unparted(text) {
        if !is_empty && line.chars().count() + 1 + word.chars().count() > COLUMNS {
            all.push_str(&line);
            all.push('\n');
            line = indent.to_owned();
            is_empty = true;
        }
        if !is_empty {
            line.push(' ');
        }
        line.push_str(&word);
        is_empty = false;
    }
    all + &line + "\n"
}

/// The words of a text, those inside backticks joined.
fn unparted(text: &str) -> Vec<String> {
    let mut words: Vec<String> = Vec::new();
    let mut is_open = false;
    for word in text.split_whitespace() {
        match words.last_mut() {
            Some(last) if is_open => {
                last.push(' ');
                last.push_str(word);
            }
            _ => words.push(word.to_owned()),
        }
        is_open ^= word.matches('`').count() % 2 == 1;
    }
    words
}

/// Names between backticks, with commas.
pub fn quoted<T: AsRef<str>>(names: impl IntoIterator<Item = T>) -> String {
    let names = names.into_iter();
    let names: Vec<String> = names.map(|name| format!("`{}`", name.as_ref())).collect();
    names.join(", ")
}

/// A number, its thousands set off: 4,128.
pub fn number(number: usize) -> String {
    match number / 1000 {
        0 => number.to_string(),
        thousands => format!("{},{:03}", self::number(thousands), number % 1000),
    }
}

/// A number with its noun: `1 file`, `2 files`.
pub fn counted(number: usize, noun: &str) -> String {
    let end = if number == 1 { "" } else { "s" };
    format!("{} {noun}{end}", self::number(number))
}

/// A text that begins with a capital letter and ends with a full stop.
pub fn sentence(text: &str) -> String {
    let mut letters = text.chars();
    let first = letters.next().map(char::to_uppercase);
    let mut all: String = first.into_iter().flatten().chain(letters).collect();
    if !all.ends_with('.') {
        all.push('.');
    }
    all
}
