//! The words of antt text.

/// A line without its comment.
pub fn without_comment(line: &str) -> &str {
    let mut from = 0;
    while let Some(found) = line[from..].find("--") {
        let at = from + found;
        let begins = line[..at]
            .chars()
            .next_back()
            .is_none_or(char::is_whitespace);
        let rest = line[at + 2..].chars().next();
        let ends = rest.is_none_or(|next| next.is_whitespace() || next == '-');
        if begins && ends {
            return &line[..at];
        }
        from = at + 2;
    }
    line
}

/// A line without its texts between quotation marks.
fn without_texts(line: &str) -> String {
    let outside: Vec<&str> = line.split('"').step_by(2).collect();
    outside.join(" ")
}

/// The words of a line without its comment: names, keywords, numbers and signs. `[]` is a word.
/// What stands right after a point keeps it: `a.b` has `a` and `.b`, as `(a).b` has, and `λ x. y`
/// has `x` and `y`.
pub fn words(line: &str) -> Vec<String> {
    let line = without_texts(without_comment(line)).replace("[]", " \u{1} ");
    let ends = |letter: char| letter.is_whitespace() || "(){}[];,⦃⦄".contains(letter);
    let mut found = Vec::new();
    for word in line.split(ends) {
        for (number, part) in word.split('.').enumerate() {
            let part = part.replace('\u{1}', "[]");
            match number {
                _ if part.is_empty() => (),
                0 => found.push(part),
                _ => found.push(format!(".{part}")),
            }
        }
    }
    found
}

/// Whether some words use a name. An operator, as `◌+◌`, is used where all its parts stand, or
/// itself.
pub fn uses(words: &std::collections::BTreeSet<String>, name: &str) -> bool {
    let mut parts = name.split('◌').filter(|part| !part.is_empty()).peekable();
    let is_operator = name.contains('◌') && parts.peek().is_some();
    words.contains(name) || is_operator && parts.all(|part| words.contains(part))
}
