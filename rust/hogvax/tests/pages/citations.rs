//! Every citation of the customer's description, 01, names a heading of
//! `docs/REFERENCE.md`, every citation of a paper something that its section
//! "Papers" lists, and what is quoted of a change request stands in its section
//! "Change requests".
//!
//! In the comments of the crates each mention of 01, 000, 003 or a change request
//! is a citation: `01, Tokens: ".."`, `000, Figure 6`, `N3: ".."`. What stands
//! inside quotation marks is the cited text and may mention them otherwise. In the
//! documents a citation is a mention that is followed by a capital or by a name in
//! quotation marks; of a change request, one that is followed by a quotation.

use std::fs;
use std::path::{Path, PathBuf};

use crate::compiler::repository;
use crate::names::documents;
use crate::trial;

/// The page with the headings.
pub const PAGE: &str = "docs/REFERENCE.md";

/// What may be cited: the headings of the page, what it lists of papers, and the
/// change requests.
pub struct Citable {
    headings: Vec<String>,
    papers: String,
    requests: Vec<String>,
}

impl Citable {
    pub fn new(page: &str) -> Citable {
        let requests = section(page, "Change requests");
        let texts = requests.split("\n\n").map(str::trim);
        let requests = texts.filter(|text| text.starts_with('>'));
        Citable {
            headings: headings(page),
            papers: section(page, "Papers"),
            requests: requests.map(|text| text.replace("\n> ", " ")).collect(),
        }
    }

    /// The text of a change request, on one line.
    fn request(&self, source: &str) -> Option<&String> {
        let beginning = format!("> **{source}. ");
        let mut requests = self.requests.iter();
        requests.find(|text| text.starts_with(&beginning))
    }

    /// Whether the text of the change request has what is quoted; `..` stands for
    /// words left out.
    fn has(&self, source: &str, quoted: &str) -> bool {
        let mut rest = self.request(source).map(String::as_str);
        for piece in quoted.split("..").map(str::trim) {
            let found = rest.and_then(|text| text.split_once(piece));
            rest = found.map(|(_, after)| after);
        }
        rest.is_some()
    }

    /// Whether what follows a mention of the source makes a citation of it.
    fn holds(&self, source: &str, after: &str) -> bool {
        if is_request(source) {
            return self.request(source).is_some();
        }
        let Some(name) = after.strip_prefix(", ") else {
            return false;
        };
        if source == "01" {
            let name = name.strip_prefix('"').unwrap_or(name);
            return self.headings.iter().any(|heading| begins(name, heading));
        }
        let mut words = name.split(' ');
        let (kind, number) = (words.next(), words.next().unwrap_or(""));
        let number = number.trim_end_matches(|letter: char| !letter.is_ascii_digit());
        let listed = format!("| {source}, {} {number} |", kind.unwrap_or(""));
        !number.is_empty() && self.papers.contains(&listed)
    }
}

/// The headings of a page below its title, fenced blocks aside.
pub fn headings(page: &str) -> Vec<String> {
    let outside = page.split("\n```").step_by(2);
    let lines = outside.flat_map(str::lines);
    let headings = lines.filter(|line| line.starts_with("##"));
    let names = headings.map(|line| line.trim_start_matches('#').trim().to_owned());
    names.collect()
}

/// The text under a heading, up to the next one.
pub fn section(page: &str, heading: &str) -> String {
    let lines = page.lines().skip_while(|line| {
        let name = line
            .strip_prefix("##")
            .map(|rest| rest.trim_start_matches('#'));
        name.map(str::trim) != Some(heading)
    });
    let inside = lines.skip(1).take_while(|line| !line.starts_with("##"));
    inside.map(|line| format!("{line}\n")).collect()
}

/// Whether the text begins with the whole name.
fn begins(text: &str, name: &str) -> bool {
    let rest = text.strip_prefix(name);
    rest.is_some_and(|rest| {
        !rest.starts_with(|letter: char| letter.is_alphanumeric() || letter == '-')
    })
}

/// What is cited by a number: documents, then change requests.
const SOURCES: [&str; 4] = ["01", "000", "003", "N3"];

fn is_request(source: &str) -> bool {
    source.starts_with('N')
}

/// Each mention of a source in a text, with what follows it. A byte of a row of
/// bytes, as in `02 01 05`, and a part of a number or a name are none.
fn mentions(text: &str) -> Vec<(&'static str, &str)> {
    let mut found = Vec::new();
    for source in SOURCES {
        for (at, _) in text.match_indices(source) {
            let (before, after) = (&text[..at], &text[at + source.len()..]);
            let joins = |letter: char| letter.is_alphanumeric() || "-.,_^".contains(letter);
            let digit_behind = after.starts_with([',', '.'])
                && after[1..].starts_with(|letter: char| letter.is_ascii_digit());
            let goes_on =
                after.starts_with(|letter: char| letter.is_alphanumeric() || letter == '-');
            if !before.ends_with(joins) && !goes_on && !digit_behind && !among_bytes(before, after)
            {
                found.push((source, after));
            }
        }
    }
    found
}

/// Whether a byte in hexadecimal stands right before or after.
fn among_bytes(before: &str, after: &str) -> bool {
    let is_byte = |word: Option<&str>| {
        let digits =
            word.map(|word| word.trim_end_matches(|letter: char| !letter.is_ascii_hexdigit()));
        digits.is_some_and(|digits| {
            digits.len() == 2 && digits.chars().all(|letter| letter.is_ascii_hexdigit())
        })
    };
    let next = after
        .strip_prefix(' ')
        .and_then(|rest| rest.split(' ').next());
    let last = before
        .strip_suffix(' ')
        .and_then(|rest| rest.rsplit(' ').next());
    is_byte(next) || is_byte(last)
}

/// The comments of a source file, each run of whole-line comments as one text,
/// with the line where it begins, from 1.
fn comments(text: &str) -> Vec<(usize, String)> {
    let mut comments: Vec<(usize, String)> = Vec::new();
    let mut inside = false;
    for (line, number) in text.lines().zip(1..) {
        let words = line.trim_start();
        let comment = words.strip_prefix("--").or(words.strip_prefix("//"));
        match (comment, inside) {
            (Some(more), true) => {
                let (_, comment) = comments.last_mut().unwrap();
                *comment += &format!(" {}", more.trim());
            }
            (Some(first), false) => comments.push((number, first.trim().to_owned())),
            (None, _) => {}
        }
        inside = comment.is_some();
    }
    comments
}

/// A text without what stands between quotation marks, where these are pairs.
fn unquoted(text: &str) -> String {
    let pieces: Vec<&str> = text.split('"').collect();
    match pieces.len() % 2 {
        1 => pieces.into_iter().step_by(2).collect::<Vec<_>>().join("\""),
        _ => text.to_owned(),
    }
}

/// The quotations of a comment, each with its source: the one mentioned last
/// between it and the quotation before it, or that one's where no word is between.
fn quotations(comment: &str) -> Vec<(&'static str, &str)> {
    let pieces: Vec<&str> = comment.split('"').collect();
    let (mut found, mut last) = (Vec::new(), None);
    for pair in pieces.chunks_exact(2) {
        let mentions = mentions(pair[0]);
        let nearest = mentions.iter().min_by_key(|(_, after)| after.len());
        let goes_on = !pair[0].contains(char::is_alphanumeric);
        last = nearest
            .map(|(source, _)| *source)
            .or(last.filter(|_| goes_on));
        found.extend(last.map(|source| (source, pair[1])));
    }
    found
}

/// The citations of a source file that are wrong, and how many it has.
fn in_source(text: &str, citable: &Citable) -> (Vec<String>, usize) {
    let (mut wrong, mut all) = (Vec::new(), 0);
    for (line, comment) in comments(text) {
        let quoted = quotations(&comment).into_iter();
        let misquoted =
            quoted.filter(|(source, quoted)| is_request(source) && !citable.has(source, quoted));
        wrong.extend(misquoted.map(|(source, quoted)| format!("{line}: {source}: {quoted:?}")));
        let comment = unquoted(&comment);
        let mentions = mentions(&comment);
        all += mentions.len();
        let missed = mentions
            .iter()
            .filter(|(source, after)| !citable.holds(source, after));
        wrong.extend(missed.map(|(source, after)| format!("{line}: {source}{}", opening(after))));
    }
    (wrong, all)
}

/// The citations of a document that are wrong, and how many it has.
fn in_document(text: &str, citable: &Citable) -> (Vec<String>, usize) {
    let outside: Vec<&str> = text.split("\n```").step_by(2).collect();
    let joined = outside.join("\n").replace('\n', " ");
    let mut cited = mentions(&joined);
    cited.retain(|(source, after)| {
        let name = after.strip_prefix(", ").unwrap_or("");
        let is_named = name.starts_with(|letter: char| letter.is_uppercase() || letter == '"');
        is_named || is_request(source) && quotation(after).is_some()
    });
    let wrong = cited.iter().filter(|(source, after)| {
        let is_quoted = quotation(after).is_none_or(|quoted| citable.has(source, quoted));
        !citable.holds(source, after) || is_request(source) && !is_quoted
    });
    let wrong = wrong.map(|(source, after)| format!("{source}{}", opening(after)));
    (wrong.collect(), cited.len())
}

/// What is quoted right after a mention.
fn quotation(after: &str) -> Option<&str> {
    let quoted = after.strip_prefix(": \"")?;
    quoted.split('"').next().filter(|text| *text != "..")
}

/// The first letters of a text, to show where it stands.
fn opening(text: &str) -> String {
    text.chars().take(50).collect()
}

/// The definitions, proofs and code of all crates; what is made of them stands in `out/`.
fn sources(folder: &Path) -> Vec<PathBuf> {
    let mut found = Vec::new();
    for entry in fs::read_dir(folder).unwrap() {
        let path = entry.unwrap().path();
        if path.ends_with("out") {
            continue;
        }
        if path.is_dir() {
            found.extend(sources(&path));
        } else if path
            .extension()
            .is_some_and(|end| end == "antt" || end == "rt")
        {
            found.push(path);
        }
    }
    found
}

#[test]
fn every_citation_names_a_heading() {
    let citable = Citable::new(&trial::text(PAGE));
    let (mut wrong, mut in_crates) = (Vec::new(), 0);
    for path in sources(&repository("crates")) {
        let (missed, all) = in_source(&fs::read_to_string(&path).unwrap(), &citable);
        wrong.extend(missed.iter().map(|one| format!("{path:?}: {one}")));
        in_crates += all;
    }
    for path in documents() {
        let (missed, _) = in_document(&fs::read_to_string(&path).unwrap(), &citable);
        wrong.extend(missed.iter().map(|one| format!("{path:?}: {one}")));
    }
    assert_eq!(wrong, [""; 0]);
    assert!(in_crates >= 250, "{in_crates}");
}

#[test]
fn a_citation_without_a_heading_is_found() {
    let page = "# Title\n\n## Papers\n\n| 000, Figure 6 | rules |\n\n## Change requests\n\n\
        > **N3. Sums.** Add now refuses\n> where the sum lies outside.\n\n\
        ## Tokens\n\n### Pass one\n";
    let citable = Citable::new(page);
    let headings = ["Papers", "Change requests", "Tokens", "Pass one"];
    assert_eq!(citable.headings, headings);
    for (comment, wrong, all) in [
        ("-- 01, Tokens: \"A node is byte 2\".", 0, 1),
        ("-- 01: \"A node is byte 2\".", 1, 1),
        ("-- Document 01 says so.", 1, 1),
        ("-- document 01's tree", 1, 1),
        ("-- 01, Token: \"A node\".", 1, 1),
        ("-- 01, Tokensmith: \"A node\".", 1, 1),
        ("-- A tree. 01,\n-- Pass\n-- one: \"then type\".", 0, 1),
        ("-- 000, Figure 6, in words; 000, Figure 66.", 1, 2),
        (
            "-- \"This is document 000's\", 02 01 05, 1,000, Let-01, 0.01, 2.000",
            0,
            0,
        ),
        ("x01 = 01 -- no comment of its own", 0, 0),
        ("// 000's fix", 1, 1),
        (
            "-- N3: \"Add now refuses\n-- where\"; \"Add .. outside.\"",
            0,
            1,
        ),
        ("-- N3: \"Add refuses\".", 1, 1),
        ("-- N3: \"outside. .. Add\".", 1, 1),
        ("-- N3: \"Add\"; \"Add refuses\".", 1, 1),
        ("-- N3: \"Add\". An \"other\" one.", 0, 1),
        ("-- 01, Tokens: \"Add refuses\". N3 says it too.", 0, 2),
        ("-- N3 says it, and 01, Tokens: \"Add refuses\".", 0, 2),
    ] {
        let (missed, found) = in_source(comment, &citable);
        assert_eq!((missed.len(), found), (wrong, all), "{comment}");
    }
    let text =
        "01 has it; 01, Tokens has it; ## Document 01, \"Pass one\"\n\n01, Words; 01, the rest";
    let (missed, found) = in_document(text, &citable);
    assert_eq!((missed.len(), found), (1, 3), "{missed:?}");
    let text = "N3 has it, `N3: \"..\"`; N3: \"Add now\nrefuses\"; N3: \"Add refuses\"";
    let (missed, found) = in_document(text, &citable);
    assert_eq!((missed.len(), found), (1, 2), "{missed:?}");
}
