//! A Markdown page taken apart: the files that it shows, and its commands with
//! what they print.
//!
//! A file is a fenced block after a line that ends with its name, as in
//! "Save this as `grow.txt`:". Commands stand in a fenced block that begins
//! with `$ `: a line that begins so is a command, which goes on where a line
//! ends with `\` or `|`, and the lines after it are what it prints.

/// What a page says, in its order.
pub struct Page {
    pub steps: Vec<Step>,
    /// The blocks that are neither a file nor commands.
    pub others: Vec<Block>,
}

/// A file to be written, or a command to be run.
pub struct Step {
    /// The line of the page where it begins, from 1.
    pub line: usize,
    pub act: Act,
}

pub enum Act {
    File { name: String, text: String },
    Command { command: String, printed: String },
}

/// A fenced block.
pub struct Block {
    /// The line of its fence, from 1.
    pub line: usize,
    /// What stands after the opening fence.
    pub language: String,
    /// The file that the line before it names.
    name: Option<String>,
    lines: Vec<String>,
}

const FENCE: &str = "```";

const PROMPT: &str = "$ ";

impl Page {
    /// Takes the text of a page apart.
    pub fn new(text: &str) -> Page {
        let (mut steps, mut others) = (Vec::new(), Vec::new());
        for block in blocks(text) {
            match &block.name {
                _ if block.has_commands() => steps.extend(commands(&block)),
                Some(name) => steps.push(file(name, &block)),
                None => others.push(block),
            }
        }
        Page { steps, others }
    }

    /// The names and texts of its files.
    pub fn files(&self) -> impl Iterator<Item = (&str, &str)> {
        self.steps.iter().filter_map(|step| match &step.act {
            Act::File { name, text } => Some((&name[..], &text[..])),
            Act::Command { .. } => None,
        })
    }

    pub fn commands(&self) -> impl Iterator<Item = &str> {
        self.steps.iter().filter_map(|step| match &step.act {
            Act::File { .. } => None,
            Act::Command { command, .. } => Some(&command[..]),
        })
    }
}

impl Block {
    fn has_commands(&self) -> bool {
        let first = self.lines.first();
        first.is_some_and(|line| line.starts_with(PROMPT))
    }
}

/// All fenced blocks of a page.
fn blocks(text: &str) -> Vec<Block> {
    let mut blocks: Vec<Block> = Vec::new();
    let (mut before, mut inside) = ("", false);
    for (line, number) in text.lines().zip(1..) {
        match (line.strip_prefix(FENCE), inside) {
            (Some(language), false) => {
                blocks.push(Block {
                    line: number,
                    language: language.to_owned(),
                    name: name_at_end(before).map(str::to_owned),
                    lines: Vec::new(),
                });
                (before, inside) = ("", true);
            }
            (Some(_), true) => inside = false,
            (None, true) => blocks.last_mut().unwrap().lines.push(line.to_owned()),
            (None, false) if line.is_empty() => {}
            (None, false) => before = line,
        }
    }
    assert!(!inside, "the last block is not closed");
    blocks
}

/// The name in a line that ends with it: "`grow.txt`:".
fn name_at_end(line: &str) -> Option<&str> {
    let (_, name) = line.strip_suffix("`:")?.rsplit_once('`')?;
    is_file_name(name).then_some(name)
}

/// A file of the folder itself, with an ending: `grow.txt`.
fn is_file_name(name: &str) -> bool {
    let is_plain = |letter: char| letter.is_ascii_alphanumeric() || "-_.".contains(letter);
    name.chars().all(is_plain) && name.contains('.') && !name.starts_with('.')
}

fn file(name: &str, block: &Block) -> Step {
    let text = block.lines.iter().map(|line| format!("{line}\n"));
    Step {
        line: block.line,
        act: Act::File {
            name: name.to_owned(),
            text: text.collect(),
        },
    }
}

fn commands(block: &Block) -> Vec<Step> {
    let mut steps = Vec::new();
    let mut lines = block.lines.iter().zip(block.line + 1..).peekable();
    while let Some((first, line)) = lines.next() {
        // A block of commands begins with one, and each takes all lines up to
        // the next.
        let mut command = first.strip_prefix(PROMPT).unwrap().to_owned();
        while command.ends_with(['\\', '|']) {
            let (more, _) = lines.next().expect("the last command goes on");
            command = format!("{command}\n{more}");
        }
        let mut printed = String::new();
        while let Some((line, _)) = lines.next_if(|(line, _)| !line.starts_with(PROMPT)) {
            printed += &format!("{line}\n");
        }
        let act = Act::Command { command, printed };
        steps.push(Step { line, act });
    }
    steps
}
