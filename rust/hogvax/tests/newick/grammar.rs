//! Newick text read another way: first into items, then by recursion on them.
//! It says what is accepted, and not why the rest is refused.

use hogvax::newick::Trees;
use reference::{Token, DEPTH_LIMIT};

#[derive(Debug, PartialEq)]
enum Item {
    Sign(char),
    Bare(String),
    Quoted(String),
}

/// What a text's trees are, if it is right.
pub fn trees(text: &[u8]) -> Option<Trees> {
    let text: Vec<char> = std::str::from_utf8(text).ok()?.chars().collect();
    let items = items(&text)?;
    let mut parser = Parser {
        items: &items,
        trees: Trees::default(),
    };
    while !parser.items.is_empty() {
        parser.branch(0)?;
        parser.sign(';')?;
        parser.trees.trees += 1;
    }
    Some(parser.trees)
}

/// The items of a text, without what is blank.
fn items(text: &[char]) -> Option<Vec<Item>> {
    let mut items = Vec::new();
    let mut rest = text;
    while let Some((&first, behind)) = rest.split_first() {
        let length = match first {
            ' ' | '\t' | '\r' | '\n' => 1,
            '[' => comment(rest)?,
            '\'' => {
                let (name, length) = quoted(behind)?;
                items.push(Item::Quoted(name));
                length + 1
            }
            '(' | ')' | ',' | ':' | ';' => {
                items.push(Item::Sign(first));
                1
            }
            _ => {
                let name: String = rest.iter().take_while(|&&c| is_bare(c)).collect();
                let length = name.chars().count();
                items.push(Item::Bare(name));
                // A character that is in no item ends a name and is none.
                Some(length).filter(|&length| length > 0)?
            }
        };
        rest = &rest[length..];
    }
    Some(items)
}

fn is_bare(character: char) -> bool {
    !character.is_control() && !"()[]:;,' ".contains(character)
}

/// The length of the comment that begins here.
fn comment(text: &[char]) -> Option<usize> {
    let mut open = 0;
    let end = text.iter().position(|character| {
        open += i32::from(*character == '[') - i32::from(*character == ']');
        open == 0
    });
    Some(end? + 1)
}

/// The name in quotes, of which the first has been read, and its length with the
/// last one.
fn quoted(text: &[char]) -> Option<(String, usize)> {
    let mut name = String::new();
    let mut place = 0;
    loop {
        match (text.get(place)?, text.get(place + 1)) {
            ('\'', Some('\'')) => {
                name.push('\'');
                place += 2;
            }
            ('\'', _) => return Some((name, place + 1)),
            (character, _) => {
                name.push(*character);
                place += 1;
            }
        }
    }
}

struct Parser<'a> {
    items: &'a [Item],
    trees: Trees,
}

impl Parser<'_> {
    fn is_next(&self, sign: char) -> bool {
        self.items.first() == Some(&Item::Sign(sign))
    }

    fn take(&mut self) -> Option<&Item> {
        let (first, rest) = self.items.split_first()?;
        self.items = rest;
        Some(first)
    }

    fn sign(&mut self, sign: char) -> Option<()> {
        self.is_next(sign).then(|| self.take())?;
        Some(())
    }

    fn branch(&mut self, above: usize) -> Option<()> {
        if self.is_next('(') {
            self.fork(above)?;
        } else {
            let (Item::Bare(name) | Item::Quoted(name)) = self.take()? else {
                return None;
            };
            let label = name.parse().ok()?;
            Token::Leaf(label).write(&mut self.trees.tokens);
        }
        if self.is_next(':') {
            self.take();
            let length = matches!(self.take()?, Item::Bare(length) if is_length(length));
            length.then_some(())?;
            self.trees.lengths += 1;
        }
        Some(())
    }

    fn fork(&mut self, above: usize) -> Option<()> {
        if above == DEPTH_LIMIT {
            return None;
        }
        Token::Node.write(&mut self.trees.tokens);
        self.sign('(')?;
        self.branch(above + 1)?;
        self.sign(',')?;
        self.branch(above + 1)?;
        self.sign(')')?;
        if let Some(Item::Bare(_) | Item::Quoted(_)) = self.items.first() {
            self.take();
            self.trees.names += 1;
        }
        Some(())
    }
}

/// Rust's own numbers, without those that are words.
fn is_length(length: &str) -> bool {
    let is_part = |byte: u8| byte.is_ascii_digit() || b"+-.eE".contains(&byte);
    length.bytes().all(is_part) && length.parse::<f64>().is_ok()
}
