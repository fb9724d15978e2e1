//! What a function uses of its own file.

use crate::source::{Declaration, Sort, Source};

/// A name in a body, and what is known of where it is looked for.
#[derive(Debug, PartialEq)]
pub enum Named<'a> {
    /// `name`: a function, a constant or a type.
    Alone(&'a str),
    /// `Type::name`, or the call of a method of a value of this type.
    Of(String, &'a str),
    /// The call of a method of a value whose type isn't known here.
    Method(&'a str),
}

impl Named<'_> {
    /// Whether this may be the name of a declaration. What a type has from several traits of one
    /// kind, as `u16::from` from each `impl From<..> for u16`, and what is called on a value whose
    /// type isn't known, is taken for each that it may be: so nothing is left out.
    fn may_be(&self, one: &Declaration) -> bool {
        match self {
            Named::Alone(name) => one.block.is_none() && one.name == *name,
            Named::Of(owner, name) => one.owner() == Some(owner) && one.name == *name,
            Named::Method(name) => {
                one.block.is_some() && one.sort == Sort::Function && one.name == *name
            }
        }
    }
}

/// The declarations of its file that a body names.
pub fn used_in_body<'a>(source: &'a Source, one: &Declaration) -> Vec<&'a Declaration> {
    let body: Vec<&str> = one.body.iter().map(|line| line.trim()).collect();
    let body = body.join(" ").replace(" .", ".");
    let names = names(&body, one);
    let all = source.declarations.iter();
    all.filter(|other| names.iter().any(|name| name.may_be(other)))
        .collect()
}

/// What ends a name: `Type::method` is one.
fn ends(letter: char) -> bool {
    !(letter.is_alphanumeric() || letter == '_' || letter == ':')
}

/// The names in the text of a body.
pub fn names<'a>(body: &'a str, one: &Declaration) -> Vec<Named<'a>> {
    let mut found = Vec::new();
    let mut at = 0;
    for word in body.split(ends) {
        let (before, after) = (&body[..at], &body[at + word.len()..]);
        at += word.len() + after.chars().next().map_or(0, char::len_utf8);
        let name = word.trim_matches(':');
        if name.is_empty() {
            continue;
        }
        let is_called = after.starts_with('(') || word.ends_with("::");
        match (point(before), name.rsplit_once("::")) {
            (Some(value), _) if is_called => found.push(match type_of(value, one) {
                Some(owner) => Named::Of(owner, name),
                None => Named::Method(name),
            }),
            // A field.
            (Some(_), _) => (),
            (None, Some((owner, name))) => found.push(Named::Of(own_type(owner, one), name)),
            (None, None) => found.push(Named::Alone(name)),
        }
    }
    found
}

/// What stands before the point that a text ends with. Two points are a range, or `..self`.
fn point(before: &str) -> Option<&str> {
    let value = before.strip_suffix('.')?;
    (!value.ends_with('.')).then_some(value)
}

/// The type of a value at the end of a text, where it can be told: of `self`, of a parameter, and
/// of what a type has, as the case `Refusal::TooDeep`.
fn type_of(text: &str, one: &Declaration) -> Option<String> {
    let value = text.rsplit(ends).next().unwrap();
    if point(&text[..text.len() - value.len()]).is_some() {
        return None;
    }
    if let Some((owner, _)) = value.rsplit_once("::") {
        let is_type = owner.starts_with(char::is_uppercase);
        return is_type.then(|| own_type(owner, one));
    }
    if value == "self" {
        return one.owner().map(str::to_owned);
    }
    let parameters = one.parameters();
    let (_, of) = parameters.iter().find(|(name, _)| name == value)?;
    let of = of.trim_start_matches('&').split_whitespace();
    let mut of = of.skip_while(|word| *word == "mut" || word.starts_with('\''));
    let name = of.next()?.split('<').next()?;
    let is_open = ["impl", "dyn"].contains(&name) || one.type_parameters().contains(name);
    (!is_open).then(|| name.to_owned())
}

/// The type that `Self` stands for; any other as it is.
fn own_type(name: &str, one: &Declaration) -> String {
    match one.owner() {
        Some(owner) if name == "Self" => owner.to_owned(),
        _ => name.to_owned(),
    }
}
