//! The public functions, and what each of them rests on in its own crate.

use crate::edits::Edit;
use crate::project::Project;
use crate::source::{Declaration, Sort, Source};
use crate::uses::used_in_body;

/// A public function.
pub struct Function<'a> {
    pub place: &'a str,
    pub source: &'a Source,
    pub declaration: &'a Declaration,
}

/// The public functions of a crate, and the `main` of a program.
pub fn public<'a>(project: &'a Project, place: &'a str) -> Vec<Function<'a>> {
    let mut found = Vec::new();
    for source in project.sources_of(place) {
        let all = source.declarations.iter();
        let functions = all.filter(|one| one.sort == Sort::Function);
        let public = functions.filter(|one| one.is_public || one.name == "main");
        found.extend(public.map(|declaration| Function {
            place,
            source,
            declaration,
        }));
    }
    found
}

impl Function<'_> {
    /// What no other function has: its crate and its name, and the `impl` that it stands in.
    pub fn title(&self) -> String {
        format!("{}: {}", self.place, self.declaration.full_name())
    }

    /// The same as a page has it: crate and name as documents cite them, between backticks.
    pub fn shown(&self) -> String {
        let cited = format!("`{}: {}`", self.place, self.declaration.name);
        match &self.declaration.block {
            Some(block) => format!("{cited} of `{block}`"),
            None => cited,
        }
    }

    /// It, and the declarations of its file that it uses, directly or not.
    pub fn uses(&self) -> Vec<&Declaration> {
        self.used(|_| true)
    }

    /// The same, without other public functions that have contracts, and what these use: what an
    /// edit shows there, it shows of their contracts.
    fn own(&self) -> Vec<&Declaration> {
        self.used(|one| {
            let is_public = one.is_public && one.has_contract();
            std::ptr::eq(one, self.declaration) || !is_public
        })
    }

    fn used(&self, counts: impl Fn(&Declaration) -> bool) -> Vec<&Declaration> {
        let (mut used, mut open) = (Vec::<&Declaration>::new(), vec![self.declaration]);
        while let Some(one) = open.pop() {
            if counts(one) && !used.iter().any(|known| std::ptr::eq(*known, one)) {
                used.push(one);
                open.extend(used_in_body(self.source, one));
                open.extend(self.constants_of(one));
            }
        }
        used
    }

    /// The constants of its file that the types of a function's parameters name.
    fn constants_of(&self, one: &Declaration) -> Vec<&Declaration> {
        let text = one.contract.join(" ");
        let is_name = |letter: char| letter.is_ascii_uppercase() || letter == '_';
        let words = text.split(|letter: char| !is_name(letter) && !letter.is_ascii_digit());
        let long = words.filter(|word| word.len() > 1);
        long.filter_map(|word| self.source.find(word)).collect()
    }

    /// The edits that change it, or what it uses of its own crate.
    pub fn edits<'a>(&self, edits: &'a [Edit]) -> Vec<&'a Edit> {
        self.changing(edits, self.uses())
    }

    /// Those of its own: what changes other public functions alone is left out.
    pub fn own_edits<'a>(&self, edits: &'a [Edit]) -> Vec<&'a Edit> {
        self.changing(edits, self.own())
    }

    fn changing<'a>(&self, edits: &'a [Edit], used: Vec<&Declaration>) -> Vec<&'a Edit> {
        let used: Vec<String> = used.into_iter().map(Declaration::full_name).collect();
        let here = |edit: &&Edit| edit.place == self.place && !edit.is_of_definition();
        let changes = |edit: &&Edit| edit.changes.iter().any(|name| used.contains(name));
        edits.iter().filter(here).filter(changes).collect()
    }

    /// Whether it, or what it uses of its own crate, names this function, as `crate::function`.
    pub fn calls(&self, path: &str) -> bool {
        let mut used = self.uses().into_iter();
        used.any(|one| one.body_names().contains(path))
    }

    /// The function of another crate that it forwards to: its body is one call with its own
    /// parameters in their order, and its contract is that function's, word for word.
    pub fn forwards_to<'a>(&self, project: &'a Project) -> Option<Function<'a>> {
        let body = self.declaration.body.iter().map(|line| line.trim());
        let body: Vec<&str> = body.filter(|line| !["{", "}"].contains(line)).collect();
        let [call] = body[..] else { return None };
        let (path, given) = call.strip_suffix(')')?.split_once('(')?;
        let (place, name) = path.split_once("::")?;
        let place = project.crates.iter().find(|one| *one == place)?;
        let mut others = public(project, place).into_iter();
        let other = others.find(|one| one.declaration.full_name() == name)?;
        let same = self.declaration.promises() == other.declaration.promises();
        let parameters = self.declaration.parameters().into_iter();
        let names: Vec<String> = parameters.map(|(name, _)| name).collect();
        (same && given == names.join(", ")).then_some(other)
    }
}
