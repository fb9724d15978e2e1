//! The `use` lines of antt files, and of contracts in Rattle files.

/// Where a name of another file stands.
#[derive(Clone, Debug, PartialEq, Eq, PartialOrd, Ord)]
pub enum Module {
    /// A file of this project, as `formats/specs/Reader`.
    File(String),
    /// A struct or an enum of a crate's Rattle source.
    Declared { place: String, name: String },
    /// A module of the kit's library.
    Kit(String),
}

/// A name that a `use` line brings in: what it is called there, and here.
#[derive(Clone, Debug, PartialEq)]
pub struct Name {
    pub there: String,
    pub here: String,
}

/// A `use` line. A module that is brought in whole has one name here and `None` there.
#[derive(Clone, Debug, PartialEq)]
pub struct Import {
    pub module: Module,
    pub names: Vec<Name>,
    pub whole: Option<String>,
}

impl Import {
    /// What a line brings in, if it is a `use` line. `crates` are the project's.
    pub fn new(line: &str, crates: &[String]) -> Option<Import> {
        let said = line.strip_prefix("use ")?.trim_end_matches(';').trim();
        let (path, names, whole) = match said.split_once(".{") {
            Some((path, names)) => (path, listed(names.strip_suffix('}')?), None),
            None => {
                let (path, alias) = renamed(said);
                (path, Vec::new(), Some(alias))
            }
        };
        let whole = whole.map(|alias| alias.rsplit('.').next().unwrap().to_owned());
        let module = Module::new(path, crates);
        Some(Import {
            module,
            names,
            whole,
        })
    }
}

/// `a as b` is a, called b here.
fn renamed(said: &str) -> (&str, &str) {
    let (there, here) = said.split_once(" as ").unwrap_or((said, said));
    (there.trim(), here.trim())
}

fn listed(names: &str) -> Vec<Name> {
    let names = names.split(',').map(renamed);
    let names = names.filter(|(there, _)| !there.is_empty());
    let owned = names.map(|(there, here)| Name {
        there: there.to_owned(),
        here: here.to_owned(),
    });
    owned.collect()
}

impl Module {
    /// The module of a path: `Rattle.CRATE.specs.X`, `.declared.` for what the Rattle source
    /// declares.
    fn new(path: &str, crates: &[String]) -> Module {
        let inside = path.strip_prefix("Rattle.");
        let inside = inside.and_then(|path| path.split_once('.'));
        let inside = inside.filter(|(place, _)| crates.iter().any(|one| one == place));
        let Some((place, inside)) = inside else {
            return Module::Kit(path.to_owned());
        };
        let place = place.to_owned();
        let parts: Vec<&str> = inside.split('.').collect();
        match parts[..] {
            [_, "declared", name, ..] => Module::Declared {
                place,
                name: name.to_owned(),
            },
            [folder] => Module::File(format!("{place}/{folder}/Lib")),
            _ => Module::File(format!("{place}/{}", parts.join("/"))),
        }
    }
}
