//! The functions of an `impl`: each has its own contract and its own edits, whatever it is named.

use crate::small::project;
use pages::edits::Edit;
use pages::functions::public;
use pages::project::Project;
use pages::uses::{names, Named};
use pages::wrong::faults;

/// Two types with a method of one name, and conversions both ways.
const LIB: &str = "pub enum Way {\n    Left,\n    Right,\n}\n\n\
    pub struct Step {\n    pub way: Way,\n    pub by: u8,\n}\n\n\
    pub struct Walk<'a> {\n    pub steps: &'a [Step],\n    turned: bool,\n}\n\n\
    const FIRST: Way = Way::Left;\n\n\
    // The number of a way.\n\
    impl From<Way> for u8 {\n    ghost from_gives = { λ way n. n ≡ number way };\n\n    \
    #[tactic(auto)]\n    fn from(way: Way) -> u8 {\n        way as u8\n    }\n}\n\n\
    impl From<u8> for Way {\n    ghost from_gives = { λ n way. kept n ≡ record {\n      \
    way = way;\n    } };\n\n    fn from(n: u8) -> Way {\n        way_of(n)\n    }\n}\n\n\
    impl Default for Way {\n    fn default() -> Way {\n        FIRST\n    }\n\n    \
    ghost is_default = { λ way. way ≡ first };\n}\n\n\
    impl<T: Copy> Marked<T> for Way {}\n\n\
    fn way_of(n: u8) -> Way {\n    if n == 0 { Way::Left } else { Way::Right }\n}\n\n\
    impl Step {\n    pub fn turned(self) -> Step\n        ensures { result ≡ turned self }\n    {\n        \
    Step {\n            way: Way::from(1 - u8::from(self.way)),\n            ..self\n        }\n    }\n\n    \
    pub fn twice(self) -> Step\n        ensures { result ≡ self }\n    {\n        \
    self.turned()\n            .turned()\n    }\n\n    fn by(self) -> u8 {\n        self.by\n    }\n}\n\n\
    impl Walk<'_> {\n    pub fn turned(&self) -> bool\n        ensures { result ≡ any self }\n    {\n        \
    self.turned && Step::by(self.steps[0]) == 0\n    }\n}\n";

fn small_project() -> Project {
    project(&[], &[("one/src/lib", LIB)])
}

fn edit(changes: &str) -> Edit {
    Edit {
        place: "one".to_owned(),
        name: changes.to_owned(),
        says: "It would be wrong.".to_owned(),
        file: "one/src/lib".to_owned(),
        changes: vec![changes.to_owned()],
    }
}

/// All public functions of the project, by their full names.
const PUBLIC: [&str; 6] = [
    "from of From<Way> for u8",
    "from of From<u8> for Way",
    "default of Default for Way",
    "turned of Step",
    "twice of Step",
    "turned of Walk",
];

#[test]
fn functions_of_one_name_are_told_apart() {
    let project = small_project();
    let functions = public(&project, "one");
    let found: Vec<String> = functions.iter().map(|one| one.title()).collect();
    assert_eq!(found, PUBLIC.map(|name| format!("one: {name}")));
    assert_eq!(functions[0].shown(), "`one: from` of `From<Way> for u8`");
    assert_eq!(functions[5].shown(), "`one: turned` of `Walk`");
    let clauses: Vec<usize> = functions
        .iter()
        .map(|one| one.declaration.clauses.len())
        .collect();
    assert_eq!(clauses, [1, 1, 1, 0, 0, 0]);
    assert_eq!(
        functions[1].declaration.promises(),
        ["ghost from_gives = { λ n way. kept n ≡ record { way = way; } };"]
    );
}

/// An edit stands in the declaration whose lines it changes.
#[test]
fn a_line_is_of_the_function_that_it_stands_in() {
    let project = small_project();
    let source = &project.sources["one/src/lib"];
    for (text, full_name) in [
        ("way as u8", Some("from of From<Way> for u8")),
        ("way_of(n)", Some("from of From<u8> for Way")),
        ("        FIRST", Some("default of Default for Way")),
        ("fn way_of", Some("way_of")),
        ("            ..self", Some("turned of Step")),
        ("self.turned()", Some("twice of Step")),
        ("self.turned &&", Some("turned of Walk")),
        ("ghost from_gives = { λ way", None),
    ] {
        let mut lines = LIB.lines();
        let line = lines.position(|line| line.contains(text)).unwrap();
        let found = source.at_line(line).map(|one| one.full_name());
        assert_eq!(found.as_deref(), full_name, "{text}");
    }
}

#[test]
fn each_contract_without_two_edits_is_found() {
    let project = small_project();
    let found = |names: &[&str]| {
        let edits: Vec<Edit> = names.iter().map(|name| edit(name)).collect();
        let mut found = faults(&project, &edits);
        found.retain(|fault| !fault.starts_with("there is no "));
        found
    };
    let none = PUBLIC.map(|name| format!("one: {name} has 0 edits"));
    assert_eq!(found(&[]), none);
    let twice = PUBLIC.map(|name| [name, name]).concat();
    assert_eq!(found(&twice), [""; 0]);
    // What another one has does not count, whether it has the same name or is called.
    for (left_out, says) in [
        ("from of From<Way> for u8", "has 0 edits"),
        ("from of From<u8> for Way", "has 0 edits"),
        ("default of Default for Way", "has 0 edits"),
        ("turned of Step", "has no edit of its own"),
        ("twice of Step", "has no edit of its own"),
        ("turned of Walk", "has 0 edits"),
    ] {
        let others = twice.iter().copied().filter(|name| *name != left_out);
        let others: Vec<&str> = others.collect();
        assert_eq!(found(&others), [format!("one: {left_out} {says}")]);
    }
    // One of its own, and those of what it calls; a function or constant that is not public.
    let mut others = twice.clone();
    others.retain(|name| !name.starts_with("twice") && !name.ends_with("for Way"));
    others.extend(["twice of Step", "way_of", "FIRST", "way_of", "FIRST"]);
    assert_eq!(found(&others), [""; 0]);
}

#[test]
fn an_edit_stands_below_what_uses_its_function_alone() {
    let project = small_project();
    let edits = [&PUBLIC[..], &["way_of", "by of Step", "FIRST"]].concat();
    let edits: Vec<Edit> = edits.into_iter().map(edit).collect();
    for (function, expected) in public(&project, "one").iter().zip([
        &["from of From<Way> for u8"][..],
        &["from of From<u8> for Way", "way_of"],
        &["default of Default for Way", "FIRST"],
        &[
            "from of From<Way> for u8",
            "from of From<u8> for Way",
            "turned of Step",
            "way_of",
        ],
        // The second call is of a value whose type isn't known here.
        &[
            "from of From<Way> for u8",
            "from of From<u8> for Way",
            "turned of Step",
            "twice of Step",
            "turned of Walk",
            "way_of",
            "by of Step",
        ],
        &["turned of Walk", "by of Step"],
    ]) {
        let found = function.edits(&edits).into_iter();
        let found: Vec<&str> = found.map(|edit| &edit.name[..]).collect();
        assert_eq!(found, expected, "{}", function.title());
    }
}

#[test]
fn a_name_leads_to_what_it_may_be() {
    let text =
        "impl Step {\n    fn go<R: Read>(\n        &self,\n        walk: &mut Walk<'_>,\n        \
        from: R,\n        all: &[Step],\n    ) -> u8 {\n        0\n    }\n}\n";
    let project = project(&[], &[("one/src/lib", text)]);
    let one = &project.sources["one/src/lib"].declarations[0];
    let of = |owner: &str, name| Named::Of(owner.to_owned(), name);
    for (body, last) in [
        ("self.turned()", of("Step", "turned")),
        ("Self::turned(", of("Step", "turned")),
        ("map(Walk::turned)", of("Walk", "turned")),
        ("u8::from(", of("u8", "from")),
        ("two::from(", of("two", "from")),
        ("Way::Left.by(", of("Way", "by")),
        ("walk.turned()", of("Walk", "turned")),
        ("all.len()", of("[Step]", "len")),
        ("from.read()", Named::Method("read")),
        ("walk.steps.len()", Named::Method("len")),
        ("two::MOST.min()", Named::Method("min")),
        ("step().sum::<>()", Named::Method("sum")),
        ("..turned()", Named::Alone("turned")),
        // A field is no call.
        ("self.turned", Named::Alone("self")),
        ("1 + MOST", Named::Alone("MOST")),
    ] {
        assert_eq!(names(body, one).last(), Some(&last), "{body}");
    }
}

#[test]
#[should_panic(expected = "an impl on one line")]
fn an_impl_on_several_lines_is_reported() {
    project(
        &[],
        &[(
            "one/src/lib",
            "impl<T> Walk<T>\nwhere\n    T: Copy,\n{\n}\n",
        )],
    );
}
