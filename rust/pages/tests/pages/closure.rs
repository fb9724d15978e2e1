//! What rests on what, in closed small cases.

use crate::small::project;
use pages::closure::{contract_roots, definitions, Believed, Closure};
use pages::project::Project;

/// All that `top` of the file `one/specs/A` rests on, and itself.
fn names(project: &Project) -> Vec<String> {
    let closure = Closure::from(project, definitions(project, "one/specs/A", "top"));
    shown(project, &closure)
}

fn shown(project: &Project, closure: &Closure) -> Vec<String> {
    let shown = closure.rests_on.keys().map(|one| match one {
        Believed::Definition(place, item) => project.files[place].items[*item].name.clone(),
        Believed::Proved(place, name) => format!("{place}: {name}"),
        Believed::Declared(place, name) => format!("{place}::{name}"),
        Believed::Kit(module, name) => format!("{module}.{name}"),
    });
    shown.collect()
}

/// What `top` rests on in a file of these lines.
fn alone(text: &str) -> Vec<String> {
    names(&project(&[("one/specs/A", text)], &[]))
}

#[test]
fn an_operator_is_used_where_its_parts_stand() {
    let text = "◌⊕◌ : N\nx ⊕ y = x\n◌⊗◌ : N\nx ⊗ y = x\nat◌of◌ : N\nat x of y = x\n\
        if◌to◌ : N\nif x to y = y\nfold : N\nfold = ◌⊖◌\n◌⊖◌ : N\nx ⊖ y = y\n\
        at_of : N\nat_of = 0\ntop : N\ntop = (at z of z) ⊕ fold\n";
    assert_eq!(alone(text), ["◌⊕◌", "at◌of◌", "fold", "◌⊖◌", "top"]);
}

#[test]
fn a_constructor_in_a_pattern_counts_to_its_type() {
    let text = "pub data Way : Type 0 where\n  -- to the left\n  left right : Way\n  \
        up :\n      N → Way\npub data Other : Type 0 where\n  down : Other\n\
        abbrev pub top : N → N\ntop (up n) = n\n";
    assert_eq!(alone(text), ["Way", "top"]);
}

#[test]
fn a_field_counts_to_its_record_where_it_is_projected() {
    let text = "pub record Pair (A : Type 0) : Type 0 where\n  pub left : A\n  pub right : A\n\
        pub record Box : Type 0 where\n  pub inside : N\nlid : N\nlid = 0\n\
        pub record Cup : Type 0 where\n  pub full : N\n\
        top : N\ntop = λ inside. p.right + (f p).full\n";
    assert_eq!(alone(text), ["Pair", "Cup", "top"]);
}

#[test]
fn names_are_whole_words() {
    let text = "x : N\nx' : N\nx-y : N\nx_y : N\nx₁ : N\nx⁺ : N\nTree⁻ : N\ny : N\nz : N\n\
        top : N\ntop = (x-y){x⁺}[ Tree⁻; λ u. z]\n";
    assert_eq!(alone(text), ["x-y", "x⁺", "Tree⁻", "z", "top"]);
}

#[test]
fn comments_and_texts_do_not_count() {
    let text = "a : N\nb : N\nc : N\n-- a\ntop : N -- a\n-- a\ntop = \"b b\" -- a\n    \
        -- a\n    c\n";
    assert_eq!(alone(text), ["c", "top"]);
}

#[test]
fn clauses_and_blocks_are_taken_apart() {
    let text = "a : N\nb : N\nc : N\nd : N\nunfoldable mutual\n  pub even : N → N\n  \
        even (s n) = odd n\n\n  pub odd : N → N\n  odd n =\n      elim n [\n        | z ↦ a\n      ]\n\
        module _ (n : b) where\n  mutual\n    inner : N\n    inner = n\n  later : N\n  later = n\n\
        single : N\nsingle = elim d [\n  | z ↦ c\n]\n\
        top : N\ntop = even later\n";
    assert_eq!(alone(text), ["a", "b", "even", "odd", "later", "top"]);
}

#[test]
fn imports_are_followed_with_their_new_names() {
    let a = "use Kit.Nat.{N, ◌+◌ as ◌plus◌, M}\nuse Rattle.one.specs.B.{line as a_line, dot}\n\
        use Rattle.two.specs.C.{far}\nuse Rattle.two.specs.Inner.D.{deep}\n\
        use Rattle.two.proofs.E.{shown}\n\
        line : N\nline = 0\ntop : N\ntop = a_line plus (far deep shown)\n";
    let b = "data Line : Type 0 where\n  line : Line\ndata Dot : Type 0 where\n  dot : Dot\n";
    let (c, d) = ("far : K\nfar = 0\n", "deep : K\ndeep = 0\n");
    let files = [("one/specs/A", a), ("one/specs/B", b), ("two/specs/C", c)];
    let files = [&files[..], &[("two/specs/Inner/D", d)]].concat();
    let found = names(&project(&files, &[]));
    let expected = [
        "top",
        "Line",
        "far",
        "deep",
        "two/proofs/E: shown",
        "Kit.Nat.N",
        "Kit.Nat.◌+◌",
    ];
    assert_eq!(found, expected);
}

#[test]
#[should_panic(expected = "one/specs/B.antt declares no gone")]
fn a_name_that_is_not_there_is_reported() {
    let a = "use Rattle.one.specs.B.{gone}\ntop : gone\n";
    names(&project(&[("one/specs/A", a), ("one/specs/B", "")], &[]));
}

#[test]
fn structs_and_enums_count_with_those_in_them() {
    let a = "use Rattle.two.specs.declared.Answer.{Answer}\n\
        use Rattle.two.specs.declared.Way.TheVariants as way\n\
        use Rattle.two.specs.declared.Gone.TheVariants.{Never}\n\
        top : Answer → N\ntop a = way.Left\n";
    let one = "#![tactic(auto)]\n\npub enum Refusal {\n    Short,\n}\n\
        pub struct Idle {\n    a: u8,\n}\n";
    let two = "use one::{\n    Idle,\n    Refusal,\n};\n// A way.\npub enum Way {\n    Left,\n    Right(Step),\n}\n\
        struct Step {\n    by: u8,\n}\n\npub struct Answer {\n    why: Refusal,\n}\n\
        pub enum Gone {\n    Never,\n}\n";
    let rattle = [("one/src/lib", one), ("two/src/lib", two)];
    let found = names(&project(&[("one/specs/A", a)], &rattle));
    assert_eq!(
        found,
        [
            "top",
            "one::Refusal",
            "two::Answer",
            "two::Step",
            "two::Way"
        ]
    );
}

#[test]
fn contracts_count_and_bodies_do_not() {
    let a = "asked : N\ngiven : N\nother : N\nunder : N\n";
    let lib = "ghost use Rattle.one.specs.A.{asked, given as got, other, under};\n\n\
        pub struct Pair {\n    a: u8,\n}\n\n\
        pub extern \"C\" fn first(\n    p: &mut Many<Pair>,\n) -> u32\n    requires { asked }\n    \
        ensures same {\n        result ≡ got\n    }\n{\n    under\n}\n\n\
        fn second() -> u32\n    ensures { other }\n{\n    1\n}\n\nfn main() {\n    under\n}\n";
    let small = project(&[("one/specs/A", a)], &[("one/src/lib", lib)]);
    for (functions, expected) in [
        (&["first"][..], &["asked", "given", "one::Pair"][..]),
        (&["main"][..], &[][..]),
        (&[][..], &["asked", "given", "other", "one::Pair"][..]),
    ] {
        let roots = contract_roots(&small, "one/src/lib", functions);
        assert_eq!(shown(&small, &Closure::from(&small, roots)), expected);
    }
}

#[test]
fn a_clause_of_an_impl_counts_as_a_contract() {
    let a = "asked : N\ngiven : N\nother : N\n";
    let lib = "ghost use Rattle.one.specs.A.{asked, given, other};\n\n\
        impl From<Pair> for u8 {\n    ghost from_gives = {\n        λ p n. n ≡ given p\n    };\n\n    \
        fn from(p: Pair) -> u8 {\n        other\n    }\n}\n\n\
        pub struct Pair {\n    a: u8,\n}\n";
    let small = project(&[("one/specs/A", a)], &[("one/src/lib", lib)]);
    let roots = contract_roots(&small, "one/src/lib", &[]);
    let found = shown(&small, &Closure::from(&small, roots));
    assert_eq!(found, ["given", "one::Pair"]);
}

/// What is not understood is not passed over.
#[test]
fn a_form_that_is_not_known_is_reported() {
    for text in [
        "use Kit.{A,\n  B}\n",
        "pub use Kit.{A}\n",
        "top : N\nopen Pair p\n",
        "top : N\nmodule _ (a : N)\n    (b : N) where\n",
        "top = 0\n",
    ] {
        let read = std::panic::catch_unwind(|| alone(text));
        assert!(read.is_err(), "{text}");
    }
}

#[test]
#[should_panic(expected = "one/src/lib.rt has no second")]
fn a_function_that_is_not_there_is_reported() {
    let small = project(&[], &[("one/src/lib", "fn first() {\n    1\n}\n")]);
    contract_roots(&small, "one/src/lib", &["first", "second"]);
}

#[test]
fn a_constructor_of_two_types_counts_to_both() {
    let a = "use Rattle.one.specs.B.{none}\ntop : none\n";
    let b =
        "data First : Type 0 where\n  none : First\ndata Second : Type 0 where\n  none : Second\n";
    let found = names(&project(&[("one/specs/A", a), ("one/specs/B", b)], &[]));
    assert_eq!(found, ["top", "First", "Second"]);
}
