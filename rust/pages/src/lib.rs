//! The generated pages of `docs/`, and what must hold of what they show.

pub mod believe;
pub mod checks;
pub mod closure;
pub mod edits;
pub mod functions;
pub mod imports;
pub mod items;
pub mod project;
pub mod roots;
pub mod source;
pub mod text;
pub mod uses;
pub mod words;
pub mod wrong;

/// All generated pages: where each stands, and its text.
pub fn pages(project: &project::Project) -> [(&'static str, String); 2] {
    let closure = closure::Closure::new(project);
    let edits = edits::edits(project);
    [
        ("docs/BELIEVE.md", believe::page(project, &closure)),
        ("docs/WRONG-ANSWERS.md", wrong::page(project, &edits)),
    ]
}
