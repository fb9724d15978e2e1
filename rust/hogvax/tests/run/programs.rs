//! Programs to be run.

use std::fs;
use std::path::{Path, PathBuf};

use hogvax::assembly;
use reference::generate::{changed_program, evaluated, programs};
use reference::{read_file, Expr, Function, Program, Random};

/// The samples that pass both passes.
pub const SAMPLES: [&str; 5] = ["depth", "grow", "prune", "sum", "tips"];

/// A folder of the samples.
fn folder(name: &str) -> PathBuf {
    let root = Path::new(env!("CARGO_MANIFEST_DIR")).join("../..");
    root.join("samples").join(name)
}

/// The file of a sample.
pub fn sample(name: &str) -> Vec<u8> {
    fs::read(folder("programs").join(format!("{name}.program"))).unwrap()
}

/// The samples that pass both passes. Each ends on every tree.
pub fn samples() -> Vec<Program> {
    let program = |name: &str| Program::from_records(&read_file(&sample(name)).unwrap()).unwrap();
    SAMPLES.map(program).into()
}

/// The programs of `samples/texts`: their names and their files.
pub fn texts() -> Vec<(String, Vec<u8>)> {
    let entries = fs::read_dir(folder("texts")).unwrap();
    let name = |entry: fs::DirEntry| entry.file_name().into_string().unwrap();
    let mut names: Vec<String> = entries.map(|entry| name(entry.unwrap())).collect();
    names.retain(|name| name.ends_with(".txt"));
    names.sort();
    let assembled = |name: String| {
        let text = fs::read(folder("texts").join(&name)).unwrap();
        let text = assembly::read(&text).unwrap_or_else(|fault| panic!("{name}: {fault}"));
        (name, hogvax::pack(&text.records).unwrap())
    };
    names.into_iter().map(assembled).collect()
}

/// Labels 0 become 10 and the number of nodes above: a Let, an IfZero, and a
/// number that is handed on.
pub fn fill() -> Program {
    let function = |parameters, body| Function {
        tree_valued: true,
        parameters,
        body,
    };
    let leaf = |name| Expr::leaf(Expr::var(name));
    let below = |tree| Expr::call(tree, 1, vec![Expr::var(1)]);
    let deeper = Expr::plus(Expr::var(0), Expr::constant(1));
    let filled = Expr::case(
        0,
        Expr::if_zero(Expr::var(1), leaf(0), leaf(1)),
        Expr::let_in(deeper, Expr::node(below(1), below(2))),
    );
    let first = Expr::call(0, 1, vec![Expr::constant(10)]);
    Program::new(vec![function(0, first), function(1, filled)])
}

/// Gives the tree that it reads, and opens a call for each six levels of it.
pub fn six_levels_a_call() -> Program {
    Program::new(vec![Function {
        tree_valued: true,
        parameters: 0,
        body: copy(0, 1, 6),
    }])
}

/// A tree as it is: so many levels here, the others in calls. The tree names
/// below `bound` are bound.
fn copy(name: u8, bound: u8, levels: usize) -> Expr {
    if levels == 0 {
        return Expr::call(name, 0, vec![]);
    }
    let left = copy(bound, bound + 2, levels - 1);
    let right = copy(bound + 1, bound + 2, levels - 1);
    Expr::case(name, Expr::leaf(Expr::var(0)), Expr::node(left, right))
}

/// Any program: half of them pass both passes; the others are changed at
/// random, or have names, types and order left to chance.
pub fn any_program(random: &mut Random) -> Program {
    let functions = 1 + random.below(4);
    let nodes = functions * (1 + random.below(12));
    match random.below(4) {
        0 => programs::program(random, functions, nodes),
        1 => {
            let program = evaluated::any_program(random);
            changed_program(random, &program)
        }
        _ => evaluated::any_program(random),
    }
}
