//! Compiles the stream machine in C, which `bench-machine` links.

use std::env;
use std::path::{Path, PathBuf};
use std::process::{exit, Command};

const SOURCE: &str = "src/machine/computed_goto.c";

/// Rust links position-independent executables. The function begins a cache
/// line, as those of the proved library do, so that its speed does not depend on
/// what else is linked.
const FLAGS: [&str; 3] = ["-O3", "-fPIE", "-falign-functions=64"];

/// Why there is no object.
fn compile(object: &Path) -> Result<(), String> {
    let mut command = Command::new("cc");
    command.args(FLAGS).args(["-c", SOURCE, "-o"]).arg(object);
    match command.status() {
        Ok(status) if status.success() => Ok(()),
        Ok(status) => Err(format!("cc does not compile {SOURCE}: {status}")),
        Err(error) => Err(format!("there is no C compiler that runs as 'cc': {error}")),
    }
}

fn main() {
    println!("cargo:rerun-if-changed={SOURCE}");
    let folder = env::var_os("OUT_DIR").expect("cargo names the folder");
    let object = PathBuf::from(folder).join("computed_goto.o");
    if let Err(why) = compile(&object) {
        eprintln!("{why}");
        eprintln!("help: bench-machine compares with {SOURCE}; install gcc or clang");
        exit(1);
    }
    println!(
        "cargo:rustc-link-arg-bin=bench-machine={}",
        object.display()
    );
}
