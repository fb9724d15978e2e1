//! Links the static library that `tools/staticlib hogvax_c` builds.

use std::env;
use std::path::{Path, PathBuf};
use std::process::{exit, Command, Stdio};

/// The folder of the static library, below the repository's root unless
/// `HOGVAX_LIB_DIR` names another.
fn folder() -> PathBuf {
    match env::var_os("HOGVAX_LIB_DIR") {
        Some(folder) => PathBuf::from(folder),
        None => Path::new(env!("CARGO_MANIFEST_DIR")).join("../../target/staticlib"),
    }
}

/// The folder of a copy with every function at the start of a cache line, so
/// that the speed of a run does not depend on what else is linked. `None` if
/// there is no `objcopy` that makes it: then the archive is linked as it is.
fn aligned(archive: &Path) -> Option<PathBuf> {
    let folder = PathBuf::from(env::var_os("OUT_DIR")?);
    let mut command = Command::new("objcopy");
    command.args(["--set-section-alignment", ".text.*=64"]);
    command.arg(archive).arg(folder.join("libhogvax_c.a"));
    command.stdout(Stdio::null()).stderr(Stdio::null());
    let made = command.status().is_ok_and(|status| status.success());
    made.then_some(folder)
}

fn main() {
    println!("cargo:rerun-if-env-changed=HOGVAX_LIB_DIR");
    let archive = folder().join("libhogvax_c.a");
    println!("cargo:rerun-if-changed={}", archive.display());
    let Ok(archive) = archive.canonicalize() else {
        eprintln!("there is no {}", archive.display());
        eprintln!("help: run 'tools/staticlib hogvax_c' at the root of the repository");
        exit(1);
    };
    // For tests that link it with C.
    println!("cargo:rustc-env=HOGVAX_ARCHIVE={}", archive.display());
    let own = || archive.parent().map(Path::to_path_buf);
    if let Some(folder) = aligned(&archive).or_else(own) {
        println!("cargo:rustc-link-search=native={}", folder.display());
    }
    println!("cargo:rustc-link-lib=static=hogvax_c");
}
