//! The static libraries that the tests link with C.

use std::path::{Path, PathBuf};

/// `libhogvax_c.a`, without which no test is built.
pub fn whole() -> PathBuf {
    PathBuf::from(env!("HOGVAX_ARCHIVE"))
}

/// `libhogvax_view.a`, beside it.
pub fn view() -> PathBuf {
    let archive = Path::new(env!("HOGVAX_ARCHIVE")).with_file_name("libhogvax_view.a");
    let there = archive.is_file();
    let help = "run 'tools/staticlib hogvax_view' at the root of the repository";
    assert!(there, "there is no {}\nhelp: {help}", archive.display());
    archive
}
