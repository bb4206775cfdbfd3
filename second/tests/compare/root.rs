//! Where the product stands, and how its programs are run.

use std::path::{Path, PathBuf};
use std::process::Command;

pub fn repository() -> PathBuf {
    Path::new(env!("CARGO_MANIFEST_DIR")).join("..")
}

/// The command that runs a program of the product, which must stand.
pub fn program(path: &str) -> Command {
    let program = repository().join(path);
    assert!(program.is_file(), "missing program: {path}");
    Command::new(program)
}
