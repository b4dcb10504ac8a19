//! C programs over the matcher's header and library.

use std::{
    ffi::OsStr,
    path::{Path, PathBuf},
    process::{Command, Output},
};

/// The repository's folder.
pub fn root() -> PathBuf {
    Path::new(env!("CARGO_MANIFEST_DIR")).join("..")
}

/// Runs a command that has to do well, and gives what it writes.
#[track_caller]
pub fn output(command: &mut Command) -> String {
    let output = command.output().unwrap_or_else(|error| panic!("{command:?}: {error}"));
    assert!(output.status.success(), "{command:?}: {output:?}");
    text(&output)
}

/// What a program wrote.
pub fn text(output: &Output) -> String {
    String::from_utf8(output.stdout.clone()).expect("what is written is text")
}

/// The C compiler, by this standard, with warnings as errors and the header at hand. It is there where rustc is, which
/// links by it.
pub fn compiler(standard: &str) -> Command {
    let mut command = Command::new("cc");
    command.args([standard, "-Wall", "-Wextra", "-Wpedantic", "-Werror", "-I"]).arg(root().join("include"));
    command
}

/// Compiles a C source into a program in a folder, with the matcher's library, and gives its path.
#[track_caller]
pub fn compiled(source: &Path, folder: &Path) -> PathBuf {
    let program = folder.join(source.file_stem().unwrap_or(OsStr::new("program")));
    let library = root().join("target/staticlib/libmatcher.a");
    output(compiler("-std=c11").arg("-o").arg(&program).arg(source).arg(library));
    program
}
