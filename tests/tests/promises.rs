//! docs/PROMISES.md cites what there is, and what a crate promises has edits that must fail.

use std::{
    ffi::OsStr,
    fs,
    path::{Path, PathBuf},
};
use tests::citations;

fn root() -> PathBuf {
    Path::new(env!("CARGO_MANIFEST_DIR")).join("..")
}

/// A file of the repository, by its path from the root.
fn read(path: &str) -> Option<String> {
    let inside = path.split('/').all(|part| !matches!(part, "" | "." | ".."));
    inside.then(|| fs::read_to_string(root().join(path)).ok())?
}

/// The files below a folder, if there is one, with this ending.
fn files(folder: &Path, ending: &str) -> Vec<PathBuf> {
    let paths = fs::read_dir(folder).into_iter().flatten().map(|entry| entry.unwrap().path());
    let below = |path: PathBuf| match path.is_dir() {
        true => files(&path, ending),
        false => vec![path],
    };
    let mut files: Vec<PathBuf> = paths.flat_map(below).collect();
    files.retain(|path| path.extension() == Some(OsStr::new(ending)));
    files
}

#[test]
fn no_promise_cites_what_is_not_there() {
    let text = read("docs/PROMISES.md").expect("docs/PROMISES.md can be read");
    let (citations, faults) = citations::check(&text, read);
    assert!(faults.is_empty(), "docs/PROMISES.md:\n{}", faults.join("\n"));
    assert!(citations >= 10, "docs/PROMISES.md has {citations} citations only");
    assert!(text.contains("| promise | definition | contract | theorem | test |"), "docs/PROMISES.md has no columns");
}

/// Whether a source has a function that other crates can reach.
fn has_public_function(source: &Path) -> bool {
    let text = fs::read_to_string(source).unwrap();
    text.lines()
        .map(str::trim_start)
        .any(|line| ["pub fn ", "pub const fn ", "pub extern \"C\" fn "].iter().any(|head| line.starts_with(head)))
}

/// Each library with a public function has at least two edits that its proofs must refuse.
#[test]
fn no_public_function_without_edits_that_must_fail() {
    let listed = read("crates.txt").expect("crates.txt can be read");
    let lines = listed.lines().map(|line| line.split('#').next().unwrap_or_default());
    let names: Vec<&str> = lines.filter_map(|line| line.split_once(':')?.0.split_whitespace().next()).collect();
    let folder = |name: &str| root().join("crates").join(name);
    let is_public = |name: &&str| {
        let src = folder(name).join("src");
        !src.join("main.rt").exists() && files(&src, "rt").iter().any(|source| has_public_function(source))
    };
    let edits = |name: &str| files(&folder(name).join("must-fail"), "edit").len();
    let public: Vec<&str> = names.into_iter().filter(is_public).collect();
    assert!(!public.is_empty(), "crates.txt lists no library with a public function");
    let lacking: Vec<&str> = public.into_iter().filter(|name| edits(name) < 2).collect();
    assert!(lacking.is_empty(), "fewer than two must-fail edits: {lacking:?}");
}
