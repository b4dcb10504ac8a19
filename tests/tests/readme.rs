//! README.md and docs/FORMAT.md say what the crates are.

use std::{
    env,
    fs::{self, Permissions},
    os::unix::fs::{symlink, PermissionsExt},
    path::{Path, PathBuf},
    process::Command,
};
use tests::{
    c, map,
    matches::{sample, SAMPLES},
    reference,
};

fn read(path: &str) -> String {
    fs::read_to_string(c::root().join(path)).unwrap_or_else(|error| panic!("{path}: {error}"))
}

/// A text's section of the second level.
fn section<'a>(text: &'a str, title: &str) -> &'a str {
    let (_, rest) = text.split_once(&format!("\n## {title}\n")).unwrap_or_else(|| panic!("there is no {title}"));
    rest.split_once("\n## ").map_or(rest, |(section, _)| section)
}

/// The blocks of a section that are indented by four: commands, and what they print.
fn blocks(section: &str) -> Vec<String> {
    let block = |paragraph: &str| {
        let lines: Option<Vec<&str>> = paragraph.lines().map(|line| line.strip_prefix("    ")).collect();
        Some(lines?.join("\n") + "\n")
    };
    section.split("\n\n").filter_map(block).collect()
}

/// Tables and picture have every crate, in the same groups, and an arrow for each dependency that follows from no others.
#[test]
fn no_crate_is_left_out_of_the_map() {
    let readme = read("README.md");
    let faults = map::faults(section(&readme, "The map"), &read("crates.txt"));
    assert!(faults.is_empty(), "README.md, the map:\n{}", faults.join("\n"));
}

/// What README.md shows of the sample matches is what the program prints for them.
#[test]
fn no_sample_is_answered_otherwise_than_the_readme_shows() {
    let readme = read("README.md");
    for name in SAMPLES {
        let shown: String = reference::program(&sample(name)).lines().map(|line| format!("      {line}\n")).collect();
        assert!(readme.contains(&format!("\n\n{shown}\n")), "README.md does not show, for {name}:\n{shown}");
    }
}

/// A folder from which the repository's folders are seen, for commands that leave files where they run.
fn beside_the_repository(name: &str) -> PathBuf {
    let folder = Path::new(env!("CARGO_TARGET_TMPDIR")).join(name);
    if folder.exists() {
        fs::remove_dir_all(&folder).expect("the folder can be made anew");
    }
    fs::create_dir_all(&folder).expect("there is room for files");
    for seen in ["include", "examples", "samples", "target"] {
        symlink(c::root().join(seen), folder.join(seen)).expect("a link can be made");
    }
    folder
}

/// README.md's commands for C and for the yard, one after the other.
#[test]
fn no_command_in_the_yard_prints_otherwise_than_the_readme_shows() {
    let readme = read("README.md");
    let [from_c, in_the_yard] = ["From C", "In the yard"].map(|title| blocks(section(&readme, title)));
    let ([compile_match], [compile_yard, commands, shown]) = (&from_c[..], &in_the_yard[..]) else {
        panic!("other blocks: {from_c:?}, {in_the_yard:?}");
    };
    let mut shell = Command::new("/bin/sh");
    shell.args(["-e", "-c", &[&compile_match[..], compile_yard, commands].concat()]);
    assert_eq!(c::output(shell.current_dir(beside_the_repository("readme"))), *shown, "README.md is on the right");
}

/// README.md's commands for the workshop. One of the queries is refused, and the exit status says so.
#[test]
fn no_command_in_the_workshop_prints_otherwise_than_the_readme_shows() {
    let readme = read("README.md");
    let in_the_workshop = blocks(section(&readme, "In the workshop"));
    let [compile, commands, shown] = &in_the_workshop[..] else {
        panic!("other blocks: {in_the_workshop:?}");
    };
    let mut shell = Command::new("/bin/sh");
    shell.args(["-e", "-c", &[&compile[..], commands].concat()]);
    let output = shell.current_dir(beside_the_repository("readme_workshop")).output().expect("the shell runs");
    let printed = (c::text(&output), output.status.code());
    assert_eq!(printed, (shown.clone(), Some(1)), "README.md is on the right: {output:?}");
}

/// `./soak` with a toolchain that fails at once: what is printed, what is said, and the exit status.
fn soak(arguments: &[&str]) -> (String, String, Option<i32>) {
    let folder = Path::new(env!("CARGO_TARGET_TMPDIR")).join("readme_soak");
    fs::create_dir_all(&folder).expect("there is room for files");
    fs::write(folder.join("rt"), "#!/bin/sh\nexit 3\n").expect("the file can be written");
    fs::set_permissions(folder.join("rt"), Permissions::from_mode(0o755)).expect("it can be made a program");
    let path = format!("{}:{}", folder.display(), env::var("PATH").expect("there is a PATH"));
    let mut command = Command::new(c::root().join("soak"));
    let output = command.args(arguments).env("PATH", path).output().expect("it runs");
    (c::text(&output), String::from_utf8_lossy(&output.stderr).into_owned(), output.status.code())
}

/// It proves nothing where it is asked how it is used or is used otherwise, and else says first what it is about to do.
#[test]
fn no_soak_proves_without_a_word() {
    let usage = "usage: ./soak [SECONDS [SEED]]";
    for asked in [["--help"], ["-h"]] {
        let (printed, said, status) = soak(&asked);
        assert!(printed.starts_with(usage), "{printed}");
        assert_eq!((said.as_str(), status), ("", Some(0)), "{asked:?}");
    }
    for wrong in [&["a"][..], &["-1"], &["1.5"], &["1", "b"], &["1", "2", "3"], &["--helper"]] {
        let (printed, said, status) = soak(wrong);
        assert!(said.starts_with(usage), "{wrong:?}: {said}");
        assert_eq!((printed.as_str(), status), ("", Some(2)), "{wrong:?}");
    }
    for right in [&[][..], &["1"], &["1", "2"]] {
        let (printed, said, status) = soak(right);
        assert!(said.starts_with("soak: ./build matcher: proves"), "{right:?}: {said}");
        assert_eq!((printed.as_str(), status), ("", Some(1)), "{right:?}");
    }
}

/// The rows `| cell | cell | ..` of a text that begin with a number, by their first two cells.
fn numbered(text: &str) -> Vec<String> {
    let cells = text.lines().filter_map(|line| line.strip_prefix("| ")).map(|row| row.split(" | "));
    let pairs = cells.filter_map(|mut cells| Some((cells.next()?.parse::<u32>().ok()?, cells.next()?)));
    pairs.map(|(number, name)| format!("{name} {number}")).collect()
}

#[test]
fn no_refusal_has_another_number() {
    let text = read("docs/FORMAT.md");
    let told = section(&text, "Refusals");
    let source = read("crates/refusal/src/lib.rt");
    let rows = source.lines().filter_map(|line| line.trim().strip_suffix(',')?.split_once(" = "));
    let numbers: Vec<String> = rows.map(|(name, number)| format!("`{name}` {number}")).collect();
    assert_eq!(numbers.len(), 22);
    assert_eq!(numbered(told), numbers, "docs/FORMAT.md, and crates/refusal");
}

#[test]
fn no_record_has_another_kind() {
    let text = read("docs/FORMAT.md");
    let told = section(&text, "Files");
    let source = read("crates/records/src/lib.rt");
    let kinds = source.lines().filter_map(|line| line.trim().strip_suffix(',')?.split_once(" = "));
    let kinds: Vec<String> = kinds.map(|(name, kind)| format!("{} {kind}", name.to_lowercase())).collect();
    assert_eq!(kinds.len(), 7);
    assert_eq!(numbered(told), kinds, "docs/FORMAT.md, and crates/records");
}
