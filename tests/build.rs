//! Links the matcher's C interface, as `./build matcher` leaves it in the repository's target/, and what C says of its layout.

use std::{
    env,
    path::{Path, PathBuf},
    process::Command,
};

fn main() {
    let tests = PathBuf::from(env::var_os("CARGO_MANIFEST_DIR").expect("cargo names the package's folder"));
    let out = PathBuf::from(env::var_os("OUT_DIR").expect("cargo names a folder for what is built"));
    let (source, include) = (tests.join("c/layout.c"), tests.join("../include"));
    println!("cargo:rerun-if-changed={}", source.display());
    println!("cargo:rerun-if-changed={}", include.display());
    compile(&source, &include, &out);
    println!("cargo:rustc-link-search=native={}", out.display());
    println!("cargo:rustc-link-lib=static=layout");
    let folder = tests.join("../target/staticlib");
    println!("cargo:rerun-if-changed={}", folder.join("libmatcher.a").display());
    println!("cargo:rustc-link-search=native={}", folder.display());
    println!("cargo:rustc-link-lib=static=matcher");
}

/// Compiles a C file, each warning an error, and leaves it as liblayout.a.
fn compile(source: &Path, include: &Path, out: &Path) {
    let object = out.join("layout.o");
    let flags = ["-std=c11", "-O2", "-fPIC", "-Wall", "-Wextra", "-pedantic", "-Wconversion", "-Werror", "-c", "-o"];
    run(Command::new("cc").args(flags).arg(&object).arg("-I").arg(include).arg(source));
    run(Command::new("ar").arg("rcs").arg(out.join("liblayout.a")).arg(&object));
}

fn run(command: &mut Command) {
    let status = command.status().unwrap_or_else(|error| panic!("{command:?} does not run: {error}"));
    assert!(status.success(), "{command:?} fails");
}
