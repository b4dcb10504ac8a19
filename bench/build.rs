//! Links the matcher's C interface, as `./build matcher` leaves it in the repository's target/, and the C++ peers that bench/run
//! has compiled; BENCH_CPP names them.

use std::{env, path::PathBuf};

fn main() {
    let bench = PathBuf::from(env::var_os("CARGO_MANIFEST_DIR").expect("cargo names the package's folder"));
    let target = bench.join("../target");
    let library = target.join("staticlib/libmatcher.a");
    println!("cargo:rerun-if-changed={}", library.display());
    println!("cargo:rustc-link-search=native={}", target.join("staticlib").display());
    println!("cargo:rustc-link-lib=static=matcher");

    println!("cargo:rustc-check-cfg=cfg(faiss, nanoflann)");
    println!("cargo:rerun-if-env-changed=BENCH_CPP");
    println!("cargo:rustc-link-search=native={}", target.join("bench").display());
    for peer in env::var("BENCH_CPP").unwrap_or_default().split_whitespace() {
        println!("cargo:rustc-cfg={peer}");
        println!("cargo:rustc-link-lib=static=bench_{peer}");
        println!("cargo:rerun-if-changed={}", target.join(format!("bench/libbench_{peer}.a")).display());
        if peer == "faiss" {
            for library in ["faiss", "gomp", "lapack", "blas"] {
                println!("cargo:rustc-link-lib=dylib={library}");
            }
        }
        println!("cargo:rustc-link-lib=dylib=stdc++");
    }
}
