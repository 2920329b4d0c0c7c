//! Finds the proved library: in STRIP_LIB_DIR, or where `sh .ci/build` leaves it in this repository.

use std::path::{Path, PathBuf};

fn main() {
    println!("cargo:rerun-if-env-changed=STRIP_LIB_DIR");
    let package = std::env::var_os("CARGO_MANIFEST_DIR").expect("cargo names the package");
    let dir = match std::env::var_os("STRIP_LIB_DIR") {
        Some(dir) => PathBuf::from(dir),
        None => Path::new(&package).join("../target/staticlib"),
    };
    let archive = dir.join("libstrip.a");
    println!("cargo:rerun-if-changed={}", archive.display());
    if !archive.is_file() {
        eprintln!("no library at {}", archive.display());
        eprintln!("make it with `sh .ci/build`, or say in STRIP_LIB_DIR where libstrip.a stands");
        std::process::exit(1);
    }
    println!("cargo:rustc-link-search=native={}", dir.display());
    println!("cargo:rustc-link-lib=static=strip");
}
