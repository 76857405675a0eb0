//! Links the kernel's archive, which `tools/package` puts into target/dist, and the header's reader, compiled from src/read.c.

use std::path::{Path, PathBuf};
use std::process::Command;

fn main() {
    let top = PathBuf::from(std::env::var("CARGO_MANIFEST_DIR").expect("cargo sets it"));
    let out = PathBuf::from(std::env::var("OUT_DIR").expect("cargo sets it"));
    let dist = top.join("../../target/dist");
    let source = top.join("src/read.c");
    compile(&source, &dist.join("include"), &out);
    link("hnho", &dist.join("lib"));
    link("read", &out);
    for file in [
        source,
        dist.join("include/hnho.h"),
        dist.join("lib/libhnho.a"),
    ] {
        println!("cargo:rerun-if-changed={}", file.display());
    }
}

/// A C file as libread.a in a folder.
fn compile(source: &Path, include: &Path, folder: &Path) {
    let object = folder.join("read.o");
    run(Command::new("gcc")
        .args("-std=c99 -O2 -pedantic -Wall -Wextra -Werror -c".split(' '))
        .arg("-I")
        .arg(include)
        .arg(source)
        .arg("-o")
        .arg(&object));
    run(Command::new("ar")
        .arg("rcs")
        .arg(folder.join("libread.a"))
        .arg(&object));
}

fn run(command: &mut Command) {
    let status = command
        .status()
        .unwrap_or_else(|fault| panic!("{command:?}: {fault}"));
    assert!(status.success(), "{command:?}: {status}");
}

fn link(library: &str, folder: &Path) {
    println!("cargo:rustc-link-search=native={}", folder.display());
    println!("cargo:rustc-link-lib=static={library}");
}
