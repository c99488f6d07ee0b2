//! Links `../crates/probe/out/libprobe.a`, which exports the buffer layer. The library itself is
//! linked by `../tests`.

use std::path::Path;
use std::process::exit;

fn main() {
    let folder = Path::new(env!("CARGO_MANIFEST_DIR")).join("../crates/probe/out");
    let archive = folder.join("libprobe.a");
    println!("cargo:rerun-if-changed=build.rs");
    println!("cargo:rerun-if-changed={}", archive.display());
    if !archive.is_file() {
        eprintln!("The buffer layer is not there: {}", archive.display());
        eprintln!("`rt lib` in crates/probe makes it; ./bench does that.");
        exit(1);
    }
    println!("cargo:rustc-link-search=native={}", folder.display());
    println!("cargo:rustc-link-lib=static=probe");
}
