//! Links the proved library: `../crates/vistrokk/out/libvistrokk.a`, or the archive that VISTROKK_LIBRARY names.

use std::env;
use std::path::{Path, PathBuf};
use std::process::exit;

const VARIABLE: &str = "VISTROKK_LIBRARY";

fn main() {
    println!("cargo:rerun-if-changed=build.rs");
    println!("cargo:rerun-if-env-changed={VARIABLE}");
    link(&archive());
}

fn archive() -> PathBuf {
    match env::var_os(VARIABLE) {
        Some(path) => PathBuf::from(path),
        None => Path::new(env!("CARGO_MANIFEST_DIR")).join("../crates/vistrokk/out/libvistrokk.a"),
    }
}

fn link(archive: &Path) {
    println!("cargo:rerun-if-changed={}", archive.display());
    let (Some(folder), Some(file)) = (archive.parent(), archive.file_name()) else {
        missing(archive)
    };
    if !archive.is_file() {
        missing(archive);
    }
    println!("cargo:rustc-link-search=native={}", folder.display());
    let file = file.to_string_lossy();
    println!("cargo:rustc-link-lib=static:+verbatim={file}");
}

fn missing(archive: &Path) -> ! {
    eprintln!("The proved library is not there: {}", archive.display());
    eprintln!("Run `rt lib` in crates/vistrokk: it proves the library and makes the archive.");
    eprintln!("({VARIABLE} names another archive.)");
    exit(1)
}
