//! Finds the library, and links it.
//!
//! A release has one file, `libwethlorn.a`: `WETHLORN_LIB_DIR` names the folder that it lies in. Without that it is looked for beside this
//! crate, where a release has it, unpacked or installed. In the repository there is none, and two files are linked: the archive of the C
//! interface, `crates/wg_c/out/libwg_c.a`, and the heap of the toolchain whose `rt` is on the PATH, `c/liblibc_c.a`. `WETHLORN_ARCHIVE`
//! and `WETHLORN_HEAP` name these.

use std::env;
use std::path::{Path, PathBuf};

/// Where a release has the library, from the folder of this crate: as it is unpacked, and as it is installed.
const BESIDE: [&str; 2] = ["../../lib", "../../../../lib"];

fn main() {
    for name in ["WETHLORN_LIB_DIR", "WETHLORN_ARCHIVE", "WETHLORN_HEAP"] {
        println!("cargo:rerun-if-env-changed={name}");
    }
    match released() {
        Some(library) => link(&library),
        None => {
            link(&given("WETHLORN_ARCHIVE").unwrap_or_else(archive));
            link(&given("WETHLORN_HEAP").unwrap_or_else(heap));
        }
    }
}

fn given(name: &str) -> Option<PathBuf> {
    env::var_os(name).map(PathBuf::from)
}

fn here() -> PathBuf {
    PathBuf::from(env::var_os("CARGO_MANIFEST_DIR").expect("cargo sets it"))
}

/// The library of a release: the one that is asked for, or the one beside this crate, if no archive is asked for.
fn released() -> Option<PathBuf> {
    if let Some(folder) = given("WETHLORN_LIB_DIR") {
        return Some(folder.join("libwethlorn.a"));
    }
    if given("WETHLORN_ARCHIVE").is_some() || !here().join("../../MANIFEST.json").is_file() {
        return None;
    }
    let folders = BESIDE.iter().map(|folder| here().join(folder));
    folders
        .map(|folder| folder.join("libwethlorn.a"))
        .find(|library| library.is_file())
}

fn archive() -> PathBuf {
    here().join("../../crates/wg_c/out/libwg_c.a")
}

/// The heap of the toolchain: `rt` may be a link into it.
fn heap() -> PathBuf {
    let folders = env::var_os("PATH").unwrap_or_default();
    let found = env::split_paths(&folders)
        .map(|folder| folder.join("rt"))
        .find(|rt| rt.is_file());
    let rt = found.expect("`rt` is not on the PATH: name the heap by WETHLORN_HEAP");
    let rt = rt.canonicalize().expect("`rt` can be read");
    rt.ancestors()
        .nth(2)
        .expect("`rt` stands in a folder of the toolchain")
        .join("c/liblibc_c.a")
}

/// Links a static library by its path.
fn link(file: &Path) {
    let file = file.canonicalize().unwrap_or_else(|error| {
        panic!(
            "{}: {error}: WETHLORN_LIB_DIR names the folder of a release's libwethlorn.a, and `rt lib` in crates/wg_c builds the archive",
            file.display()
        )
    });
    let name = file
        .file_stem()
        .and_then(|name| name.to_str())
        .and_then(|name| name.strip_prefix("lib"));
    let name = name.unwrap_or_else(|| panic!("{}: an archive is named libNAME.a", file.display()));
    println!("cargo:rerun-if-changed={}", file.display());
    println!(
        "cargo:rustc-link-search=native={}",
        file.parent().expect("a file stands in a folder").display()
    );
    println!("cargo:rustc-link-lib=static={name}");
}
