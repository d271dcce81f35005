//! Finds the archive with the exported functions: `tools/archive` at the
//! repository's root proves and builds it, unless SINALVENTO_LIB names a
//! directory that already holds `libsinalvento.a`.

use std::path::{Path, PathBuf};
use std::process::Command;
use std::{env, fs};

const TOOL: &str = "tools/archive";
const LIBRARY: &str = "sinalvento";
const ARCHIVE: &str = "libsinalvento.a";

fn main() {
    println!("cargo::rerun-if-changed=build.rs");
    println!("cargo::rerun-if-env-changed=SINALVENTO_LIB");
    let archive = match env::var_os("SINALVENTO_LIB") {
        Some(directory) => named(Path::new(&directory)),
        None => built(&root()),
    };

    // A copy, since `tools/archive` writes it anew.
    let out = PathBuf::from(env::var_os("OUT_DIR").expect("set by cargo"));
    let copy = out.join(ARCHIVE);
    copied(&archive, &copy);
    println!("cargo::rustc-link-search=native={}", out.display());
    println!("cargo::rustc-link-lib=static={LIBRARY}");
    // For the test that links a C program.
    println!("cargo::rustc-env=SINALVENTO_ARCHIVE={}", copy.display());
}

fn root() -> PathBuf {
    let manifest = env::var_os("CARGO_MANIFEST_DIR").expect("set by cargo");
    PathBuf::from(manifest).join("..")
}

fn copied(from: &Path, to: &Path) {
    fs::copy(from, to).unwrap_or_else(|error| panic!("{}: {error}", from.display()));
}

/// The archive in a directory.
fn named(directory: &Path) -> PathBuf {
    let archive = directory.join(ARCHIVE);
    println!("cargo::rerun-if-changed={}", archive.display());
    archive
}

/// What the archive is made from. What the kit keeps in a crate's out/ is none of it.
fn sources(root: &Path) -> Vec<PathBuf> {
    let crates = fs::read_dir(root.join("crates")).expect("the crates are listed");
    let folders = crates.map(|entry| entry.expect("it is listed").path());
    let parts = folders.flat_map(|folder| ["src", "specs", "proofs"].map(|part| folder.join(part)));
    let mut found: Vec<PathBuf> = parts.filter(|part| part.is_dir()).collect();
    found.extend(["crates.txt", TOOL].map(|file| root.join(file)));
    found
}

/// Runs the kit, which proves again only what has changed.
fn built(root: &Path) -> PathBuf {
    let target = env::var("TARGET").expect("set by cargo");
    assert!(
        target.starts_with("x86_64-") && target.contains("-linux"),
        "the kit's archive is for x86-64 Linux, not for {target}"
    );
    for source in sources(root) {
        println!("cargo::rerun-if-changed={}", source.display());
    }
    let output = Command::new("bash")
        .arg(TOOL)
        .current_dir(root)
        .output()
        .unwrap_or_else(|error| panic!("bash cannot be run: {error}"));
    assert!(
        output.status.success(),
        "{TOOL} (put the Rattle kit on the PATH, or set SINALVENTO_LIB): {}\n{}{}",
        output.status,
        String::from_utf8_lossy(&output.stdout),
        String::from_utf8_lossy(&output.stderr)
    );
    root.join("target/staticlib").join(ARCHIVE)
}
