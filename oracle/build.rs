//! Cuts the covered bodies out of the original source, unchanged, so that the
//! oracle runs them and the repository holds none of their text.
//!
//! The source is found by FJORD_SRC (a directory that holds `crates/`), by
//! default `../shared/docs/src` beside the repository. Where it is missing the
//! project builds without the bodies: `fjord_bodies` is then not set.

#[path = "build/count.rs"]
mod count;
#[path = "build/cut.rs"]
mod cut;
#[path = "build/later.rs"]
mod later;
#[path = "build/mutate.rs"]
mod mutate;
#[path = "build/note.rs"]
mod note;
#[path = "build/tokens.rs"]
mod tokens;

use std::path::{Path, PathBuf};
use std::{env, fs};

const DEFAULT_SOURCE: &str = "../../shared/docs/src";

fn main() {
    println!("cargo::rerun-if-env-changed=FJORD_SRC");
    println!("cargo::rerun-if-changed=build.rs");
    println!("cargo::rerun-if-changed=build");

    let manifest = PathBuf::from(env::var_os("CARGO_MANIFEST_DIR").expect("set by cargo"));
    let root = match env::var_os("FJORD_SRC") {
        Some(named) => PathBuf::from(named),
        None => manifest.join(DEFAULT_SOURCE),
    };
    let engine = root.join("crates/fjord-engine/src");
    let (flatten, plan) = (engine.join("flatten.rs"), engine.join("plan.rs"));
    println!("cargo::rerun-if-changed={}", flatten.display());
    println!("cargo::rerun-if-changed={}", plan.display());

    let (Ok(flatten), Ok(plan)) = (fs::read_to_string(&flatten), fs::read_to_string(&plan)) else {
        println!("cargo::warning=no source of the bodies found; FJORD_SRC names its directory");
        return;
    };
    let out = PathBuf::from(env::var_os("OUT_DIR").expect("set by cargo"));
    write_modules(&out, &cut::Cut::new(&flatten, &plan));
    println!("cargo::rustc-cfg=fjord_bodies");
}

fn write_modules(out: &Path, cut: &cut::Cut) {
    write(
        &out.join("bodies.rs"),
        &cut.module(|item| item.text.clone()),
    );
    write_counted(out, cut);
    let changed = later::changed(cut);
    write(&out.join("noted.rs"), &note::module(&changed));
    if env::var_os("CARGO_FEATURE_MUTANTS").is_some() {
        write_mutants(out, &changed);
    }
}

/// A module for each mutant, and the table of them.
fn write_mutants(out: &Path, cut: &cut::Cut) {
    let mut modules = String::new();
    let mut table = String::from("pub const MUTANTS: &[Mutant] = &[\n");
    for mutant in mutate::MUTANTS {
        let (name, what) = (mutant.name, mutant.what);
        let file = format!("mutant_{name}.rs");
        write(&out.join(&file), &mutate::module(cut, mutant));
        modules.push_str(&format!("mutant_module!({name}, \"/{file}\");\n"));
        table.push_str(&format!(
            "Mutant {{ name: {name:?}, what: {what:?}, walk: {name}::walk }},\n"
        ));
    }
    write(&out.join("mutants.rs"), &format!("{modules}{table}];\n"));
}

/// The counting copy, and the table of its sites. Only functions of flatten.rs
/// are counted; the records of plan.rs hold no walk.
fn write_counted(out: &Path, cut: &cut::Cut) {
    let mut counter = count::Counter::new();
    let text = cut.module(|item| {
        if item.is_record() {
            item.text.clone()
        } else {
            counter.counted(item)
        }
    });
    write(&out.join("counted.rs"), &text);
    let mut sites = String::from("&[\n");
    for site in &counter.sites {
        let (line, function, what) = (site.line, &site.function, &site.what);
        sites.push_str(&format!("({line}, {function:?}, {what:?}),\n"));
    }
    sites.push(']');
    write(&out.join("sites.rs"), &sites);
}

fn write(path: &Path, text: &str) {
    fs::write(path, text).unwrap_or_else(|error| panic!("{}: {error}", path.display()));
}
