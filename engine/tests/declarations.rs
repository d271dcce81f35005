//! The exported functions, told four times: by the Rattle source that is proved,
//! by the C header, by the crate's `extern` block and by the archive. The
//! names, the parameters with their order and types, and the results must agree.

use std::collections::BTreeMap;
use std::path::{Path, PathBuf};
use std::process::Command;
use std::{env, fs};

/// What a function takes and gives: names of parameters and types, in Rust's
/// words.
#[derive(Debug, PartialEq, Eq)]
struct Signature {
    parameters: Vec<(String, String)>,
    result: String,
}

type Functions = BTreeMap<String, Signature>;

fn root() -> PathBuf {
    Path::new(env!("CARGO_MANIFEST_DIR")).join("..")
}

/// The texts of all files below a folder whose names end so.
fn texts(folder: &Path, ending: &str) -> Vec<String> {
    let entries =
        fs::read_dir(folder).unwrap_or_else(|error| panic!("{}: {error}", folder.display()));
    let mut paths: Vec<PathBuf> = entries
        .map(|entry| entry.expect("it is listed").path())
        .collect();
    paths.sort();
    let mut found = vec![];
    for path in paths {
        if path.is_dir() {
            found.extend(texts(&path, ending));
        } else if path.to_string_lossy().ends_with(ending) {
            found.push(fs::read_to_string(&path).expect("a source file is text"));
        }
    }
    found
}

/// The text without `//` comments.
fn without_line_comments(text: &str) -> String {
    let lines = text
        .lines()
        .map(|line| line.split("//").next().unwrap_or(""));
    lines.collect::<Vec<_>>().join("\n")
}

/// What stands between the first `open` and its `close`, and what follows.
fn between(text: &str, open: char, close: char) -> (&str, &str) {
    let start = text.find(open).expect("it is opened") + 1;
    let mut depth = 1;
    for (at, found) in text[start..].char_indices() {
        depth += i32::from(found == open) - i32::from(found == close);
        if depth == 0 {
            return (&text[start..start + at], &text[start + at + 1..]);
        }
    }
    panic!("{open} is not closed in {text}");
}

fn plain(text: &str) -> String {
    text.split_whitespace().collect::<Vec<_>>().join(" ")
}

/// `NAME(PARAMETERS) -> RESULT` with each parameter as `NAME: TYPE`, as Rust and
/// Rattle write it; the result ends where a contract, a body or a `;` begins.
fn signature(text: &str) -> (String, Signature) {
    let name = plain(text.split('(').next().expect("a name"));
    let (inside, rest) = between(text, '(', ')');
    let given = inside.split(',').map(plain).filter(|one| !one.is_empty());
    let parameters = given.map(|one| {
        let (name, ty) = one.split_once(": ").expect("NAME: TYPE");
        (name.to_string(), ty.to_string())
    });
    let result = rest.trim_start().strip_prefix("->").unwrap_or("");
    let end =
        ["requires", "ensures", "{", ";"].map(|word| result.find(word).unwrap_or(result.len()));
    let end = end.into_iter().min().unwrap_or(0);
    let signature = Signature {
        parameters: parameters.collect(),
        result: plain(&result[..end]),
    };
    (name, signature)
}

/// A slice is a pointer, then a length.
fn lowered(signature: Signature) -> Signature {
    let lower = |(name, ty): (String, String)| {
        let pointer = match ty.as_str() {
            "&[u8]" => "*const u8",
            "&mut [u8]" => "*mut u8",
            _ => return vec![(name, ty)],
        };
        let length = (format!("{name}_len"), String::from("usize"));
        vec![(name, String::from(pointer)), length]
    };
    Signature {
        parameters: signature.parameters.into_iter().flat_map(lower).collect(),
        result: signature.result,
    }
}

/// The source files of every crate. What `rt` keeps in a crate's out/ is none.
fn rattle_sources() -> Vec<String> {
    let crates = fs::read_dir(root().join("crates")).expect("the crates are listed");
    let folders = crates.map(|entry| entry.expect("it is listed").path().join("src"));
    let folders = folders.filter(|folder| folder.is_dir());
    folders.flat_map(|folder| texts(&folder, ".rt")).collect()
}

/// Every `#[unsafe(no_mangle)] pub extern "C" fn` of every crate.
fn exported_by_rattle() -> Functions {
    let mut found = Functions::new();
    for text in rattle_sources() {
        let text = without_line_comments(&text);
        for after in text.split("#[unsafe(no_mangle)]").skip(1) {
            let function = after.trim_start();
            let function = function.strip_prefix("pub extern \"C\" fn ");
            let (name, taken) = signature(function.expect("an exported function is public"));
            found.insert(name, lowered(taken));
        }
    }
    found
}

fn declared_by_the_crate() -> Functions {
    let mut found = Functions::new();
    for text in texts(&root().join("engine/src"), ".rs") {
        let text = without_line_comments(&text);
        for block in text.split("unsafe extern \"C\"").skip(1) {
            let (inside, _) = between(block, '{', '}');
            for function in inside.split("fn ").skip(1) {
                let (name, taken) = signature(function);
                found.insert(name, taken);
            }
        }
    }
    found
}

/// The header without comments, without what is for C++ or the preprocessor,
/// and with a `;` for each body.
fn declarations_of_the_header() -> String {
    let mut text = include_str!("../include/sinalvento.h").to_string();
    while let Some(start) = text.find("/*") {
        let end = start + text[start..].find("*/").expect("a comment ends") + 2;
        text.replace_range(start..end, " ");
    }
    while let Some(start) = text.find("#ifdef __cplusplus") {
        let end = start + text[start..].find("#endif").expect("an #ifdef ends") + 6;
        text.replace_range(start..end, " ");
    }
    let lines = text
        .lines()
        .filter(|line| !line.trim_start().starts_with('#'));
    let mut text = lines.collect::<Vec<_>>().join("\n");
    while let Some(start) = text.find('{') {
        let (inside, _) = between(&text, '{', '}');
        let end = start + inside.len() + 2;
        text.replace_range(start..end, ";");
    }
    text
}

/// A type of C in Rust's words.
fn in_rust(ty: &str) -> &'static str {
    match ty.replace(' ', "").as_str() {
        "constuint8_t*" => "*const u8",
        "uint8_t*" => "*mut u8",
        "size_t" => "usize",
        "uint8_t" => "u8",
        "uint16_t" => "u16",
        "uint32_t" => "u32",
        "uint64_t" => "u64",
        "void" => "",
        _ => panic!("a type that no exported function has: {ty}"),
    }
}

/// `TYPE NAME`: the name is what the text ends in.
fn split_name(text: &str) -> (String, String) {
    let text = text.trim();
    let at = text.rfind(|c: char| !c.is_alphanumeric() && c != '_');
    let (ty, name) = text.split_at(at.expect("TYPE NAME") + 1);
    (name.to_string(), String::from(in_rust(ty)))
}

fn declared_by_the_header() -> Functions {
    let text = declarations_of_the_header();
    let prototypes = text.split(';').map(plain);
    let mut found = Functions::new();
    for prototype in prototypes.filter(|one| one.contains('(') && !one.starts_with("static")) {
        let (front, _) = prototype.split_once('(').expect("it has one");
        let (inside, _) = between(&prototype, '(', ')');
        let (name, result) = split_name(front);
        let parameters = inside.split(',').map(split_name).collect();
        found.insert(name, Signature { parameters, result });
    }
    found
}

#[test]
fn header_and_crate_declare_what_is_exported() {
    let exported = exported_by_rattle();
    for name in ["sinalvento_compile", "sinalvento_read"] {
        assert!(exported.contains_key(name), "{name}");
    }
    assert_eq!(declared_by_the_header(), exported);
    assert_eq!(declared_by_the_crate(), exported);
}

#[test]
fn the_archive_defines_what_is_exported_and_nothing_else() {
    let output = Command::new("nm")
        .args([
            "--defined-only",
            "--extern-only",
            env!("SINALVENTO_ARCHIVE"),
        ])
        .output()
        .expect("nm can be run: it comes with the linker");
    assert!(output.status.success());
    let listed = String::from_utf8_lossy(&output.stdout).into_owned();
    let words = listed
        .lines()
        .map(|line| line.split_whitespace().collect::<Vec<_>>());
    let mut defined: Vec<String> = words
        .filter(|words| words.len() == 3)
        .map(|words| words[2].to_string())
        .collect();
    defined.sort();
    let exported: Vec<String> = exported_by_rattle().into_keys().collect();
    assert_eq!(defined, exported);
}

/// The value of a `#define`.
fn defined(name: &str) -> &'static str {
    let header = include_str!("../include/sinalvento.h");
    let line = header
        .lines()
        .find_map(|line| line.strip_prefix(&format!("#define {name} ")));
    line.unwrap_or_else(|| panic!("{name} is not defined"))
}

#[test]
fn version_and_sizes_of_the_header() {
    let version = env!("CARGO_PKG_VERSION");
    assert_eq!(defined("SINALVENTO_VERSION"), format!("\"{version}\""));
    let parts =
        ["MAJOR", "MINOR", "PATCH"].map(|part| defined(&format!("SINALVENTO_VERSION_{part}")));
    assert_eq!(parts.join("."), version);
    for (name, size) in [
        ("SINALVENTO_MAX_FILE", sinalvento::MAX_FILE),
        ("SINALVENTO_MAX_PLAN", sinalvento::MAX_PLAN),
        ("SINALVENTO_MIN_WORK", sinalvento::MIN_WORK),
    ] {
        assert_eq!(defined(name), size.to_string());
    }
}

/// The stack that is promised is the same figure wherever callers read of it.
#[test]
fn the_stack_is_told_alike() {
    let bytes: usize = defined("SINALVENTO_STACK").parse().expect("a number");
    let told = format!("{} KiB", bytes >> 10);
    for text in [
        include_str!("../../README.md"),
        include_str!("../src/lib.rs"),
        include_str!("../../docs/BENCH.md"),
    ] {
        assert!(text.contains(&told), "{told}");
    }
}

/// What a changed declaration looks like, so that the readers above are known to see one.
#[test]
fn a_difference_is_seen() {
    let told = "f(file: &[u8], plan: &mut [u8]) -> u64\n    ensures { λ r. r }\n{";
    let (name, taken) = signature(told);
    assert_eq!(name, "f");
    let taken = lowered(taken);
    let swapped = lowered(signature("f(plan: &mut [u8], file: &[u8]) -> u64 {").1);
    let narrower = lowered(signature("f(file: &[u8], plan: &mut [u8]) -> u32 {").1);
    let lent = lowered(signature("f(file: &mut [u8], plan: &mut [u8]) -> u64 {").1);
    for other in [swapped, narrower, lent] {
        assert_ne!(taken, other);
    }
    let (name, ty) = split_name("const uint8_t *file");
    assert_eq!((name.as_str(), ty.as_str()), ("file", "*const u8"));
}
