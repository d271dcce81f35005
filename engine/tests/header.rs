//! The C header: a C program that includes it, linked with the archive.

mod files;

use std::path::Path;
use std::process::Command;

fn compiler() -> String {
    std::env::var("CC").unwrap_or_else(|_| String::from("cc"))
}

#[test]
fn a_c_program_compiles_d1_and_reads_its_plan() {
    let here = Path::new(env!("CARGO_MANIFEST_DIR"));
    let program = Path::new(env!("CARGO_TARGET_TMPDIR")).join("d1");
    let built = Command::new(compiler())
        .args(["-std=c99", "-Wall", "-Wextra", "-Wpedantic", "-Werror"])
        .arg("-I")
        .arg(here.join("include"))
        .arg(here.join("tests/c/d1.c"))
        .arg(env!("SINALVENTO_ARCHIVE"))
        .arg("-o")
        .arg(&program)
        .output()
        .expect("a C compiler can be run");
    let said = String::from_utf8_lossy(&built.stderr).into_owned();
    assert!(built.status.success(), "{said}");

    let run = Command::new(&program).output().expect("it was built");
    assert_eq!(run.status.code(), Some(0));
    let printed = String::from_utf8_lossy(&run.stdout).into_owned();
    let (plan, refused) = printed.split_once('\n').expect("two lines");
    assert_eq!(files::unhex(plan), files::d1_plan());
    assert_eq!(refused, "refused 3\n");
}

/// The header is for C++ too; tried where there is a compiler for it.
#[test]
fn the_header_is_read_as_cpp() {
    let header = Path::new(env!("CARGO_MANIFEST_DIR")).join("include/sinalvento.h");
    let compiler = std::env::var("CXX").unwrap_or_else(|_| String::from("c++"));
    let read = Command::new(compiler)
        .args([
            "-std=c++11",
            "-Wall",
            "-Wextra",
            "-Werror",
            "-fsyntax-only",
            "-x",
            "c++",
        ])
        .arg(header)
        .output();
    match read {
        Ok(read) => assert!(
            read.status.success(),
            "{}",
            String::from_utf8_lossy(&read.stderr)
        ),
        Err(error) => println!("no C++ compiler: {error}"),
    }
}

/// The `cc` line that the header and README tell, with this test's program for
/// the caller's own.
#[test]
fn the_line_for_cc_is_as_told() {
    let root = Path::new(env!("CARGO_MANIFEST_DIR")).join("..");
    let header = include_str!("../include/sinalvento.h");
    let readme = include_str!("../../README.md");
    let program = Path::new(env!("CARGO_TARGET_TMPDIR")).join("game");
    for text in [header, readme] {
        let line = text
            .lines()
            .find_map(|line| Some(&line[line.find("cc -std=c99 ")?..]));
        let words = line.expect("an example").split(' ').skip(1);
        let words = words.map(|word| match word {
            "game.c" => root.join("engine/tests/c/d1.c"),
            "game" => program.clone(),
            "target/staticlib/libsinalvento.a" => env!("SINALVENTO_ARCHIVE").into(),
            word => word.into(),
        });
        let built = Command::new(compiler())
            .args(words)
            .current_dir(&root)
            .status();
        assert!(built.expect("a C compiler can be run").success());
    }
}

/// The header repeats the refusals' words; they must be this crate's.
#[test]
fn the_header_has_every_refusal() {
    let header = include_str!("../include/sinalvento.h");
    let plain: Vec<&str> = header.split_whitespace().collect();
    let plain = plain.join(" ");
    for refusal in sinalvento::Refusal::ALL {
        let (number, words) = (refusal.number(), refusal.words());
        let comma = if number == 18 { "" } else { "," };
        let line = format!("= {number}{comma} /* {words} */");
        assert!(plain.contains(&line), "{line}");
    }
}
