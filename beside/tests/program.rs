//! The program: its last line and its exit status.

use std::process::{Command, Output};

fn beside(arguments: &[&str]) -> Output {
    Command::new(env!("CARGO_BIN_EXE_beside"))
        .args(arguments)
        .output()
        .expect("the program was built")
}

#[test]
fn drawn_files_agree() {
    let output = beside(&["4", "1000"]);
    if !oracle::HAS_BODIES {
        assert_eq!(output.status.code(), Some(2));
        return;
    }
    let printed = String::from_utf8_lossy(&output.stdout).into_owned();
    let mut lines = printed.lines().rev();
    assert_eq!(
        lines.next(),
        Some("1000 compared, 0 different"),
        "{printed}"
    );
    let nodes = lines.next().unwrap_or_default();
    assert!(nodes.starts_with("nodes of "), "{printed}");
    assert!(nodes.ends_with(" plans compared, 0 different"), "{printed}");
    assert_eq!(output.status.code(), Some(0));
}

#[test]
fn drawn_plans_agree() {
    let output = beside(&["plans", "4", "300"]);
    let printed = String::from_utf8_lossy(&output.stdout).into_owned();
    let last = printed.lines().last().unwrap_or_default();
    assert!(last.ends_with(" compared, 0 different"), "{printed}");
    assert_eq!(output.status.code(), Some(0));
}

#[test]
fn what_passes_is_what_matches() {
    let output = beside(&["exact", "4", "1000"]);
    let printed = String::from_utf8_lossy(&output.stdout).into_owned();
    let last = printed.lines().last().unwrap_or_default();
    assert!(last.ends_with(" accepted, 0 different"), "{printed}");
    assert_eq!(output.status.code(), Some(0));
}

#[test]
fn unknown_words_are_refused() {
    assert_eq!(beside(&[]).status.code(), Some(2));
    assert_eq!(beside(&["1", "many"]).status.code(), Some(2));
    assert_eq!(beside(&["plans", "1"]).status.code(), Some(2));
    assert_eq!(beside(&["exact", "1"]).status.code(), Some(2));
}
