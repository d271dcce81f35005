//! The rooms of examples/: their plans are still those that stand beside them.

use std::path::PathBuf;
use std::process::Command;
use std::{env, fs};

const ROOMS: [&str; 4] = [
    "locked-door",
    "weight-on-plate",
    "key-by-prefix",
    "lock-equals-key",
];

fn file(room: &str, ending: &str) -> PathBuf {
    let examples = PathBuf::from(env!("CARGO_MANIFEST_DIR")).join("../examples");
    examples.join(room).with_extension(ending)
}

/// What the command prints; nothing is told beside it.
fn printed(arguments: &[&str], room: &str) -> String {
    let output = Command::new(env!("CARGO_BIN_EXE_sinalvento"))
        .args(arguments)
        .arg(file(room, "rules"))
        .output()
        .expect("the command was built");
    assert_eq!(String::from_utf8_lossy(&output.stderr), "", "{room}");
    assert_eq!(output.status.code(), Some(0), "{room}");
    String::from_utf8(output.stdout).expect("text")
}

#[test]
fn plans_as_printed() {
    for room in ROOMS {
        let expected = fs::read_to_string(file(room, "plan")).expect("it is there");
        assert_eq!(printed(&["plan"], room), expected, "{room}");
    }
}

/// The sentences that README.md there tells.
#[test]
fn plans_in_brief() {
    let page = fs::read_to_string(file("README", "md")).expect("it is there");
    for room in ["weight-on-plate", "key-by-prefix"] {
        let brief = printed(&["plan", "--brief"], room);
        let block: String = brief.lines().map(|line| format!("    {line}\n")).collect();
        assert!(page.contains(&format!("{room}\n\n{block}\n")), "{block}");
    }
}

#[test]
fn what_is_shown_is_the_same_room() {
    for room in ROOMS {
        let shown = printed(&["show"], room);
        let text = fs::read_to_string(file(room, "rules")).expect("it is there");
        let [written, again] = [text, shown].map(|text| sinalvento::text::parse(&text));
        assert_eq!(
            written.map(|it| it.rules),
            again.map(|it| it.rules),
            "{room}"
        );
    }
}
