//! The command: what it prints, where, and its exit status.

use std::io::Write;
use std::path::PathBuf;
use std::process::{Command, Stdio};
use std::{env, fs};

const DOOR: &str =
    "predicate door: { room: Int, tag: Str }\nlevel door { room = 7, tag = \"k\".. }\n";

struct Ended {
    status: i32,
    output: Vec<u8>,
    told: String,
}

impl Ended {
    fn text(&self) -> String {
        String::from_utf8_lossy(&self.output).into_owned()
    }
}

fn run(arguments: &[&str], input: &[u8]) -> Ended {
    let mut child = Command::new(env!("CARGO_BIN_EXE_sinalvento"))
        .args(arguments)
        .stdin(Stdio::piped())
        .stdout(Stdio::piped())
        .stderr(Stdio::piped())
        .spawn()
        .expect("the command was built");
    // A command that reads nothing may be gone already.
    let _ = child.stdin.take().map(|mut stdin| stdin.write_all(input));
    let ended = child.wait_with_output().expect("it ends");
    Ended {
        status: ended.status.code().expect("it ends by itself"),
        output: ended.stdout,
        told: String::from_utf8(ended.stderr).expect("text"),
    }
}

fn built(text: &str) -> Vec<u8> {
    let ended = run(&["build", "-"], text.as_bytes());
    assert_eq!((ended.status, ended.told.as_str()), (0, ""));
    ended.output
}

fn scratch(name: &str) -> PathBuf {
    PathBuf::from(env!("CARGO_TARGET_TMPDIR")).join(name)
}

#[test]
fn text_to_bytes_and_back() {
    let bytes = built(DOOR);
    assert_eq!(bytes.len(), 75);
    let shown = run(&["show", "-"], &bytes);
    assert_eq!(shown.status, 0);
    assert_eq!(built(&shown.text()), bytes);
}

#[test]
fn plans_for_people_and_programs() {
    let bytes = built(DOOR);
    let hex = run(&["plan", "--hex", "-"], &bytes);
    assert_eq!(
        hex.text(),
        "01000200000001000200090002800000000000000700000200036b010000010000000000000000000000000000\n"
    );
    let readable = |facts: &str, line: &str| {
        format!(
            "level 0: {facts}, seek PrefixRange, 2 narrowings, 1 part\n    \
             part: room = 7 (node 0{line}: 7)\n    range: tag = \"k\".. (node 1{line}: \"k\"..)\n"
        )
    };
    let of_bytes = run(&["plan", "-"], &bytes);
    assert_eq!(of_bytes.text(), readable("p0 in r0", ""));
    let of_text = run(&["plan", "--text", "-"], DOOR.as_bytes());
    assert_eq!(of_text.text(), readable("door in r0", ", line 2"));
    let json = run(&["plan", "--json", "-"], &bytes);
    assert_eq!(
        json.text(),
        "{\"names\":[\"room\",\"tag\",\"k\"],\"levels\":[{\"predicate\":0,\"register\":0,\"narrowings\":2,\"closers\":0,\
         \"part_count\":1,\"seek\":\"PrefixRange\",\"parts\":[{\"bytes\":\"028000000000000007\",\"node\":0}],\
         \"range\":{\"path\":{\"field\":1,\"steps\":[]},\"prefix\":\"036b\",\"node\":1},\"guide\":null,\"residuals\":[],\"folded\":[]}],\
         \"bindings\":[],\"constrained\":[],\"selects\":[],\"diagnostics\":[]}\n"
    );
}

#[test]
fn plans_are_opened() {
    let (rules, plan) = (scratch("open.rules"), scratch("open.bin"));
    fs::write(&rules, DOOR).expect("it can be written");
    let [rules, plan_name] = [&rules, &plan].map(|path| path.to_str().expect("text"));
    assert_eq!(run(&["plan", "-o", plan_name, rules], &[]).status, 0);
    let bytes = fs::read(&plan).expect("it was written");
    assert_eq!(bytes.len(), 45);

    let bare = run(&["open", "-"], &bytes);
    assert_eq!(bare.status, 0);
    assert_eq!(
        bare.text(),
        "level 0: seek PrefixRange, 2 narrowings, 1 part\n    part: 7 (node 0)\n    range: [1] = \"k\".. (node 1)\n"
    );
    for manner in [vec![], vec!["--brief"], vec!["--json"]] {
        let planned = run(&[&["plan", rules][..], &manner].concat(), &[]);
        let opened = run(&[&["open", plan_name, rules][..], &manner].concat(), &[]);
        assert_eq!((opened.status, opened.told.as_str()), (0, ""));
        assert_eq!(opened.text(), planned.text());
    }
    let brief = run(&["open", "--brief", "-", rules], &bytes);
    assert_eq!(
        brief.text(),
        "level 0 (door in r0): seek prefix \"k\" (node 1, line 2: \"k\"..) of field 1 (tag) \
         after room = 7 (node 0, line 2: 7)\n"
    );
    let brief = run(&["open", "--brief", "-"], &bytes);
    assert_eq!(
        brief.text(),
        "level 0: seek prefix \"k\" (node 1) of field 1 after 7 (node 0)\n"
    );
    let json = run(&["open", "--json", "-"], &bytes);
    assert!(
        json.text()
            .starts_with("{\"names\":[],\"levels\":[{\"predicate\":null,")
    );
}

#[test]
fn bytes_that_are_no_plan() {
    let bytes = run(&["plan", "-o", "-", "--text", "-"], DOOR.as_bytes()).output;
    let cut = run(&["open", "-"], &bytes[..40]);
    assert_eq!((cut.status, cut.text().as_str()), (1, ""));
    assert_eq!(
        cut.told,
        "standard input: refused by 16: plan ends early\n  at offset 40 (28 hex): more bytes are expected\n"
    );
    let mut other = bytes.clone();
    other[2] = 3;
    let broken = run(&["open", "-"], &other);
    assert_eq!(broken.status, 1);
    assert!(
        broken
            .told
            .ends_with("level 0: narrowings = parts - closers + residuals + range + guide\n")
    );

    // The plan of another file: it is shown, and said.
    let rules = scratch("another.rules");
    fs::write(&rules, DOOR.replace('7', "8")).expect("it can be written");
    let rules = rules.to_str().expect("text");
    let ended = run(&["open", "-", rules], &bytes);
    assert_eq!(ended.status, 0);
    assert_eq!(
        ended.told,
        format!("standard input: this is not the plan of {rules}\n")
    );
}

#[test]
fn files_by_name() {
    let (text, bytes) = (scratch("door.rules"), scratch("door.bin"));
    fs::write(&text, DOOR).expect("it can be written");
    let _ = fs::remove_file(&bytes);
    let [text, bytes_name] = [&text, &bytes].map(|path| path.to_str().expect("text"));
    assert_eq!(run(&["build", text], &[]).status, 0);
    assert_eq!(fs::read(&bytes).expect("it was written"), built(DOOR));
    assert_eq!(
        run(&["show", bytes_name], &[]).text(),
        run(&["show", text], &[]).text()
    );
    let other = scratch("other");
    let other = other.to_str().expect("text");
    assert_eq!(run(&["build", text, "-o", other], &[]).status, 0);
    assert_eq!(fs::read(other).expect("it was written"), built(DOOR));
}

#[test]
fn a_designers_first_mistakes() {
    // A file that is cut short.
    let bytes = built(DOOR);
    let cut = run(&["explain", "-"], &bytes[..40]);
    assert_eq!(cut.status, 1);
    assert_eq!(
        cut.text(),
        "standard input: refused by 3: bytes end inside a count or record\n  \
         at node 0, number, offset 36 (24 hex)\n  expected number, 8 bytes\n  found 4 bytes, then the end of the file\n"
    );
    let planned = run(&["plan", "-"], &bytes[..40]);
    assert_eq!((planned.status, planned.told), (1, cut.text()));

    // A text where a number belongs: in a pattern, and in the notation itself.
    let text = DOOR.replace('7', "\"seven\"");
    let told = run(&["build", "-"], text.as_bytes());
    assert_eq!(told.status, 1);
    assert_eq!(
        told.told,
        "standard input: line 2, column 21: refused by 19: \
         constant of the wrong kind for its key, field or payload\n  \
         at node 0, kind, offset 41 (29 hex)\n  \
         expected a number (Int) for room of level 0\n  found a text\n"
    );
    let told = run(&["build", "-"], b"let x = field r0[\"tag\"]: Int");
    assert_eq!(told.status, 1);
    assert_eq!(
        told.told,
        "standard input: line 1, column 18: a number (a path's field) is expected, and this is a text\n"
    );

    // A name too many: in a pattern, and in a file.
    let text = DOOR.replace("room = 7", "rom = 7");
    let told = run(&["explain", "--text", "-"], text.as_bytes());
    assert_eq!(told.status, 0);
    assert!(
        told.text().contains("line 2, column 20: node 0"),
        "{}",
        told.text()
    );
    assert!(
        told.text()
            .ends_with("there is no field rom here, only room, tag\n"),
        "{}",
        told.text()
    );
    let names: Vec<String> = (0..513).map(|number| format!("n{number}")).collect();
    let told = run(
        &["build", "-"],
        format!("names {}", names.join(",\n")).as_bytes(),
    );
    assert_eq!(told.status, 1);
    assert_eq!(
        told.told,
        "standard input: line 513, column 1: one name too many: a file has at most 512 names\n"
    );
}

#[test]
fn refusals_have_their_place_in_the_text() {
    let text = "predicate door: Int\nlet x = const _\nlevel door(x)\n";
    let told = run(&["build", "-"], text.as_bytes());
    assert_eq!(told.status, 1);
    assert_eq!(
        told.told,
        "standard input: line 2, column 1: refused by 13: Const binding of a node that isn't constant\n  \
         at binding 0, node, offset 24 (18 hex)\n  \
         expected a constant: a number, a text, bytes, or a record of constants\n  found node 0, which is none\n"
    );
}

#[test]
fn help_and_words_that_are_not_understood() {
    let help = run(&["--help"], &[]);
    assert_eq!((help.status, help.told.as_str()), (0, ""));
    assert!(help.text().starts_with("usage: sinalvento build"));
    let version = run(&["--version"], &[]);
    assert_eq!(
        version.text(),
        format!("sinalvento {}\n", env!("CARGO_PKG_VERSION"))
    );
    for arguments in [
        &[][..],
        &["polish"],
        &["show"],
        &["show", "--hex", "-"],
        &["plan", "no such file"],
    ] {
        let ended = run(arguments, &[]);
        assert_eq!((ended.status, ended.output.len()), (2, 0), "{arguments:?}");
        assert!(!ended.told.is_empty());
    }
}

/// Whatever it is given, the command answers with one of its three statuses.
#[test]
fn random_bytes() {
    let mut state = 9_u64;
    let mut byte = || {
        state = state
            .wrapping_mul(6_364_136_223_846_793_005)
            .wrapping_add(1_442_695_040_888_963_407);
        (state >> 56) as u8
    };
    let door = built(DOOR);
    for round in 0..40 {
        let mut bytes = door.clone();
        for _ in 0..1 + round % 5 {
            let at = usize::from(byte()) % bytes.len();
            bytes[at] = byte() % 16;
        }
        for arguments in [
            ["show", "-"],
            ["plan", "-"],
            ["explain", "-"],
            ["open", "-"],
            ["build", "-"],
        ] {
            let ended = run(&arguments, &bytes);
            assert!(
                ended.status < 2,
                "{arguments:?} {bytes:02x?}: {}",
                ended.told
            );
        }
    }
}
