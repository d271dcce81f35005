//! `explain` beside the exported function: the same number on every file.

mod drawn;
mod files;

use std::collections::BTreeMap;

use sinalvento::{Buffers, Diagnostic, Explanation, Fault, Refusal, compile, explain};

/// The refusal's number and the plan's length, as the function gives them.
fn given(file: &[u8], buffers: &mut Buffers) -> (u8, usize) {
    match compile(file, buffers) {
        Ok(plan) => (0, plan.len()),
        Err(refusal) => (refusal.number(), 0),
    }
}

fn explained(file: &[u8]) -> (u8, usize) {
    match explain(file) {
        Explanation::Accepted(accepted) => (0, accepted.length),
        Explanation::Refused(fault) => {
            assert!(fault.offset <= file.len(), "{fault}");
            (fault.refusal.number(), 0)
        }
    }
}

#[test]
fn the_number_is_the_functions() {
    let mut buffers = Buffers::new();
    let mut counts = BTreeMap::new();
    drawn::each(30_000, |file| {
        let expected = given(file, &mut buffers);
        assert_eq!(explained(file), expected, "{file:02x?}");
        *counts.entry(expected.0).or_insert(0) += 1;
    });
    for number in [0, 3, 4, 5, 6, 7, 8, 9, 10, 12, 13, 14, 19] {
        assert!(counts.contains_key(&number), "{number} of {counts:?}");
    }
}

fn fault(file: &[u8]) -> Fault {
    match explain(file) {
        Explanation::Refused(fault) => fault,
        Explanation::Accepted(accepted) => panic!("{accepted}"),
    }
}

#[test]
fn a_place_for_each() {
    let places = [
        (1, "offset 32768 (8000 hex)"),
        (3, "section names, count, offset 0 (0 hex)"),
        (4, "section names, count, offset 0 (0 hex)"),
        (5, "type 0, kind, offset 4 (4 hex)"),
        (6, "name 0, byte 0, offset 3 (3 hex)"),
        (7, "offset 20 (14 hex)"),
        (8, "type 0, predicate, offset 5 (5 hex)"),
        (9, "type 0, type of field 0, offset 10 (a hex)"),
        (10, "type 1, name of field 1, offset 13 (d hex)"),
        (11, "type 32, kind, offset 193 (c1 hex)"),
        (12, "node 1, node of field 1, offset 19 (13 hex)"),
        (13, "binding 0, node, offset 16 (10 hex)"),
        (14, "fetched entry 0, path's step count, offset 18 (12 hex)"),
        (19, "node 0, kind, offset 13 (d hex)"),
    ];
    for ((number, file), (of, place)) in files::refused().into_iter().zip(places) {
        let fault = fault(&file);
        assert_eq!((number, fault.refusal.number()), (of, of));
        assert_eq!(fault.place(), place, "{number}");
    }
}

#[test]
fn expected_and_found_in_words() {
    assert_eq!(
        fault(&files::d1()[..30]).to_string(),
        "refused by 3: bytes end inside a count or record\n  \
         at predicate 0, key type, offset 29 (1d hex)\n  \
         expected key type, 2 bytes\n  \
         found 1 byte, then the end of the file"
    );
}

#[test]
fn the_level_that_makes_a_plan_too_long() {
    // 64 levels of a key with a long text; the plan overflows on the way.
    let text = "61".repeat(255);
    let file = files::unhex(&format!(
        "0100 ff{text} 0100 01 0100 0000ffff 0100 010000 0000 0000 0000 0000 0000 4000 {}",
        "0000 0000 0000".repeat(64)
    ));
    let fault = fault(&file);
    assert_eq!(fault.refusal, Refusal::PlanTooLong);
    let level = fault.record.expect("a level");
    assert!(0 < level && level < 64);
    let bytes = 10 + level * 273;
    assert_eq!(
        fault.found,
        format!("more: the {level} levels before this one take {bytes} bytes")
    );
}

#[test]
fn every_diagnostic_has_a_name_and_advice() {
    for (at, diagnostic) in Diagnostic::ALL.into_iter().enumerate() {
        assert_eq!(diagnostic.code() as usize, at + 1);
        assert_eq!(Diagnostic::from_code(diagnostic.code()), diagnostic);
        assert!(diagnostic.to_string().starts_with(diagnostic.name()));
    }
    for code in [0, 12, 255] {
        assert_eq!(Diagnostic::from_code(code), Diagnostic::Unknown(code));
        assert_eq!(Diagnostic::Unknown(code).code(), code);
    }
}

#[test]
fn notes_have_their_nodes_place() {
    // A Never (node 0) as the key's only field.
    let file = files::unhex(
        "0000 0100 00 0100 0000ffff 0100 05 0000 0000 0000 0000 0000 0100 0000 0000 0000",
    );
    let Explanation::Accepted(accepted) = explain(&file) else {
        panic!("it is accepted");
    };
    let [note] = accepted.notes.as_slice() else {
        panic!("{accepted}");
    };
    assert_eq!(
        (note.diagnostic, note.node, note.offset),
        (Diagnostic::NyiNever, 0, 13)
    );
}

/// The bytes of a rule file that is written as text.
fn written(rules: &str) -> Vec<u8> {
    let parsed = sinalvento::text::parse(rules).unwrap_or_else(|fault| panic!("{rules}: {fault}"));
    parsed.rules.write()
}

/// By each way in which a constant comes to a field: what is told is the constant itself.
#[test]
fn a_text_where_a_number_belongs_is_refused() {
    let head = "predicate door: { room: Int, at: { x: Int, y: Int }, lock: union { open: Int } }\n";
    for (rules, node, expected, found) in [
        (
            "level door { room = \"seven\" }",
            0,
            "a number (Int) for room of level 0",
            "a text",
        ),
        (
            "level door { room = 7 } level door { at = { y = hex\"07\" } }",
            2,
            "a number (Int) for at.y of level 1",
            "a string of bytes",
        ),
        (
            "let s = const \"seven\" level door { lock = { open = s } }",
            0,
            "a number (Int) for lock.open of level 0",
            "a text, which node 1 stands for",
        ),
        (
            "let s = const { n = \"seven\" } level door { room = s.n }",
            0,
            "a number (Int) for room of level 0",
            "a text, which node 3 stands for",
        ),
        (
            "let s = const { open = 7, shut = 8 } level door { lock = s }",
            2,
            "a union's alternative for lock of level 0",
            "a record, which node 3 stands for",
        ),
        (
            "let s = const 7 level door(s)",
            0,
            "a record for the key of level 0",
            "a number, which node 1 stands for",
        ),
        (
            "let s = const { at = { x = 7, y = \"seven\" } } level door(s)",
            1,
            "a number (Int) for at.y of level 0",
            "a text",
        ),
    ] {
        let fault = fault(&written(&format!("{head}{rules}")));
        assert_eq!(fault.refusal, Refusal::Literal, "{rules}");
        assert_eq!(fault.record, Some(node), "{rules}");
        assert_eq!(
            (fault.expected.as_str(), fault.found.as_str()),
            (expected, found)
        );
    }
}

/// A record with a name in it is no constant.
#[test]
fn a_record_where_a_number_belongs_is_told() {
    let file = written("predicate door: { room: Int }\nlevel door { room = { n = x } }");
    let Explanation::Accepted(accepted) = explain(&file) else {
        panic!("it is accepted");
    };
    let [overlooked] = accepted.overlooked.as_slice() else {
        panic!("{accepted}");
    };
    assert_eq!(
        overlooked.why,
        "a record stands where a number (Int) belongs"
    );
    assert_eq!((overlooked.level, overlooked.node), (0, 1));
}
