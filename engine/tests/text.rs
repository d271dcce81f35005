//! Rule files as text: there and back.

mod drawn;
mod files;

use drawn::Rng;
use sinalvento::rules::*;
use sinalvento::text::{parse, print};

/// Text, then bytes again: the same file, and from there the same text. A file of
/// no bytes becomes ten counts of 0.
fn there_and_back(file: &[u8]) -> bool {
    let Ok(rules) = RuleFile::read(file) else {
        return false;
    };
    let written = rules.write();
    assert_eq!(written, if file.is_empty() { &[0; 20] } else { file });
    let text = print(&rules);
    let parsed = parse(&text).unwrap_or_else(|fault| panic!("{fault}\n{text}"));
    assert_eq!(parsed.rules, rules, "{text}");
    assert_eq!(print(&parsed.rules), text);
    true
}

#[test]
fn every_file_that_reads() {
    let mut count = 0;
    drawn::each(30_000, |file| count += usize::from(there_and_back(file)));
    assert!(count > 5_000, "{count}");
}

#[rustfmt::skip]
const CHARACTERS: [char; 14] = [
    '\0', 'a', '"', '`', '\\', '_', '\n', '\u{7F}',
    '\u{85}', '\u{E9}', '\u{301}', '\u{2028}', '\u{20AC}', '\u{1F600}',
];

fn any_name(rng: &mut Rng) -> Vec<u8> {
    let length = rng.below(4);
    let name: String = (0..length)
        .map(|_| CHARACTERS[rng.below(CHARACTERS.len())])
        .collect();
    name.into_bytes()
}

/// Characters stand as they are where they can be seen, else by their number.
#[test]
fn names_and_texts_beyond_ascii() {
    let text = "level d { `caf\u{E9}` = \"\u{20AC}\u{1F600}\\u{85}\\u{2028}\" }";
    let text = format!("predicate d: {{ `caf\u{E9}`: Str }}\n\n{text}\n");
    let parsed = parse(&text).expect("it parses");
    let texts = ["caf\u{E9}", "\u{20AC}\u{1F600}\u{85}\u{2028}"];
    assert!(
        texts
            .iter()
            .all(|text| parsed.rules.names.contains(&text.as_bytes().to_vec()))
    );
    let shown = print(&parsed.rules);
    assert!(shown.contains("`caf\u{E9}`"), "{shown}");
    assert!(
        shown.contains("\"\u{20AC}\u{1F600}\\u{85}\\u{2028}\""),
        "{shown}"
    );
}

/// A small number, now and then none of any table.
fn any_number(rng: &mut Rng) -> u16 {
    match rng.below(12) {
        0 => 0xFFFE,
        1..=4 => rng.below(4) as u16,
        _ => rng.below(9) as u16,
    }
}

fn any_type(rng: &mut Rng) -> Type {
    let (name, ty) = (any_number(rng), any_number(rng));
    let disc = rng.below(2) as u32;
    match rng.below(6) {
        0 => Type::Int,
        1 => Type::Str,
        2 => Type::Fact(any_number(rng)),
        3 => Type::Union(vec![Alternative { name, disc, ty }]),
        4 => Type::Record(vec![]),
        _ => {
            let second = FieldType {
                name: any_number(rng),
                ty: any_number(rng),
            };
            Type::Record(vec![FieldType { name, ty }, second])
        }
    }
}

fn any_node(rng: &mut Rng) -> Node {
    let (name, node) = (any_number(rng), any_number(rng));
    match rng.below(10) {
        0 => Node::Var(name),
        1 => Node::Str(name),
        2 => Node::Prefix(name),
        3 => Node::Fuzzy(name, 2, [Anchor::Prefix, Anchor::Whole][rng.below(2)]),
        4 => Node::KeyAccess(name, node),
        5 => Node::ValueAccess(node),
        6 => Node::Select(name, node),
        7 => Node::Fact(name, node),
        8 => Node::Int(-1),
        _ => {
            let second = FieldPattern {
                name: any_number(rng),
                node: any_number(rng),
            };
            Node::Record(vec![FieldPattern { name, node }, second])
        }
    }
}

fn any_slot(rng: &mut Rng) -> Slot {
    let (address, number) = (any_number(rng), any_number(rng));
    let path = Path {
        field: 1,
        steps: vec![u32::MAX, 0],
    };
    match rng.below(6) {
        0 => Slot::Row(address, [None, Some(number)][rng.below(2)]),
        1 => Slot::Key(address, number),
        2 => Slot::Derived(address),
        3 => Slot::Field(address, path, number),
        4 => Slot::Value(address, number),
        _ => Slot::Const(number),
    }
}

fn some<T>(rng: &mut Rng, most: usize, each: impl Fn(&mut Rng) -> T) -> Vec<T> {
    let count = rng.below(most + 1);
    (0..count).map(|_| each(rng)).collect()
}

fn any_rules(rng: &mut Rng) -> RuleFile {
    let two = |rng: &mut Rng| (any_number(rng), any_number(rng));
    let predicate = |rng: &mut Rng| {
        let (key, value) = two(rng);
        let value = [None, Some(value)][rng.below(2)];
        Predicate { key, value }
    };
    let binding = |rng: &mut Rng| {
        let (name, slot) = (any_number(rng), any_slot(rng));
        Binding { name, slot }
    };
    let comparison = |rng: &mut Rng| {
        let (op, (left, right)) = (Op::ALL[rng.below(4)], two(rng));
        Comparison { op, left, right }
    };
    let level = |rng: &mut Rng| {
        let ((predicate, node), address) = (two(rng), any_number(rng));
        Level {
            predicate,
            node,
            address,
        }
    };
    let named = |rng: &mut Rng| {
        let (name, node) = two(rng);
        (Hoisted { node, name }, Constraint { name, node })
    };
    RuleFile {
        names: some(rng, 6, any_name),
        types: some(rng, 8, any_type),
        predicates: some(rng, 3, predicate),
        nodes: some(rng, 10, any_node),
        bindings: some(rng, 3, binding),
        hoisted: some(rng, 2, |rng| named(rng).0),
        fetched: vec![],
        constraints: some(rng, 2, |rng| named(rng).1),
        comparisons: some(rng, 2, comparison),
        levels: some(rng, 3, level),
    }
}

/// Numbers out of range, names that are no words, names twice, parents first.
#[test]
fn names_and_numbers_that_say_nothing() {
    let mut rng = Rng(11);
    for _ in 0..5_000 {
        let rules = any_rules(&mut rng);
        assert!(there_and_back(&rules.write()), "{rules:?}");
    }
}

#[test]
fn d1_needs_no_number() {
    let rules = RuleFile::read(&files::d1()).expect("D1 reads");
    let text = print(&rules);
    assert_eq!(
        text,
        "predicate p0: { room: Int, tag: Str }\n\nlevel p0 { room = 7, tag = \"k\".. }\n"
    );
}

const EVERY_STATEMENT: &str = r#"
// A comment.
names first, "second text", `third`
type side = union { left: Int, right = 9: Str }
predicate door: { room: Int, tag: Str, side: side, to: Fact lock } -> Int
predicate lock: Int
let a = row r5 of door
let b = row r6
let c = key r7: { room: Int }
let d = derived r8
let e = field r9[1/0/4294967295]: Str
let f = value r10: Bytes
let g = const { room = -9223372036854775808, tag = "x\x00\"\\", side = { right = "" } }
fetch r9[3] into r11
level door {
    room = n,
    tag = t,
    side = { left = e },
    to = &held lock(a.room),
} in r3
hoist *held as h
where t = "k"..
where t = "key" ~2
where t = "key".. ~1
where n >= 3
where 9 > n
level lock(b.to.*?left.room)
level lock(hex"00ff")
level lock(_)
node !never
node { a = !disjunction, b = !subquery, c = !arith, d = !error }
"#;

#[test]
fn every_statement() {
    let parsed = parse(EVERY_STATEMENT).unwrap_or_else(|fault| panic!("{fault}"));
    assert_eq!(parsed.predicates, ["door", "lock"]);
    assert_eq!(parsed.rules.levels.len(), 4);
    assert_eq!(parsed.rules.levels[0].address, 3);
    assert!(there_and_back(&parsed.rules.write()));
    let again = print(&parsed.rules);
    assert!(!again.contains('#'), "{again}");
}

const MISTAKES: &[(&str, &str)] = &[
    (
        "level door {",
        "line 1, column 13: a name is expected, and this is the end of the text",
    ),
    (
        "level door { room = 7 }",
        "line 1, column 7: there is no predicate `door` in this text",
    ),
    (
        "predicate d: { room: Num }",
        "line 1, column 22: no type above has the label `Num`",
    ),
    (
        "let x = field r0[\"a\"]: Int",
        "line 1, column 18: a number (a path's field) is expected, and this is a text",
    ),
    (
        "\n\n  levle d",
        "line 3, column 3: a statement (predicate, level, where, let, hoist, fetch, type, node or names) \
         is expected, and this is `levle`",
    ),
    (
        "node \"abc",
        "line 1, column 6: this \" has no closing \" in its line",
    ),
    (
        "node \"a\\u{d800}\"",
        "line 1, column 8: after \\ comes n, t, \\, \", `, x and two hex digits below 80, \
         or u and a character's number in braces",
    ),
    (
        "node \"a\\xe9\"",
        "line 1, column 8: after \\ comes n, t, \\, \", `, x and two hex digits below 80, \
         or u and a character's number in braces",
    ),
    (
        "node 9223372036854775808",
        "line 1, column 6: a number has 64 bits, from -9223372036854775808 to 9223372036854775807",
    ),
    (
        "node hex\"123\"",
        "line 1, column 9: a byte has two hex digits, and here one is missing",
    ),
    (
        "let x = row r70000",
        "line 1, column 13: a register (`r0` to `r65535`) is expected, and this is `r70000`",
    ),
    (
        "predicate d: Int\nlevel d(*x)",
        "line 2, column 10: no pattern has the label `&x`",
    ),
    (
        "node \"a\" ~300",
        "line 1, column 11: a distance is 0 to 255, and this is 300",
    ),
    ("node ;", "line 1, column 6: `;` has no meaning here"),
];

#[test]
fn mistakes_have_a_place() {
    let long = format!("names {}", vec!["a"; 513].join(", "));
    let deep = format!("node {}", "{ a = ".repeat(70));
    let made = [
        (
            long.as_str(),
            "line 1, column 1543: one name too many: a file has at most 512 names",
        ),
        (
            deep.as_str(),
            "line 1, column 390: this nests too deep: put it above, with a label",
        ),
    ];
    for (text, said) in MISTAKES.iter().copied().chain(made) {
        match parse(text) {
            Ok(_) => panic!("{text} has a meaning"),
            Err(fault) => assert_eq!(fault.to_string(), said),
        }
    }
}

#[rustfmt::skip]
const WORDS: &[&str] = &[
    "level ", "p0", " { ", " }", " = ", "\"k\"", "..", "~2", "x", ".", "*", "&", "!", "never",
    "#", "3", "(", ")", "\n", "predicate ", ": ", "Int", "union", "where ", "<", "let ",
    "row r1", "const ", "hoist ", " as ", "node ", "names ", ", ", "hex\"0", "é", "\\", "`", "-",
    "/", "//", "[", "]",
];

/// Whatever it is given, the parser answers.
#[test]
fn random_texts() {
    let mut rng = Rng(5);
    for _ in 0..20_000 {
        let text: String = (0..rng.below(30))
            .map(|_| WORDS[rng.below(WORDS.len())])
            .collect();
        if let Ok(parsed) = parse(&text) {
            assert!(there_and_back(&parsed.rules.write()), "{text}");
        }
        let noise: Vec<u8> = (0..rng.below(40)).map(|_| rng.bits() as u8).collect();
        let _ = parse(&String::from_utf8_lossy(&noise));
    }
}

#[test]
fn long_texts_do_not_exhaust_the_stack() {
    for unit in [".a", "?a", ".*"] {
        let text = format!("node x{}", unit.repeat(100_000));
        assert!(parse(&text).is_err());
        let text = format!("node x{}", unit.repeat(2_047));
        let parsed = parse(&text).expect("it parses");
        assert!(there_and_back(&parsed.rules.write()));
    }
    for unit in ["(", "{ a = ", "d(", "&a "] {
        assert!(parse(&format!("node {}", unit.repeat(100_000))).is_err());
    }
}
