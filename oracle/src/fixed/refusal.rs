//! Each refusal that program `plan` can give, on both sides of its boundary.
//! Refusal 2 is not among them: the program's work area is large enough.

use crate::draw::boundary::{full_file, full_section, plan_of_length};
use crate::draw::names::{CHARACTERS, FAULTS};
use crate::file::*;
use crate::rng::Rng;
use crate::write::{write, write_with_offsets};

use super::door::{d1, deep};
use super::sketch::*;

fn raw(shows: impl Into<String>, bytes: Vec<u8>) -> Entry {
    Entry {
        shows: shows.into(),
        bytes,
    }
}

/// Every truncation of D1.
pub fn truncations() -> Vec<Entry> {
    let bytes = write(&d1());
    (0..bytes.len())
        .map(|length| {
            raw(
                format!("D1's first {length} bytes"),
                bytes[..length].to_vec(),
            )
        })
        .collect()
}

pub fn reading() -> Vec<Entry> {
    let mut found = counts();
    found.extend(kinds());
    found.extend(names());
    found.extend([
        raw("7: a byte follows", with_end(&[0])),
        raw(
            "7: bytes follow that would be a fault elsewhere",
            with_end(&[0xFF, 0xFF]),
        ),
    ]);
    found
}

/// A whole name is judged, a cut one is cut: each fault alone and behind fifteen
/// letters, with more of the file behind it.
fn names() -> Vec<Entry> {
    let named = |name: &[u8]| {
        let mut file = RuleFile::default();
        file.names.push(name.to_vec());
        write(&file)
    };
    let mut found = vec![
        raw("a name byte 7f", edited(1 + 2, 0x7F)),
        raw("6: a name byte 80", edited(1 + 2, 0x80)),
        raw(
            "3: a byte 80 in a name that is cut short",
            vec![1, 0, 9, b'a', 0x80],
        ),
        raw("3: a name that is cut short", vec![1, 0, 9, b'a', 0x7F]),
        raw(
            "3: a name that is cut in a character",
            vec![1, 0, 3, 0xE2, 0x82],
        ),
        raw(
            "6: a character's last byte is the next name's",
            vec![2, 0, 2, 0xE2, 0x82, 1, 0xAC],
        ),
    ];
    for fault in FAULTS {
        found.push(raw(format!("6: name {fault:02x?}"), named(fault)));
        let long = [b"fifteen letters", fault].concat();
        found.push(raw("6: the same behind fifteen letters", named(&long)));
    }
    for character in CHARACTERS {
        let name = character.to_string();
        found.push(raw(
            format!("name U+{:04X}", character as u32),
            named(name.as_bytes()),
        ));
        let long = format!("fifteen letters{name}");
        found.push(raw(
            "the same behind fifteen letters",
            named(long.as_bytes()),
        ));
    }
    let text = |text: &str| one(Type::Str, |s| s.text(text));
    found.push(entry(
        "a text of characters of two, three and four bytes",
        text("\u{E9}\u{20AC}\u{1F600}"),
    ));
    found.push(entry(
        "the same with a zero byte, which is escaped",
        text("\u{E9}\0\u{E9}"),
    ));
    found
}

const SECTIONS: [&str; 10] = [
    "names",
    "types",
    "predicates",
    "nodes",
    "bindings",
    "hoisted",
    "fetched",
    "constraints",
    "comparisons",
    "levels",
];

/// A count one above its limit is a fault at the count, even as the last bytes;
/// a count at its limit is none there.
fn counts() -> Vec<Entry> {
    let mut found = vec![];
    for (section, name) in SECTIONS.iter().enumerate() {
        let mut bytes = vec![0; 2 * section];
        bytes.extend((LIMITS[section] as u16 + 1).to_le_bytes());
        found.push(raw(format!("4: {name}, one above the limit"), bytes));
        let mut bytes = vec![0; 2 * section];
        bytes.extend((LIMITS[section] as u16).to_le_bytes());
        found.push(raw(
            format!("3: {name}, a count at the limit and no record"),
            bytes,
        ));
    }
    found
}

/// A full section, accepted.
pub fn full_sections() -> Vec<Entry> {
    let full = |(section, name): (usize, &&str)| {
        let file = full_section(section, LIMITS[section]);
        entry(format!("{name} at the limit"), file)
    };
    SECTIONS.iter().enumerate().map(full).collect()
}

fn kinds() -> Vec<Entry> {
    let (bytes, offsets) = write_with_offsets(&d1());
    let at = |offset: usize, byte: u8| {
        let mut bytes = bytes.clone();
        bytes[offset] = byte;
        bytes
    };
    let front = |sections: usize, record: &[u8]| {
        let mut bytes = vec![0; 2 * sections];
        bytes.extend([1, 0]);
        bytes.extend(record);
        bytes
    };
    vec![
        raw("5: type kind 6", at(offsets[1] + 2, 6)),
        raw("5: node kind 17", at(offsets[3] + 2, 17)),
        raw("5: slot kind 6", front(4, &[0, 0, 6])),
        raw("5: anchor 2", front(3, &[7, 0, 0, 1, 2])),
        raw(
            "3: a Fuzzy that ends before its anchor",
            front(3, &[7, 0, 0, 1]),
        ),
        raw("5: op 4", front(8, &[4])),
        raw("3: op 3, and nothing more", front(8, &[3])),
    ]
}

fn edited(at: usize, byte: u8) -> Vec<u8> {
    let mut bytes = write(&d1());
    bytes[at] = byte;
    bytes
}

fn with_end(end: &[u8]) -> Vec<u8> {
    [write(&d1()), end.to_vec()].concat()
}

fn faulty(shows: &str, fault: impl FnOnce(&mut RuleFile)) -> Entry {
    let mut file = d1();
    fault(&mut file);
    entry(shows, file)
}

fn binding(slot: Slot) -> Binding {
    Binding { name: 0, slot }
}

pub fn checks() -> Vec<Entry> {
    let mut found = numbers();
    found.extend(shapes());
    found.extend(paths());
    found.extend(order());
    found
}

fn numbers() -> Vec<Entry> {
    vec![
        faulty("8: a Fact type's predicate", |f| {
            f.types.push(Type::Fact(1))
        }),
        faulty("a Fact type's predicate in range", |f| {
            f.types.push(Type::Fact(0))
        }),
        faulty("8: a record type's name", |f| {
            f.types.push(Type::Record(vec![(3, 0)]))
        }),
        faulty("8: a union type's type", |f| {
            f.types.push(Type::Union(vec![(0, 0, 9)]))
        }),
        faulty("8: a predicate's key", |f| f.predicates[0].key = NONE),
        faulty("8: a predicate's value", |f| f.predicates[0].value = 3),
        faulty("8: a Var's name", |f| f.nodes.push(Node::Var(3))),
        faulty("8: a Fuzzy's name", |f| {
            f.nodes.push(Node::Fuzzy(NONE, 0, Anchor::Whole))
        }),
        faulty("8: a record's node", |f| {
            f.nodes.push(Node::Record(vec![(0, 4)]))
        }),
        faulty("8: an access' node", |f| {
            f.nodes.push(Node::ValueAccess(NONE))
        }),
        faulty("8: a Fact node's predicate", |f| {
            f.nodes.push(Node::Fact(1, 2))
        }),
        faulty("8: a binding's name", |f| {
            f.bindings.push(Binding {
                name: 3,
                slot: Slot::Derived(0),
            });
        }),
        faulty("8: a Row's predicate", |f| {
            f.bindings.push(binding(Slot::Row(0, 1)))
        }),
        faulty("a Row without a predicate", |f| {
            f.bindings.push(binding(Slot::Row(0, NONE)))
        }),
        faulty("8: a Key's type", |f| {
            f.bindings.push(binding(Slot::Key(0, NONE)))
        }),
        faulty("8: a Const's node", |f| {
            f.bindings.push(binding(Slot::Const(3)))
        }),
        faulty("any address", |f| {
            f.bindings.push(binding(Slot::Derived(0xFFFF)))
        }),
        faulty("8: a hoisted node", |f| {
            f.hoisted.push(Hoisted { node: 3, name: 0 })
        }),
        faulty("8: a hoisted name", |f| {
            f.hoisted.push(Hoisted { node: 0, name: 3 })
        }),
        faulty("8: a constraint's name", |f| {
            f.constraints.push(Constraint { name: 3, node: 0 })
        }),
        faulty("8: a comparison's right side", |f| {
            f.comparisons.push(Comparison {
                op: Op::Ge,
                left: 0,
                right: 3,
            });
        }),
        faulty("8: a level's predicate", |f| f.levels[0].predicate = 1),
        faulty("8: a level's node", |f| f.levels[0].node = 3),
    ]
}

fn shapes() -> Vec<Entry> {
    vec![
        faulty("9: a type that holds itself", |f| {
            f.types.push(Type::Record(vec![(0, 3)]))
        }),
        faulty("9: a node below its child", |f| {
            f.nodes.extend([Node::ValueAccess(4), Node::Wildcard]);
        }),
        faulty("10: a record type with a name twice", |f| {
            f.types.push(Type::Record(vec![(0, 0), (0, 1)]));
        }),
        faulty("10: a union type with a name twice", |f| {
            f.types.push(Type::Union(vec![(0, 1, 0), (0, 2, 1)]));
        }),
        faulty("10: a union type with a disc twice", |f| {
            f.types.push(Type::Union(vec![(0, 1, 0), (1, 1, 1)]));
        }),
        faulty("two names of equal text", |f| {
            f.names.push(b"room".to_vec());
            f.types.push(Type::Record(vec![(0, 0), (3, 1)]));
        }),
        faulty("12: one node under two", |f| {
            f.nodes.push(Node::ValueAccess(0))
        }),
        faulty("12: one node twice in a record", |f| {
            f.nodes
                .extend([Node::Wildcard, Node::Record(vec![(0, 3), (1, 3)])]);
        }),
        faulty("one node in two levels", |f| f.levels.push(f.levels[0])),
        faulty("13: Const of a Prefix", |f| {
            f.bindings.push(binding(Slot::Const(1)))
        }),
        faulty("13: Const of a record that holds one", |f| {
            f.bindings.push(binding(Slot::Const(2)));
        }),
        faulty("Const of an empty record", |f| {
            f.nodes.push(Node::Record(vec![]));
            f.bindings.push(binding(Slot::Const(3)));
        }),
    ]
}

/// Paths at their limits: in d1, type 0 is an Int and type 2 a record of depth 2.
fn paths() -> Vec<Entry> {
    let path = |steps: usize| field(0xFFFF, &vec![0xFFFF_FFFF; steps]);
    let slot = |shows: String, steps: usize, ty: u16| {
        faulty(&shows, |f| {
            f.bindings.push(binding(Slot::Field(0, path(steps), ty)))
        })
    };
    let fetched = |shows: String, steps: usize| {
        faulty(&shows, |f| {
            f.fetched.push(Fetched {
                address: 0,
                path: path(steps),
                register: 0,
            })
        })
    };
    let (one, two) = (MAX_DEPTH - 1, MAX_DEPTH - 2);
    vec![
        slot(format!("14: {} steps to an Int", one + 1), one + 1, 0),
        slot(format!("{one} steps to an Int"), one, 0),
        slot(format!("14: {} steps to a record", two + 1), two + 1, 2),
        slot(format!("{two} steps to a record"), two, 2),
        fetched(
            format!("14: a fetched path of {} steps", MAX_STEPS + 1),
            MAX_STEPS + 1,
        ),
        fetched(format!("a fetched path of {MAX_STEPS} steps"), MAX_STEPS),
    ]
}

/// Two faults at once: the lower number is given, wherever they stand.
fn order() -> Vec<Entry> {
    let twice = Type::Record(vec![(0, 0), (0, 0)]);
    vec![
        faulty("8 before 9", |f| {
            f.types.push(Type::Record(vec![(0, 3)]));
            f.levels[0].node = 3;
        }),
        faulty("9 before 10", |f| {
            f.types.push(twice.clone());
            f.nodes.push(Node::ValueAccess(3));
        }),
        faulty("10 before 12", |f| {
            f.nodes.push(Node::ValueAccess(0));
            f.types.push(twice.clone());
        }),
        faulty("12 before 13", |f| {
            f.bindings.push(binding(Slot::Const(1)));
            f.nodes.push(Node::ValueAccess(0));
        }),
        faulty("13 before 14", |f| {
            f.bindings
                .push(binding(Slot::Field(0, field(0, &[0; MAX_DEPTH]), 0)));
            f.bindings.push(binding(Slot::Const(1)));
        }),
        entry("11 before 12", {
            let mut file = deep(MAX_DEPTH + 1);
            file.nodes.push(Node::ValueAccess(0));
            file
        }),
    ]
}

/// The plan's limit.
pub fn long_plans() -> Vec<Entry> {
    let plan = |length: usize| plan_of_length(length, &mut Rng::new(1, 1));
    vec![
        entry("a plan of 16,383 bytes", plan(MAX_PLAN - 1)),
        entry("a plan of 16,384 bytes", plan(MAX_PLAN)),
        entry(
            "15: a plan of 16,385 bytes, fewer without its nodes",
            plan(MAX_PLAN + 1),
        ),
        entry(
            "19 before 15: the same, and a level with a number for a text",
            {
                let mut file = plan(MAX_PLAN + 1);
                file.nodes.push(Node::Int(1));
                file.levels.push(Level {
                    node: file.nodes.len() as u16 - 1,
                    ..file.levels[0]
                });
                file
            },
        ),
    ]
}

/// The file's limit.
pub fn long_files() -> Vec<Entry> {
    vec![
        entry("a file of 32,768 bytes", full_file(MAX_FILE)),
        entry("1: a file of 32,769 bytes", full_file(MAX_FILE + 1)),
    ]
}
