//! Files at the limits: full sections, a full file, plans of a given length,
//! wide records, constants far longer than a plan.

use crate::file::*;
use crate::rng::Rng;
use crate::write::write;

use super::shape::{level, predicate};

pub fn boundary(rng: &mut Rng) -> RuleFile {
    match rng.weighted(&[40, 28, 6, 12, 14]) {
        0 => long_plan(rng),
        1 => {
            let (section, over) = (rng.below(10), rng.below(2));
            full_section(section, LIMITS[section] + over)
        }
        2 => full_file(MAX_FILE + rng.below(2)),
        3 => wide_record(rng.within(200, 255), rng),
        _ => long_constant(rng.within(2, 20), rng.chance(50)),
    }
}

/// A small file with one captured Int key, and one section filled up.
pub fn full_section(section: usize, count: usize) -> RuleFile {
    let path = Path {
        field: 0,
        steps: vec![],
    };
    let mut file = RuleFile {
        names: vec![b"x".to_vec()],
        types: vec![Type::Int],
        predicates: vec![predicate(0)],
        nodes: vec![Node::Var(0), Node::Int(5)],
        levels: vec![level(0, 0, 0)],
        ..RuleFile::default()
    };
    match section {
        0 => file.names.resize(count, vec![]),
        1 => file.types.resize(count, Type::Int),
        2 => file.predicates.resize(count, predicate(0)),
        3 => file.nodes.resize(count, Node::Wildcard),
        4 => file.bindings.resize(
            count,
            Binding {
                name: 0,
                slot: Slot::Derived(0),
            },
        ),
        5 => file.hoisted.resize(count, Hoisted { node: 0, name: 0 }),
        6 => file.fetched.resize(
            count,
            Fetched {
                address: 0,
                path,
                register: 0,
            },
        ),
        7 => file
            .constraints
            .resize(count, Constraint { name: 0, node: 1 }),
        8 => file.comparisons.resize(
            count,
            Comparison {
                op: Op::Ge,
                left: 0,
                right: 1,
            },
        ),
        _ => file.levels.resize(count, level(0, 0, 0)),
    }
    file
}

/// A file of exactly this many bytes, some 16,000 or more, that no check turns
/// away: nodes that are byte strings fill it.
pub fn full_file(length: usize) -> RuleFile {
    let mut file = full_section(9, 2);
    let longest = 255;
    loop {
        let left = length - write(&file).len();
        match left {
            0 => return file,
            1 => file.nodes.push(Node::Wildcard),
            _ => file
                .nodes
                .push(Node::Bytes(vec![0xA5; longest.min(left - 2)])),
        }
    }
}

/// As many fields as a record may have, and a pattern for each.
fn wide_record(fields: usize, rng: &mut Rng) -> RuleFile {
    let mut file = RuleFile {
        types: vec![Type::Int, Type::Str],
        ..RuleFile::default()
    };
    let (mut given, mut typed) = (vec![], vec![]);
    // In few files one constant in some hundred has the wrong kind.
    let spoiled = rng.chance(20);
    for field in 0..fields as u16 {
        file.names.push(vec![b'a' + (field % 26) as u8]);
        let ty = rng.weighted(&[90, 10]) as u16;
        let wrong = spoiled && rng.below(fields) == 0;
        file.nodes.push(match rng.weighted(&[94, 3, 3]) {
            0 if (ty == 1) != wrong => Node::Str(field / 2),
            0 => Node::Int(i64::from(field)),
            1 => Node::Var(field),
            _ => Node::Wildcard,
        });
        given.push((field, field));
        typed.push((field, ty));
    }
    file.types.push(Type::Record(typed));
    if rng.chance(50) {
        given.reverse();
    }
    file.nodes.push(Node::Record(given));
    file.predicates.push(predicate(2));
    file.levels.push(level(0, file.nodes.len() - 1, 3));
    file
}

/// Names that stand for a constant record of zero bytes, each of which takes
/// two bytes, used `width` times in a record: its encoding is far longer than a
/// plan. With `broken` the last field has no constant, so that there is none.
fn long_constant(width: usize, broken: bool) -> RuleFile {
    let mut file = RuleFile {
        names: (0..=width as u8).map(|name| vec![name]).collect(),
        types: vec![Type::Bytes],
        ..RuleFile::default()
    };
    let names = 0..width as u16;
    let children = |from: u16| {
        names
            .clone()
            .map(|name| (name, from + name))
            .collect::<Vec<_>>()
    };
    file.types
        .push(Type::Record(names.clone().map(|name| (name, 0)).collect()));
    file.types
        .push(Type::Record(names.clone().map(|name| (name, 1)).collect()));
    file.types.push(Type::Record(vec![(0, 2)]));
    file.nodes.resize(width, Node::Bytes(vec![0; 120]));
    file.nodes.push(Node::Record(children(0)));
    let bound = width as u16;
    file.bindings.push(Binding {
        name: bound,
        slot: Slot::Const(bound),
    });
    let first = file.nodes.len() as u16;
    file.nodes.extend(names.clone().map(|_| Node::Var(bound)));
    if broken {
        *file.nodes.last_mut().expect("there are nodes") = Node::Wildcard;
    }
    file.nodes.push(Node::Record(children(first)));
    file.nodes
        .push(Node::Record(vec![(0, first + width as u16)]));
    file.predicates.push(predicate(3));
    file.levels.push(level(0, file.nodes.len() - 1, 0));
    file
}

/// A plan whose length is near a plan's limit.
fn long_plan(rng: &mut Rng) -> RuleFile {
    let length = match rng.weighted(&[25, 25, 25, 25]) {
        0 => MAX_PLAN - 1,
        1 => MAX_PLAN,
        2 => MAX_PLAN + 1,
        _ => rng.within(MAX_PLAN - 300, MAX_PLAN + 300),
    };
    let mut file = plan_of_length(length, rng);
    if rng.chance(15) {
        mistyped_level(rng, &mut file);
    }
    file
}

/// One more level, anywhere among the others, whose text is a number: 19 comes before 15.
fn mistyped_level(rng: &mut Rng, file: &mut RuleFile) {
    if file.levels.len() == LIMITS[9] {
        return;
    }
    file.nodes.push(Node::Int(1));
    let at = rng.below(file.levels.len() + 1);
    file.levels.insert(at, level(0, file.nodes.len() - 1, 8));
}

/// What a plan takes beside its levels.
const FRAME: usize = 10;
/// What a level takes beside its seek's own bytes.
const LEVEL: usize = 12;
const LONGEST_NAME: usize = 255;
/// What an entry takes for its node.
const NODE: usize = 2;
/// A level with a constant text: the text's length, 03 and 00, the node, and the
/// level.
const TEXT_LEVEL: usize = LEVEL + 2 + 2 + NODE;

/// A file whose plan has exactly this many bytes, 16,000 or so: levels with one
/// text key, of several forms and each of a known length, then texts that fill
/// the rest.
pub fn plan_of_length(length: usize, rng: &mut Rng) -> RuleFile {
    let mut file = RuleFile {
        names: vec![vec![b'w'; LONGEST_NAME], b"v".to_vec()],
        types: vec![Type::Str],
        predicates: vec![predicate(0)],
        nodes: vec![
            Node::Str(0),
            Node::Prefix(0),
            Node::Never,
            Node::Fuzzy(1, 2, Anchor::Whole),
            Node::Var(1),
        ],
        ..RuleFile::default()
    };
    let mut rest = length - FRAME;
    let longest = TEXT_LEVEL + LONGEST_NAME;
    let mut captured = false;
    // The shorter forms are few, or a plan of that length would need more
    // levels than there may be.
    let mut short = 2;
    while rest >= 2 * longest {
        let node = if short == 0 {
            rng.below(2)
        } else {
            rng.below(5)
        };
        short -= usize::from(node > 1);
        rest -= match node {
            0 => longest,
            // The prefix is one byte shorter and has its path beside it.
            1 => longest - 1 + 3,
            // A diagnostic.
            2 => LEVEL + 2 + 3,
            // A guide.
            3 => LEVEL + 2 + 7 + NODE,
            // The name is new once; then it is its own row's field, a residual.
            _ if captured => LEVEL + 2 + 7 + NODE,
            _ => {
                captured = true;
                LEVEL + 2 + 10
            }
        };
        file.levels.push(level(0, node, 7));
    }
    let second = (rest / 2).max(TEXT_LEVEL);
    for (index, part) in [rest - second, second].into_iter().enumerate() {
        file.names.push(vec![b't'; part - TEXT_LEVEL]);
        file.nodes.push(Node::Str(index as u16 + 2));
        file.levels.push(level(0, index + 5, 9));
    }
    assert!(file.levels.len() <= LIMITS[9]);
    file
}
