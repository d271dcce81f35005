//! Nodes and types inside each other, as deep as a file can have them.

use oracle::draw::shape::{level, predicate};
use oracle::file::*;
use oracle::rng::Rng;

/// What a type is nested in once, and the pattern with it.
#[derive(Clone, Copy)]
enum Layer {
    Union,
    Record,
    /// A record with a second field that any value fits, so that it is no
    /// constant as a whole.
    Half,
}

use Layer::*;

/// The layers in turns, from the innermost.
const AROUND: [&[Layer]; 4] = [&[Union], &[Record], &[Union, Record], &[Half]];

/// How a chain reads of the node before.
#[derive(Clone, Copy)]
pub enum Read {
    /// A field of the row that was fetched by the reference before.
    Key,
    /// The same where nothing was fetched.
    Unfetched,
    Value,
    Select,
    /// A field that is a union, then its payload, which is a reference.
    KeyAndSelect,
}

pub const READS: [Read; 5] = [
    Read::Key,
    Read::Unfetched,
    Read::Value,
    Read::Select,
    Read::KeyAndSelect,
];

/// The most reads of a chain: every node but its Var and the key's record.
pub const MOST_READS: usize = LIMITS[3] - 2;

const FIELD: u16 = 0;
const OTHER: u16 = 1;
const ROW: u16 = 2;
const CONSTANT: u16 = 3;
const NEW: u16 = 4;
const TEXT: u16 = 5;

const INT: u16 = 0;
const STR: u16 = 1;
const REFERENCE: u16 = 2;
const UNION: u16 = 3;
const KEY: u16 = 4;
/// A record whose text no constant here gives: it has no bytes, and is opened to nothing.
const LACKING: u16 = 5;

/// A row of predicate 0 in register 5, whose key has one field: a reference to
/// such a row, or with `union` a union of one.
fn start(union: bool) -> RuleFile {
    let field = if union { UNION } else { REFERENCE };
    let path = Path {
        field: 0,
        steps: if union { vec![1] } else { vec![] },
    };
    RuleFile {
        names: ["field", "other", "row", "constant", "new", "text"]
            .map(|name| name.as_bytes().to_vec())
            .to_vec(),
        types: vec![
            Type::Int,
            Type::Str,
            Type::Fact(0),
            Type::Union(vec![(FIELD, 1, REFERENCE)]),
            Type::Record(vec![(FIELD, field)]),
            Type::Record(vec![(OTHER, STR)]),
        ],
        predicates: vec![Predicate {
            key: KEY,
            value: REFERENCE,
        }],
        bindings: vec![Binding {
            name: ROW,
            slot: Slot::Row(5, 0),
        }],
        fetched: vec![Fetched {
            address: 5,
            path,
            register: 5,
        }],
        ..RuleFile::default()
    }
}

fn add(file: &mut RuleFile, node: Node) -> u16 {
    file.nodes.push(node);
    file.nodes.len() as u16 - 1
}

/// So many reads, one of the other; the last one's number.
fn reads(file: &mut RuleFile, read: Read, count: usize) -> u16 {
    if matches!(read, Read::Unfetched) {
        file.fetched.clear();
    }
    let mut last = add(file, Node::Var(ROW));
    for at in 0..count {
        let node = match read {
            Read::Key | Read::Unfetched => Node::KeyAccess(FIELD, last),
            Read::Value => Node::ValueAccess(last),
            Read::Select => Node::Select(FIELD, last),
            Read::KeyAndSelect if at % 2 == 0 => Node::KeyAccess(FIELD, last),
            Read::KeyAndSelect => Node::Select(FIELD, last),
        };
        last = add(file, node);
    }
    last
}

/// Nests the leaf so often, its type and its pattern alike; both numbers then.
fn nest(file: &mut RuleFile, layers: &[Layer], times: usize, leaf: (u16, u16)) -> (u16, u16) {
    let in_turns = layers.iter().cycle().take(times);
    in_turns.fold(leaf, |inner, &layer| wrap(file, layer, inner))
}

fn wrap(file: &mut RuleFile, layer: Layer, (ty, node): (u16, u16)) -> (u16, u16) {
    let mut given = vec![(FIELD, node)];
    let around = match layer {
        Union => Type::Union(vec![(FIELD, 7, ty)]),
        Record => Type::Record(vec![(FIELD, ty)]),
        Half => {
            given.push((OTHER, add(file, Node::Wildcard)));
            Type::Record(vec![(FIELD, ty), (OTHER, INT)])
        }
    };
    file.types.push(around);
    let node = add(file, Node::Record(given));
    (file.types.len() as u16 - 1, node)
}

/// One level with this key.
fn keyed(mut file: RuleFile, (ty, node): (u16, u16)) -> RuleFile {
    file.predicates.push(predicate(ty as usize));
    let predicate = file.predicates.len() as u16 - 1;
    file.levels.push(level(predicate, node as usize, 0));
    file
}

/// A leaf, whose type has this depth, in a type of the greatest depth, nested in
/// each way.
fn to_the_limit(depth: usize, leaf: impl Fn(&mut RuleFile) -> (u16, u16)) -> Vec<RuleFile> {
    let nested = |layers: &[Layer]| {
        let mut file = start(false);
        let leaf = leaf(&mut file);
        let key = nest(&mut file, layers, MAX_DEPTH - depth, leaf);
        keyed(file, key)
    };
    AROUND.into_iter().map(nested).collect()
}

pub fn constants_inside() -> Vec<RuleFile> {
    [
        to_the_limit(1, |file| (INT, add(file, Node::Int(1)))),
        to_the_limit(1, |file| (STR, add(file, Node::Str(TEXT)))),
        to_the_limit(1, |file| (STR, add(file, Node::Prefix(TEXT)))),
        // Without bytes, so that it is asked for and opened all the way.
        to_the_limit(2, |file| (LACKING, add(file, Node::Record(vec![])))),
        // Of the wrong kind: refused by 19.
        to_the_limit(1, |file| (STR, add(file, Node::Int(1)))),
        to_the_limit(1, |file| (INT, add(file, Node::Record(vec![])))),
    ]
    .concat()
}

/// What is neither a constant, a name nor a read of one; a Fact pattern that was
/// hoisted, and one that was not.
pub fn other_patterns_inside() -> Vec<RuleFile> {
    let alone = [
        Node::Wildcard,
        Node::Never,
        Node::Fuzzy(TEXT, 1, Anchor::Whole),
        Node::Disjunction,
        Node::Subquery,
        Node::Arith,
        Node::Error,
    ];
    let alone = alone.map(|node| to_the_limit(1, |file| (STR, add(file, node.clone()))));
    let fact = |file: &mut RuleFile| {
        let key = add(file, Node::Wildcard);
        (REFERENCE, add(file, Node::Fact(0, key)))
    };
    let hoisted = |file: &mut RuleFile| {
        let (ty, node) = fact(file);
        file.hoisted.push(Hoisted { node, name: ROW });
        (ty, node)
    };
    let facts = [to_the_limit(1, fact), to_the_limit(1, hoisted)];
    [alone.concat(), facts.concat()].concat()
}

pub fn reads_inside() -> Vec<RuleFile> {
    let mut files = to_the_limit(1, |file| (REFERENCE, add(file, Node::Var(ROW))));
    for read in READS {
        for count in [1, 2, 3] {
            files.extend(to_the_limit(1, |file| {
                (REFERENCE, reads(file, read, count))
            }));
        }
    }
    files
}

pub fn new_vars_inside() -> Vec<RuleFile> {
    let constrained = |file: &mut RuleFile| {
        for node in [
            Node::Prefix(TEXT),
            Node::Fuzzy(TEXT, 1, Anchor::Whole),
            Node::Str(TEXT),
            Node::Wildcard,
        ] {
            let node = add(file, node);
            file.constraints.push(Constraint { name: NEW, node });
        }
        (STR, add(file, Node::Var(NEW)))
    };
    let compared = |file: &mut RuleFile| {
        for op in [Op::Ge, Op::Lt] {
            let (left, right) = (add(file, Node::Var(NEW)), add(file, Node::Int(3)));
            file.comparisons.push(Comparison { op, left, right });
        }
        (INT, add(file, Node::Var(NEW)))
    };
    [
        to_the_limit(1, |file| (INT, add(file, Node::Var(NEW)))),
        to_the_limit(1, constrained),
        to_the_limit(1, compared),
    ]
    .concat()
}

/// Records that hold a Var that stands for a constant, which nests on to the
/// limit and beyond; the Var at every depth there can be. At the end of the type is a
/// number, which a constant that nests beyond is not, or a record that lacks its text.
pub fn vars_for_constants_inside() -> Vec<RuleFile> {
    let mut files = vec![];
    let number = (INT, Node::Int(1), 1);
    let lacking = (LACKING, Node::Record(vec![]), 2);
    for (ty, leaf, depth) in [number, lacking] {
        for beyond in [0, LIMITS[3] - 200] {
            for below in 0..=MAX_DEPTH - depth {
                let leaf = |file: &mut RuleFile| {
                    let inner = add(file, leaf.clone());
                    let (ty, mut node) = nest(file, &[Record], below, (ty, inner));
                    for _ in 0..beyond {
                        node = add(file, Node::Record(vec![(FIELD, node)]));
                    }
                    bind_constant(file, node);
                    (ty, add(file, Node::Var(CONSTANT)))
                };
                files.extend(to_the_limit(below + depth, leaf));
            }
        }
    }
    files
}

/// Layers in any order, to the greatest depth, around any leaf; a Var that
/// stands for a constant at any depth, or nowhere.
pub fn mixed() -> Vec<RuleFile> {
    (0..MIXED)
        .map(|index| mixture(&mut Rng::new(16, index)))
        .collect()
}

const MIXED: u64 = 3_000;

fn mixture(rng: &mut Rng) -> RuleFile {
    let mut file = start(false);
    let constant = rng.chance(70);
    let (ty, leaf) = if constant {
        let leaves = [
            (INT, Node::Int(1)),
            (LACKING, Node::Record(vec![])),
            // Of the wrong kind, and refused for it.
            (STR, Node::Int(1)),
        ];
        leaves[rng.weighted(&[30, 60, 10])].clone()
    } else {
        let leaves = [Node::Var(NEW), Node::Var(ROW), Node::Prefix(TEXT)];
        let ty = [INT, STR, REFERENCE][rng.below(3)];
        (ty, leaves[rng.below(3)].clone())
    };
    let mut inner = (ty, add(&mut file, leaf));
    let records = rng.within(0, 100);
    let layers = MAX_DEPTH - depths(&file.types)[ty as usize];
    let var = rng.below(layers + 1);
    for at in 0..layers {
        if constant && at == var {
            bind_constant(&mut file, inner.1);
            inner.1 = add(&mut file, Node::Var(CONSTANT));
        }
        let whole = if rng.chance(records) { Record } else { Union };
        let half = rng.chance(20) && !(constant && at < var);
        inner = wrap(&mut file, if half { Half } else { whole }, inner);
    }
    keyed(file, inner)
}

fn bind_constant(file: &mut RuleFile, node: u16) {
    file.bindings.push(Binding {
        name: CONSTANT,
        slot: Slot::Const(node),
    });
}

/// A name bound to a record that holds a record, 2,046 times, against a type of
/// the greatest depth: the value nests far deeper than any type.
pub fn deep_constant() -> RuleFile {
    let mut file = start(false);
    let mut node = add(&mut file, Node::Int(1));
    for _ in 0..MOST_READS {
        node = add(&mut file, Node::Record(vec![(FIELD, node)]));
    }
    bind_constant(&mut file, node);
    let var = add(&mut file, Node::Var(CONSTANT));
    let mut ty = LACKING;
    for _ in 2..MAX_DEPTH {
        file.types.push(Type::Record(vec![(FIELD, ty)]));
        ty = file.types.len() as u16 - 1;
    }
    keyed(file, (ty, var))
}

/// A chain of reads as a key's only field.
pub fn chain(read: Read, count: usize) -> RuleFile {
    let mut file = start(matches!(read, Read::KeyAndSelect));
    let last = reads(&mut file, read, count);
    let node = add(&mut file, Node::Record(vec![(FIELD, last)]));
    keyed(file, (KEY, node))
}

/// The longest chains, each at the end of types of the greatest depth, and each
/// as a whole key.
pub fn chains_inside() -> Vec<RuleFile> {
    let mut files = vec![];
    for read in READS {
        for layers in AROUND {
            let mut file = start(matches!(read, Read::KeyAndSelect));
            // What is around takes up to two nodes a layer.
            let last = reads(&mut file, read, LIMITS[3] - 2 * MAX_DEPTH);
            let key = nest(&mut file, layers, MAX_DEPTH - 1, (REFERENCE, last));
            files.push(keyed(file, key));
        }
        let mut file = start(matches!(read, Read::KeyAndSelect));
        let last = reads(&mut file, read, MOST_READS);
        files.push(keyed(file, (KEY, last)));
    }
    files
}

#[cfg(test)]
mod tests {
    use super::*;
    use oracle::front;
    use oracle::write::write;

    fn checked(file: &RuleFile) -> RuleFile {
        let bytes = write(file);
        front(&bytes, MIN_WORK).expect("no check refuses it")
    }

    #[test]
    fn every_file_passes_the_checks() {
        let many = [
            constants_inside(),
            other_patterns_inside(),
            reads_inside(),
            new_vars_inside(),
            vars_for_constants_inside(),
            mixed(),
            chains_inside(),
        ];
        for file in many.iter().flatten() {
            checked(file);
        }
        checked(&deep_constant());
        for read in READS {
            assert_eq!(checked(&chain(read, MOST_READS)).nodes.len(), LIMITS[3]);
        }
    }

    #[test]
    fn types_go_to_the_limit() {
        for file in [constants_inside(), mixed(), vars_for_constants_inside()]
            .iter()
            .flatten()
        {
            assert_eq!(depths(&file.types).into_iter().max(), Some(MAX_DEPTH));
        }
    }
}
