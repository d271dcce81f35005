//! Shapes that chance alone would hardly meet.

use crate::file::*;
use crate::rng::Rng;

use super::literal::literals;
use super::own_row::own_rows;

pub fn shape(rng: &mut Rng) -> RuleFile {
    match rng.weighted(&[18, 20, 20, 16, 22, 4, 30, 30]) {
        0 => nested(rng),
        1 => constrained_text(rng),
        2 => compared(rng),
        3 => opened_constant(rng),
        4 => joined_rows(rng),
        5 => access_chain(rng),
        6 => own_rows(rng),
        _ => literals(rng),
    }
}

pub fn level(predicate: u16, node: usize, address: u16) -> Level {
    Level {
        predicate,
        node: node as u16,
        address,
    }
}

pub fn predicate(key: usize) -> Predicate {
    Predicate {
        key: key as u16,
        value: NONE,
    }
}

/// Unions and records inside each other, to the deepest there can be, with a
/// pattern that follows them down.
fn nested(rng: &mut Rng) -> RuleFile {
    let depth = match rng.weighted(&[40, 30, 30]) {
        0 => rng.within(2, 5),
        1 => rng.within(6, MAX_DEPTH - 1),
        _ => MAX_DEPTH,
    };
    let mut file = RuleFile {
        names: vec![b"a".to_vec(), b"b".to_vec(), b"\0".to_vec(), vec![]],
        types: vec![
            Type::Int,
            [Type::Int, Type::Str, Type::Fact(0)][rng.below(3)].clone(),
        ],
        ..RuleFile::default()
    };
    let leaf = nested_leaf(rng, &file.types[1]);
    file.nodes.push(leaf);
    let unions = rng.chance(50);
    for _ in 1..depth {
        let union = unions || rng.chance(50);
        nest(rng, &mut file, union);
    }
    let (top, root) = (file.types.len() - 1, file.nodes.len() - 1);
    if rng.chance(50) {
        let path = Path {
            field: 0,
            steps: vec![],
        };
        let slots = [Slot::Row(7, 0), Slot::Field(7, path, 1), Slot::Derived(7)];
        let slot = slots[rng.below(3)].clone();
        file.bindings.push(Binding { name: 3, slot });
    }
    file.predicates.push(predicate(top));
    file.levels.push(level(0, root, 0));
    if rng.chance(40) {
        file.levels.push(level(0, root, 1));
    }
    file
}

fn nested_leaf(rng: &mut Rng, ty: &Type) -> Node {
    match rng.weighted(&[32, 8, 40, 10, 5, 5]) {
        0 if *ty == Type::Str => Node::Str(2),
        0 | 1 => Node::Int(5),
        2 => Node::Var(3),
        3 => Node::Prefix(2),
        4 => Node::Fuzzy(0, 1, Anchor::Whole),
        _ => Node::Wildcard,
    }
}

/// One more type around the last, and one more node around the last.
fn nest(rng: &mut Rng, file: &mut RuleFile, union: bool) {
    let (inner, node) = (file.types.len() as u16 - 1, file.nodes.len() as u16 - 1);
    if union {
        let mut alts = vec![(0, rng.below(3) as u32, inner)];
        if rng.chance(30) {
            alts.insert(rng.below(2), (1, 9, inner));
        }
        file.types.push(Type::Union(alts));
        file.nodes.push(Node::Record(vec![(0, node)]));
        return;
    }
    let mut fields = vec![(0, inner)];
    let mut given = vec![(0, node)];
    if rng.chance(25) {
        fields.insert(rng.below(2), (1, 0));
        if rng.chance(70) {
            file.nodes.push(Node::Int(1));
            given.push((1, node + 1));
        }
    }
    file.types.push(Type::Record(fields));
    file.nodes.push(Node::Record(given));
}

/// A captured text field with constraints of every rank, in any order.
fn constrained_text(rng: &mut Rng) -> RuleFile {
    let mut file = RuleFile {
        names: vec![
            b"x".to_vec(),
            b"ab".to_vec(),
            b"a\0".to_vec(),
            b"x".to_vec(),
        ],
        types: vec![
            Type::Str,
            Type::Record(vec![(0, 0), (1, 0), (2, 0)]),
            Type::Union(vec![(0, 1, 0), (1, 2, 0)]),
        ],
        predicates: vec![predicate(rng.below(3))],
        nodes: vec![Node::Var(0), Node::Str(1), Node::Var(3)],
        ..RuleFile::default()
    };
    let first = if rng.chance(60) { (0, 0) } else { (0, 1) };
    let second = if first.1 == 0 { (1, 1) } else { (1, 0) };
    let mut fields = vec![first, second, (2, 2)];
    fields.truncate(rng.within(1, 3));
    if file.predicates[0].key == 2 {
        fields.truncate(1);
    }
    let root = if file.predicates[0].key == 0 {
        0
    } else {
        file.nodes.push(Node::Record(fields));
        3
    };
    for _ in 0..rng.within(1, 6) {
        let text = rng.below(4) as u16;
        let anchor = if rng.chance(50) {
            Anchor::Prefix
        } else {
            Anchor::Whole
        };
        let node = match rng.weighted(&[20, 30, 40, 5, 5]) {
            0 => Node::Str(text),
            1 => Node::Prefix(text),
            2 => Node::Fuzzy(text, rng.below(3) as u8, anchor),
            3 => Node::Int(3),
            _ => Node::Wildcard,
        };
        file.nodes.push(node);
        let node = (file.nodes.len() - 1) as u16;
        let name = if rng.chance(75) { 0 } else { 3 };
        file.constraints.push(Constraint { name, node });
    }
    if rng.chance(20) {
        splice_first(&mut file);
    }
    file.levels.push(level(0, root, 0));
    if rng.chance(40) {
        file.levels.push(level(0, root, rng.below(2) as u16));
    }
    file
}

/// Puts a bound register field where the text constant stands.
fn splice_first(file: &mut RuleFile) {
    let path = Path {
        field: 2,
        steps: vec![1],
    };
    file.names.push(b"z".to_vec());
    let name = file.names.len() as u16 - 1;
    file.nodes[1] = Node::Var(name);
    file.bindings.push(Binding {
        name,
        slot: Slot::Field(6, path, 0),
    });
}

/// A captured field with many comparisons on either side.
fn compared(rng: &mut Rng) -> RuleFile {
    let leaf = if rng.chance(50) { Type::Int } else { Type::Str };
    let mut file = RuleFile {
        names: vec![b"x".to_vec(), b"y".to_vec(), b"k".to_vec()],
        types: vec![
            leaf,
            Type::Record(vec![(0, 0), (1, 0)]),
            Type::Union(vec![(0, 1, 0)]),
        ],
        predicates: vec![predicate(rng.below(3))],
        nodes: vec![Node::Var(0), Node::Var(1), Node::Int(4), Node::Str(2)],
        ..RuleFile::default()
    };
    file.nodes.push(match file.predicates[0].key {
        2 => Node::Record(vec![(0, 0)]),
        _ => Node::Record(vec![(0, if rng.chance(70) { 0 } else { 2 }), (1, 1)]),
    });
    let root = if file.predicates[0].key == 0 { 0 } else { 4 };
    if rng.chance(40) {
        file.bindings.push(Binding {
            name: 2,
            slot: Slot::Const(rng.within(2, 3) as u16),
        });
    }
    for _ in 0..rng.within(1, 7) {
        let subject = rng.below(2) as u16;
        file.nodes.push(match rng.weighted(&[45, 35, 6, 6, 8]) {
            0 => Node::Int(rng.below(5) as i64),
            1 => Node::Str(rng.below(3) as u16),
            2 => Node::Prefix(2),
            3 => Node::Var(subject),
            _ => Node::Var(2),
        });
        let (mut left, mut right) = (subject, (file.nodes.len() - 1) as u16);
        if rng.chance(45) {
            (left, right) = (right, left);
        }
        let op = [Op::Lt, Op::Le, Op::Gt, Op::Ge][rng.below(4)];
        file.comparisons.push(Comparison { op, left, right });
    }
    file.levels.push(level(0, root, 0));
    if rng.chance(30) {
        file.levels.push(level(0, root, 1));
    }
    file
}

/// A name bound to a constant record, opened as a whole key, as a field, field
/// by field where it lacks one, and by reads.
fn opened_constant(rng: &mut Rng) -> RuleFile {
    let mut file = RuleFile {
        names: vec![b"r".to_vec(), b"a".to_vec(), b"b".to_vec(), b"n".to_vec()],
        types: vec![
            Type::Int,
            Type::Str,
            Type::Record(vec![(1, 0), (2, 1)]),
            Type::Record(vec![(3, 2), (1, 0)]),
            Type::Union(vec![(3, 6, 2), (1, 7, 0)]),
            Type::Record(vec![(1, 4), (2, 2)]),
        ],
        nodes: vec![Node::Int(3), Node::Str(2)],
        ..RuleFile::default()
    };
    let mut inner = vec![(1, 0), (2, 1)];
    if rng.chance(40) {
        inner.remove(rng.below(2));
    }
    if rng.chance(30) {
        inner.reverse();
    }
    file.nodes.push(Node::Record(inner));
    file.nodes.push(Node::Record(vec![(3, 2)]));
    file.bindings.push(Binding {
        name: 0,
        slot: Slot::Const(rng.within(2, 3) as u16),
    });
    file.predicates = (2..=5).map(predicate).collect();
    for address in 0..rng.within(1, 3) as u16 {
        let of = rng.below(4) as u16;
        file.nodes.push(Node::Var(0));
        let mut node = file.nodes.len() - 1;
        if rng.chance(30) {
            file.nodes
                .push(Node::KeyAccess([1, 3][rng.below(2)], node as u16));
            node += 1;
        }
        if rng.chance(70) {
            let name = [1, 3, 1, 3][of as usize];
            file.nodes.push(Node::Record(vec![(name, node as u16)]));
            node += 1;
        }
        file.levels.push(level(of, node, address));
    }
    file
}

/// Rows and references: own and other predicates, fetched reads, selects.
fn joined_rows(rng: &mut Rng) -> RuleFile {
    let mut file = RuleFile {
        names: vec![b"p".to_vec(), b"q".to_vec(), b"u".to_vec(), b"v".to_vec()],
        types: vec![
            Type::Int,
            Type::Fact(0),
            Type::Fact(1),
            Type::Union(vec![(0, 3, 0), (1, 4, 1), (2, 5, 2)]),
            Type::Record(vec![(0, 1), (1, 2), (2, 3), (3, 0)]),
        ],
        ..RuleFile::default()
    };
    file.predicates.push(Predicate {
        key: 4,
        value: [0, 1, 2, 3][rng.below(4)],
    });
    file.predicates.push(predicate(rng.within(0, 4)));
    for name in 0..rng.within(1, 3) as u16 {
        let predicate = [0, 1, NONE][rng.weighted(&[45, 45, 10])];
        let slot = match rng.weighted(&[60, 20, 20]) {
            0 => Slot::Row(rng.below(3) as u16, predicate),
            1 => Slot::Key(rng.below(3) as u16, 4),
            _ => Slot::Value(rng.below(3) as u16, rng.below(5) as u16),
        };
        file.bindings.push(Binding { name, slot });
    }
    for _ in 0..rng.within(0, 3) {
        file.fetched.push(Fetched {
            address: rng.below(3) as u16,
            path: Path {
                field: rng.below(3) as u16,
                steps: vec![],
            },
            register: rng.below(4) as u16,
        });
    }
    for address in 0..rng.within(1, 3) as u16 {
        let node = join_record(rng, &mut file);
        let predicate = rng.weighted(&[75, 25]) as u16;
        file.levels
            .push(level(predicate, node, address + rng.below(2) as u16));
    }
    file
}

fn join_record(rng: &mut Rng, file: &mut RuleFile) -> usize {
    let mut given = vec![];
    for field in 0..rng.within(1, 4) as u16 {
        file.nodes.push(Node::Var(rng.below(4) as u16));
        for _ in 0..rng.weighted(&[40, 35, 20, 5]) {
            let base = (file.nodes.len() - 1) as u16;
            let name = rng.below(4) as u16;
            file.nodes.push(match rng.weighted(&[60, 20, 20]) {
                0 => Node::KeyAccess(name, base),
                1 => Node::ValueAccess(base),
                _ => Node::Select([0, 1, 2][rng.below(3)], base),
            });
        }
        if field == 2 && rng.chance(50) {
            let base = (file.nodes.len() - 1) as u16;
            file.nodes
                .push(Node::Record(vec![(rng.below(4) as u16, base)]));
        }
        given.push((field, (file.nodes.len() - 1) as u16));
    }
    file.nodes.push(Node::Record(given));
    file.nodes.len() - 1
}

/// Reads one inside the other, up to the deepest there can be.
fn access_chain(rng: &mut Rng) -> RuleFile {
    let steps = match rng.weighted(&[70, 25, 5]) {
        0 => rng.within(3, 30),
        1 => rng.within(30, 300),
        _ => LIMITS[3] - 2,
    };
    chain_of(steps, rng.chance(50))
}

/// A key read through `steps` accesses: each a reference that was fetched, or
/// reads of a constant that soon give nothing.
pub fn chain_of(steps: usize, fetched: bool) -> RuleFile {
    let mut file = RuleFile {
        names: vec![b"n".to_vec(), b"r".to_vec()],
        types: vec![Type::Fact(0), Type::Record(vec![(0, 0)])],
        predicates: vec![predicate(1)],
        nodes: vec![Node::Var(1)],
        ..RuleFile::default()
    };
    for base in 0..steps {
        file.nodes.push(Node::KeyAccess(0, base as u16));
    }
    let root = steps;
    file.nodes.push(Node::Record(vec![(0, root as u16)]));
    file.bindings.push(Binding {
        name: 1,
        slot: Slot::Row(5, 0),
    });
    if fetched {
        let path = Path {
            field: 0,
            steps: vec![],
        };
        file.fetched.push(Fetched {
            address: 5,
            path,
            register: 5,
        });
    }
    file.levels.push(level(0, root + 1, 0));
    file
}
