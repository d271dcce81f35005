//! Faults in the tables: a whole file that some check, 8 to 14, turns away, and
//! files just on the good side of it.

use crate::file::*;
use crate::rng::Rng;

pub fn faults(rng: &mut Rng, file: &mut RuleFile) {
    let count = rng.weighted(&[0, 70, 20, 10]);
    for _ in 0..count {
        fault(rng, file);
    }
}

fn fault(rng: &mut Rng, file: &mut RuleFile) {
    match rng.below(7) {
        0 => number_out_of_range(rng, file),
        1 => child_not_lower(rng, file),
        2 => repeated(rng, file),
        3 => too_deep(rng, file),
        4 => second_parent(rng, file),
        5 => not_constant(rng, file),
        _ => long_path(rng, file),
    }
}

/// At the count, one past it, or the number that stands for none elsewhere.
fn out_of(rng: &mut Rng, count: usize) -> u16 {
    [count as u16, count as u16 + 1, NONE][rng.weighted(&[60, 20, 20])]
}

fn number_out_of_range(rng: &mut Rng, file: &mut RuleFile) {
    let (names, types) = (file.names.len(), file.types.len());
    let (predicates, nodes) = (file.predicates.len(), file.nodes.len());
    let bad_name = out_of(rng, names);
    let bad_type = out_of(rng, types);
    let bad_predicate = out_of(rng, predicates);
    let bad_node = out_of(rng, nodes);
    match rng.below(16) {
        0 => file.types.push(Type::Fact(bad_predicate)),
        1 => file.types.push(Type::Record(vec![(bad_name, 0)])),
        2 => file.types.push(Type::Record(vec![(0, bad_type)])),
        3 => file.types.push(Type::Union(vec![(bad_name, 0, 0)])),
        4 => file.types.push(Type::Union(vec![(0, 0, bad_type)])),
        5 => file.predicates.push(Predicate {
            key: bad_type,
            value: NONE,
        }),
        6 => file.predicates.push(Predicate {
            key: 0,
            value: bad_type,
        }),
        7 => bad_node_numbers(rng, file, bad_name, bad_node, bad_predicate),
        8 => bad_slot(rng, file, bad_type, bad_node, bad_predicate),
        9 => file.bindings.push(Binding {
            name: bad_name,
            slot: Slot::Derived(0),
        }),
        10 => file.hoisted.push(Hoisted {
            node: bad_node,
            name: 0,
        }),
        11 => file.hoisted.push(Hoisted {
            node: 0,
            name: bad_name,
        }),
        12 => file.constraints.push(Constraint {
            name: bad_name,
            node: 0,
        }),
        13 => file.constraints.push(Constraint {
            name: 0,
            node: bad_node,
        }),
        14 => file.comparisons.push(Comparison {
            op: Op::Lt,
            left: if rng.chance(50) { bad_node } else { 0 },
            right: bad_node,
        }),
        _ => file.levels.push(Level {
            predicate: if rng.chance(50) { bad_predicate } else { 0 },
            node: bad_node,
            address: 0,
        }),
    }
}

fn bad_node_numbers(rng: &mut Rng, file: &mut RuleFile, name: u16, node: u16, predicate: u16) {
    file.nodes.push(match rng.below(12) {
        0 => Node::Str(name),
        1 => Node::Var(name),
        2 => Node::Prefix(name),
        3 => Node::Fuzzy(name, 0, Anchor::Whole),
        4 => Node::Record(vec![(name, 0)]),
        5 => Node::Record(vec![(0, node)]),
        6 => Node::KeyAccess(name, 0),
        7 => Node::KeyAccess(0, node),
        8 => Node::ValueAccess(node),
        9 => Node::Select(name, 0),
        10 => Node::Select(0, node),
        _ => Node::Fact(predicate, 0),
    });
}

fn bad_slot(rng: &mut Rng, file: &mut RuleFile, ty: u16, node: u16, predicate: u16) {
    let path = Path {
        field: 0,
        steps: vec![],
    };
    let slot = match rng.below(5) {
        0 => Slot::Row(0, predicate),
        1 => Slot::Key(0, ty),
        2 => Slot::Field(0, path, ty),
        3 => Slot::Value(0, ty),
        _ => Slot::Const(node),
    };
    file.bindings.push(Binding { name: 0, slot });
}

fn child_not_lower(rng: &mut Rng, file: &mut RuleFile) {
    if rng.chance(50) {
        let own = file.types.len() as u16;
        file.types.push(match rng.below(3) {
            0 => Type::Record(vec![(0, own)]),
            1 => Type::Union(vec![(0, 0, own)]),
            _ => Type::Record(vec![(0, own + 1)]),
        });
        file.types.push(Type::Int);
    } else {
        let own = file.nodes.len() as u16;
        file.nodes.push(match rng.below(5) {
            0 => Node::Record(vec![(0, own)]),
            1 => Node::KeyAccess(0, own),
            2 => Node::ValueAccess(own + 1),
            3 => Node::Select(0, own + 1),
            _ => Node::Fact(0, own),
        });
        file.nodes.push(Node::Wildcard);
    }
}

/// Of two equal names, or two equal discs; or names of equal text, which are
/// two names.
fn repeated(rng: &mut Rng, file: &mut RuleFile) {
    let two = (file.names.len() >= 2) as u16;
    file.types.push(match rng.below(4) {
        0 => Type::Record(vec![(0, 0), (0, 0)]),
        1 => Type::Union(vec![(0, 1, 0), (0, 2, 0)]),
        2 => Type::Union(vec![(0, 7, 0), (two, 7, 0)]),
        _ => {
            let text = file.names[0].clone();
            file.names.push(text);
            Type::Record(vec![(0, 0), (file.names.len() as u16 - 1, 0)])
        }
    });
}

/// A chain of types that ends at the greatest depth or one past it.
fn too_deep(rng: &mut Rng, file: &mut RuleFile) {
    let target = MAX_DEPTH + rng.weighted(&[40, 60]);
    file.types.push(Type::Int);
    for _ in 1..target {
        let inner = file.types.len() as u16 - 1;
        file.types.push(if rng.chance(50) {
            Type::Record(vec![(0, inner)])
        } else {
            Type::Union(vec![(0, 0, inner)])
        });
    }
}

fn second_parent(rng: &mut Rng, file: &mut RuleFile) {
    file.nodes.push(Node::Wildcard);
    let shared = file.nodes.len() as u16 - 1;
    let parents = [
        Node::Record(vec![(0, shared)]),
        Node::KeyAccess(0, shared),
        Node::ValueAccess(shared),
        Node::Select(0, shared),
        Node::Fact(0, shared),
    ];
    if rng.chance(25) {
        file.nodes
            .push(Node::Record(vec![(0, shared), (0, shared)]));
        return;
    }
    let first = rng.pick(&parents).cloned();
    let second = rng.pick(&parents).cloned();
    file.nodes.extend(first);
    file.nodes.extend(second);
}

fn not_constant(rng: &mut Rng, file: &mut RuleFile) {
    file.nodes.push(match rng.below(6) {
        0 => Node::Var(0),
        1 => Node::Wildcard,
        2 => Node::Prefix(0),
        3 => Node::Fuzzy(0, 1, Anchor::Prefix),
        4 => Node::Error,
        _ => Node::Int(0),
    });
    if rng.chance(50) {
        let inner = file.nodes.len() as u16 - 1;
        file.nodes.push(Node::Record(vec![(0, inner)]));
    }
    let node = file.nodes.len() as u16 - 1;
    file.bindings.push(Binding {
        name: 0,
        slot: Slot::Const(node),
    });
}

/// Paths at the limit and one past it.
fn long_path(rng: &mut Rng, file: &mut RuleFile) {
    let over = rng.weighted(&[40, 60]);
    let path = |steps: usize| Path {
        field: 1,
        steps: vec![2; steps],
    };
    if rng.chance(50) {
        file.fetched.push(Fetched {
            address: 0,
            path: path(MAX_STEPS + over),
            register: 1,
        });
        return;
    }
    let lower_first = file.types.iter().enumerate().all(|(at, ty)| {
        let below = |child: &u16| (*child as usize) < at;
        ty.children().iter().all(below)
    });
    if !lower_first || file.types.is_empty() {
        return;
    }
    let ty = rng.below(file.types.len());
    let depth = depths(&file.types)[ty];
    let steps = (MAX_DEPTH + over).saturating_sub(depth);
    file.bindings.push(Binding {
        name: 0,
        slot: Slot::Field(0, path(steps), ty as u16),
    });
}
