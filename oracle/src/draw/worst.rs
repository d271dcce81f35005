//! Files that keep the bodies busy for long. They are never drawn; a benchmark
//! asks for them by name.

use crate::file::*;

use super::shape::{level, predicate};

/// Fields of a wide record, the most there can be.
const WIDE: u16 = 255;

/// Names 0 to 255, of which 255 is bound to a constant record of these leaves, given in
/// the order in which finding each field takes longest. The leaves' type is the last of
/// `types`; the constant's stands behind it, and its node last.
fn wide_constant(types: Vec<Type>, leaf: Node) -> RuleFile {
    let of_leaf = types.len() as u16 - 1;
    let mut file = RuleFile {
        names: vec![vec![]; WIDE as usize + 1],
        types,
        nodes: vec![leaf; WIDE as usize],
        ..RuleFile::default()
    };
    let fields = (0..WIDE).map(|name| (name, of_leaf)).collect();
    file.types.push(Type::Record(fields));
    let given = (0..WIDE).rev().map(|name| (name, name)).collect();
    file.nodes.push(Node::Record(given));
    file
}

fn bind(file: &mut RuleFile, node: usize) {
    file.bindings.push(Binding {
        name: WIDE,
        slot: Slot::Const(node as u16),
    });
}

/// Accepted, some 11 KB: a thousand Vars on each of 64 levels stand for a constant that
/// has no bytes, and is opened to nothing: its leaves are records that lack their text.
pub fn opened() -> RuleFile {
    let types = vec![Type::Str, Type::Record(vec![(0, 0)])];
    let mut file = wide_constant(types, Node::Record(vec![]));
    let constant = file.nodes.len() - 1;
    bind(&mut file, constant);

    file.types
        .push(Type::Record((0..250).map(|name| (name, 2)).collect()));
    file.types
        .push(Type::Record((0..4).map(|name| (name, 3)).collect()));
    let mut key = vec![];
    for name in 0..4 {
        let first = file.nodes.len() as u16;
        file.nodes.extend((0..250).map(|_| Node::Var(WIDE)));
        let given = (0..250).map(|field| (field, first + field)).collect();
        file.nodes.push(Node::Record(given));
        key.push((name, first + 250));
    }
    file.nodes.push(Node::Record(key));
    file.predicates.push(predicate(4));
    let root = file.nodes.len() - 1;
    file.levels = (0..64).map(|address| level(0, root, address)).collect();
    file
}

/// Ends in refusal 15: unions inside each other around a record of Vars that
/// stand for a long constant; each union is asked for its whole constant first,
/// and the record's last field has none.
pub fn unions() -> RuleFile {
    let mut file = wide_constant(vec![Type::Int, Type::Bytes], Node::Bytes(vec![0; 8]));
    let constant = file.nodes.len() - 1;
    bind(&mut file, constant);

    let mut fields: Vec<(u16, u16)> = (0..250).map(|name| (name, 2)).collect();
    fields.push((250, 0));
    file.types.push(Type::Record(fields));
    let first = file.nodes.len() as u16;
    file.nodes.extend((0..250).map(|_| Node::Var(WIDE)));
    file.nodes.push(Node::Wildcard);
    let given = (0..=250).map(|field| (field, first + field)).collect();
    file.nodes.push(Node::Record(given));
    // The record of Vars has depth 3.
    for disc in 3..MAX_DEPTH as u32 {
        let (ty, node) = (file.types.len() as u16 - 1, file.nodes.len() as u16 - 1);
        file.types.push(Type::Union(vec![(0, disc, ty)]));
        file.nodes.push(Node::Record(vec![(0, node)]));
    }
    file.predicates.push(predicate(file.types.len() - 1));
    let root = file.nodes.len() - 1;
    file.levels = (0..64).map(|address| level(0, root, address)).collect();
    file
}
