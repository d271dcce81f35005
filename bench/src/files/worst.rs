//! Files that keep the Rust bodies busy for longest: `oracle worst` has milder
//! ones of both kinds.

use oracle::draw::shape::{level, predicate};
use oracle::file::*;

/// Fields of a wide record.
const WIDE: u16 = 250;
/// Wide records in the constant: all nodes but what the Vars need.
const RECORDS: u16 = 4;
/// The name that stands for the constant.
const NAME: u16 = 250;

/// These types, a wide record of the last of them, and a record of wide ones; the nodes
/// of a constant for it, with fields given in the order in which finding each takes
/// longest.
fn wide_constant(types: Vec<Type>, leaf: &Node) -> RuleFile {
    let of_leaf = types.len() as u16 - 1;
    let mut file = RuleFile {
        names: vec![vec![]; WIDE as usize + 1],
        types,
        ..RuleFile::default()
    };
    for (count, ty) in [(WIDE, of_leaf), (RECORDS, of_leaf + 1)] {
        let fields = (0..count).map(|name| (name, ty)).collect();
        file.types.push(Type::Record(fields));
    }

    let mut records = vec![];
    for name in 0..RECORDS {
        let first = file.nodes.len() as u16;
        file.nodes.extend((0..WIDE).map(|_| leaf.clone()));
        let given = (0..WIDE).rev().map(|field| (field, first + field));
        file.nodes.push(Node::Record(given.collect()));
        records.push((name, first + WIDE));
    }
    file.nodes.push(Node::Record(records));
    file
}

pub fn last_type(file: &RuleFile) -> u16 {
    file.types.len() as u16 - 1
}

pub fn last_node(file: &RuleFile) -> u16 {
    file.nodes.len() as u16 - 1
}

fn bind_last(file: &mut RuleFile) {
    file.bindings.push(Binding {
        name: NAME,
        slot: Slot::Const(last_node(file)),
    });
}

/// So many Vars that stand for the constant; the first one's number.
fn vars(file: &mut RuleFile, count: u16) -> u16 {
    let first = file.nodes.len() as u16;
    file.nodes.extend((0..count).map(|_| Node::Var(NAME)));
    first
}

/// Every level there can be has the last node for its key.
pub fn all_levels(mut file: RuleFile) -> RuleFile {
    file.predicates.push(predicate(last_type(&file) as usize));
    let root = last_node(&file) as usize;
    file.levels = (0..LIMITS[9] as u16)
        .map(|address| level(0, root, address))
        .collect();
    file
}

/// Accepted, some 15 KB: a thousand Vars on each of 64 levels stand for a constant of a
/// thousand records that lack their one text. It has no bytes, and is opened to nothing.
pub fn opened() -> RuleFile {
    let types = vec![Type::Str, Type::Record(vec![(0, 0)])];
    let mut file = wide_constant(types, &Node::Record(vec![]));
    bind_last(&mut file);

    let constant = last_type(&file);
    let fields = (0..WIDE).map(|name| (name, constant)).collect();
    file.types.push(Type::Record(fields));
    let record = last_type(&file);
    let around = (0..4).map(|name| (name, record)).collect();
    file.types.push(Type::Record(around));
    let mut key = vec![];
    for name in 0..4 {
        let first = vars(&mut file, WIDE);
        let given = (0..WIDE).map(|field| (field, first + field)).collect();
        file.nodes.push(Node::Record(given));
        key.push((name, last_node(&file)));
    }
    file.nodes.push(Node::Record(key));
    all_levels(file)
}

/// Ends in 15: unions inside each other, as deep as a type may be, around a
/// record of Vars that stand for a long constant. Each union is asked for its
/// whole constant first, and the record's last field has none.
pub fn unions() -> RuleFile {
    let mut file = wide_constant(vec![Type::Int, Type::Bytes], &Node::Bytes(vec![0; 4]));
    bind_last(&mut file);
    let constant = last_type(&file);
    let mut fields: Vec<(u16, u16)> = (0..WIDE).map(|name| (name, constant)).collect();
    fields.push((WIDE, 0));
    file.types.push(Type::Record(fields));
    let first = vars(&mut file, WIDE);
    file.nodes.push(Node::Wildcard);
    let given = (0..=WIDE).map(|field| (field, first + field)).collect();
    file.nodes.push(Node::Record(given));
    // The record of Vars has depth 4.
    for disc in 4..MAX_DEPTH as u32 {
        let (ty, node) = (last_type(&file), last_node(&file));
        file.types.push(Type::Union(vec![(0, disc, ty)]));
        file.nodes.push(Node::Record(vec![(0, node)]));
    }
    all_levels(file)
}
