//! A smaller file that still shows a difference.

use crate::file::*;
use crate::read::read;
use crate::write::write;

/// Tries smaller files, at most `tries` of them, as long as `differs` holds.
pub fn shrink(file: &[u8], tries: usize, mut differs: impl FnMut(&[u8]) -> bool) -> Vec<u8> {
    let mut best = file.to_vec();
    let mut left = tries;
    'again: while left > 0 {
        for candidate in candidates(&best) {
            if candidate.len() >= best.len() {
                continue;
            }
            if left == 0 {
                break 'again;
            }
            left -= 1;
            if differs(&candidate) {
                best = candidate;
                continue 'again;
            }
        }
        break;
    }
    best
}

/// Smaller files, the boldest first.
fn candidates(bytes: &[u8]) -> Vec<Vec<u8>> {
    match read(bytes) {
        Ok(file) => edits(&file).iter().map(write).collect(),
        Err(_) => cuts(bytes),
    }
}

/// For bytes that cannot be read: pieces left out.
fn cuts(bytes: &[u8]) -> Vec<Vec<u8>> {
    let mut found = vec![];
    let mut piece = bytes.len() / 2;
    while piece > 0 {
        for start in (0..bytes.len()).step_by(piece) {
            let end = (start + piece).min(bytes.len());
            found.push([&bytes[..start], &bytes[end..]].concat());
        }
        piece /= 2;
    }
    found
}

fn edits(file: &RuleFile) -> Vec<RuleFile> {
    let mut found = vec![];
    without(file, |f| &mut f.levels, &mut found);
    without(file, |f| &mut f.constraints, &mut found);
    without(file, |f| &mut f.comparisons, &mut found);
    without(file, |f| &mut f.bindings, &mut found);
    without(file, |f| &mut f.hoisted, &mut found);
    without(file, |f| &mut f.fetched, &mut found);
    unused(file, Table::Predicate, |f| &mut f.predicates, &mut found);
    unused(file, Table::Node, |f| &mut f.nodes, &mut found);
    unused(file, Table::Type, |f| &mut f.types, &mut found);
    unused(file, Table::Name, |f| &mut f.names, &mut found);
    simpler_nodes(file, &mut found);
    simpler_types(file, &mut found);
    shorter_names(file, &mut found);
    found
}

/// Each entry of a list left out, and the second half of it.
fn without<T: Clone>(
    file: &RuleFile,
    list: impl Fn(&mut RuleFile) -> &mut Vec<T>,
    found: &mut Vec<RuleFile>,
) {
    let count = list(&mut file.clone()).len();
    if count > 3 {
        let mut halved = file.clone();
        list(&mut halved).truncate(count / 2);
        found.push(halved);
    }
    for at in 0..count {
        let mut smaller = file.clone();
        list(&mut smaller).remove(at);
        found.push(smaller);
    }
}

/// Each entry of a table that nothing names left out, the rest renumbered.
fn unused<T>(
    file: &RuleFile,
    table: Table,
    entries: impl Fn(&mut RuleFile) -> &mut Vec<T>,
    found: &mut Vec<RuleFile>,
) {
    let mut used = vec![];
    file.clone().numbers(&mut |of, number| {
        if of == table {
            used.push(*number);
        }
    });
    let count = entries(&mut file.clone()).len();
    for at in (0..count).rev().filter(|at| !used.contains(&(*at as u16))) {
        let mut smaller = file.clone();
        entries(&mut smaller).remove(at);
        smaller.numbers(&mut |of, number| {
            *number -= u16::from(of == table && *number as usize > at);
        });
        found.push(smaller);
    }
}

fn simpler_nodes(file: &RuleFile, found: &mut Vec<RuleFile>) {
    for at in 0..file.nodes.len() {
        if file.nodes[at] != Node::Wildcard {
            let mut smaller = file.clone();
            smaller.nodes[at] = Node::Wildcard;
            found.push(smaller);
        }
        if let Node::Record(fields) = &file.nodes[at] {
            for field in 0..fields.len() {
                let mut smaller = file.clone();
                if let Node::Record(fields) = &mut smaller.nodes[at] {
                    fields.remove(field);
                }
                found.push(smaller);
            }
        }
    }
}

fn simpler_types(file: &RuleFile, found: &mut Vec<RuleFile>) {
    for at in 0..file.types.len() {
        if file.types[at] != Type::Int {
            let mut smaller = file.clone();
            smaller.types[at] = Type::Int;
            found.push(smaller);
        }
        for child in 0..file.types[at].children().len() {
            let mut smaller = file.clone();
            match &mut smaller.types[at] {
                Type::Record(fields) => drop(fields.remove(child)),
                Type::Union(alts) => drop(alts.remove(child)),
                _ => {}
            }
            found.push(smaller);
        }
    }
}

fn shorter_names(file: &RuleFile, found: &mut Vec<RuleFile>) {
    for at in 0..file.names.len() {
        if !file.names[at].is_empty() {
            let mut smaller = file.clone();
            smaller.names[at].clear();
            found.push(smaller);
        }
    }
}
