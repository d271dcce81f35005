//! The whole-file checks, 8 to 14, each with the place of its first fault.
//!
//! Each is tried over the whole file before the next, and relies on those
//! before it.

use std::collections::HashSet;

use super::Fault;
use crate::Refusal;
use crate::rules::{
    Item, Located, MAX_DEPTH, MAX_STEPS, Node, RuleFile, Section, Slot, Type, What,
};

const CHECKS: [fn(&Located) -> Option<Fault>; 7] =
    [number, child, repeat, deep, shared, not_constant, path];

pub(super) fn check(located: &Located) -> Result<(), Fault> {
    match CHECKS.iter().find_map(|check| check(located)) {
        Some(fault) => Err(fault),
        None => Ok(()),
    }
}

pub(super) fn fault(refusal: Refusal, item: &Item, expected: String, found: String) -> Fault {
    Fault {
        refusal,
        section: Some(item.section),
        record: Some(item.record),
        field: Some(item.field),
        offset: item.offset,
        expected,
        found,
    }
}

/// The fields that hold one of these, of one section.
fn fields<'a>(
    located: &'a Located,
    section: Section,
    what: &'a [What],
) -> impl Iterator<Item = &'a Item> {
    let wanted = move |item: &&Item| item.section == section && what.contains(&item.field.what);
    located.items.iter().filter(wanted)
}

/// 8.
fn number(located: &Located) -> Option<Fault> {
    located.items.iter().find_map(|item| {
        let what = item.field.what;
        let table = what.table()?;
        let count = located.rules.count(table);
        let none = what.may_be_none() && item.value == 0xFFFF;
        if none || item.value < count as u64 {
            return None;
        }
        let or_none = if what.may_be_none() {
            ", or FFFF hex for none"
        } else {
            ""
        };
        let expected = match count {
            0 => format!(
                "the number of a {}, of which the file has none{or_none}",
                table.one()
            ),
            _ => format!(
                "the number of a {}, 0 to {}{or_none}",
                table.one(),
                count - 1
            ),
        };
        Some(fault(
            Refusal::Number,
            item,
            expected,
            item.value.to_string(),
        ))
    })
}

/// 9.
fn child(located: &Located) -> Option<Fault> {
    let children = fields(located, Section::Types, &[What::Type]).chain(fields(
        located,
        Section::Nodes,
        &[What::Node],
    ));
    let mut above = children.filter(|item| item.value >= item.record as u64);
    above.next().map(|item| {
        let one = item.section.one();
        let expected = format!(
            "a {one} that stands before its parent, {one} {}",
            item.record
        );
        fault(
            Refusal::Child,
            item,
            expected,
            format!("{one} {}", item.value),
        )
    })
}

/// 10: names are compared by number.
fn repeat(located: &Located) -> Option<Fault> {
    let (mut names, mut discs, mut record) = (HashSet::new(), HashSet::new(), usize::MAX);
    for item in fields(located, Section::Types, &[What::Name, What::Disc]) {
        if item.record != record {
            names.clear();
            discs.clear();
            record = item.record;
        }
        let of_names = item.field.what == What::Name;
        let seen = if of_names { &mut names } else { &mut discs };
        if !seen.insert(item.value) {
            let what = item.field.what.words();
            let found = format!("{what} {} again", item.value);
            let expected = format!("a {what} that the type has not had before");
            return Some(fault(Refusal::Repeat, item, expected, found));
        }
    }
    None
}

/// The item with which a record begins.
pub(super) fn first(located: &Located, section: Section, record: usize) -> Option<&Item> {
    fields(located, section, &[What::Kind]).find(|item| item.record == record)
}

/// 11.
fn deep(located: &Located) -> Option<Fault> {
    let depths = depths(&located.rules.types);
    let record = depths.iter().position(|&depth| depth > MAX_DEPTH)?;
    let expected = format!("a type of depth {MAX_DEPTH} at most");
    let found = format!("depth {}", depths[record]);
    let item = first(located, Section::Types, record)?;
    Some(fault(Refusal::Depth, item, expected, found))
}

/// 12.
fn shared(located: &Located) -> Option<Fault> {
    let mut parents = vec![None; located.rules.nodes.len()];
    for item in fields(located, Section::Nodes, &[What::Node]) {
        let parent = parents.get_mut(item.value as usize)?;
        if let Some(parent) = parent.replace(item.record) {
            let expected = String::from("a node that is no other node's child");
            let found = format!("node {}, a child of node {parent} already", item.value);
            return Some(fault(Refusal::Shared, item, expected, found));
        }
    }
    None
}

/// 13.
fn not_constant(located: &Located) -> Option<Fault> {
    let constant = constants(&located.rules.nodes);
    let mut items = fields(located, Section::Bindings, &[What::Node]);
    let item = items.find(|item| constant.get(item.value as usize) == Some(&false))?;
    let expected = String::from("a constant: a number, a text, bytes, or a record of constants");
    let found = format!("node {}, which is none", item.value);
    Some(fault(Refusal::NotConstant, item, expected, found))
}

/// 14.
fn path(located: &Located) -> Option<Fault> {
    let depths = depths(&located.rules.types);
    let binding = fields(located, Section::Bindings, &[What::Steps]).find_map(|item| {
        let depth = field_depth(&located.rules, &depths, item.record)?;
        let steps = item.value as usize;
        (steps + depth > MAX_DEPTH).then(|| {
            let expected =
                format!("steps and the depth of the Field's type, {MAX_DEPTH} at most in sum");
            fault(
                Refusal::Path,
                item,
                expected,
                format!("{steps} steps and depth {depth}"),
            )
        })
    });
    binding.or_else(|| {
        let mut items = fields(located, Section::Fetched, &[What::Steps]);
        let item = items.find(|item| item.value > MAX_STEPS.into())?;
        let expected = format!("a fetched path of {MAX_STEPS} steps at most");
        Some(fault(
            Refusal::Path,
            item,
            expected,
            format!("{} steps", item.value),
        ))
    })
}

fn field_depth(rules: &RuleFile, depths: &[usize], binding: usize) -> Option<usize> {
    match rules.bindings.get(binding)?.slot {
        Slot::Field(_, _, ty) => depths.get(usize::from(ty)).copied(),
        _ => None,
    }
}

/// Every type's depth; children stand before their parents.
fn depths(types: &[Type]) -> Vec<usize> {
    let mut depths: Vec<usize> = Vec::with_capacity(types.len());
    for ty in types {
        let children = ty.children();
        let of_child = |&child: &u16| depths.get(usize::from(child)).copied();
        let deepest = children.iter().filter_map(of_child).max();
        depths.push(1 + deepest.unwrap_or(0));
    }
    depths
}

/// Which nodes are constant; children stand before their parents.
pub(super) fn constants(nodes: &[Node]) -> Vec<bool> {
    let mut constant: Vec<bool> = Vec::with_capacity(nodes.len());
    for node in nodes {
        let of_child = |child: &u16| constant.get(usize::from(*child)) == Some(&true);
        constant.push(match node {
            Node::Int(_) | Node::Str(_) | Node::Bytes(_) => true,
            Node::Record(_) => node.children().iter().all(of_child),
            _ => false,
        });
    }
    constant
}
