//! Refusal 19, with the place of the first constant that meets it.
//!
//! A name stands for a constant from the file's start or not at all, so that each
//! level's pattern and its key's type decide; nothing that a level binds does.

use std::collections::{HashMap, HashSet};

use super::Fault;
use super::checks::{constants, fault, first};
use crate::Refusal;
use crate::rules::{FieldPattern, FieldType, Level, Located, Node, RuleFile, Section, Slot, Type};
use crate::text::shown_name;

pub(super) fn check(located: &Located) -> Result<(), Fault> {
    let mut search = Search {
        rules: &located.rules,
        constant: constants(&located.rules.nodes),
        encoded: HashMap::new(),
        seen: HashSet::new(),
    };
    for (number, level) in located.rules.levels.iter().enumerate() {
        if let Err(met) = search.key(level) {
            return Err(told(located, number, &met));
        }
    }
    Ok(())
}

/// A constant that its type gives no bytes: the pattern that stands for it, and where.
struct Met {
    node: u16,
    constant: u16,
    ty: u16,
    place: String,
}

fn told(located: &Located, level: usize, met: &Met) -> Fault {
    let rules = &located.rules;
    let (node, ty) = (&rules.nodes[usize::from(met.constant)], rules.ty(met.ty));
    let expected = ty.map_or("nothing", a_type);
    let expected = format!("{expected} for {} of level {level}", met.place);
    let found = if met.node == met.constant {
        String::from(a_node(node))
    } else {
        format!("{}, which node {} stands for", a_node(node), met.node)
    };
    let record = usize::from(met.constant);
    match first(located, Section::Nodes, record) {
        Some(item) => fault(Refusal::Literal, item, expected, found),
        None => Fault {
            refusal: Refusal::Literal,
            section: Some(Section::Nodes),
            record: Some(record),
            field: None,
            offset: super::offset(located, Section::Nodes, record),
            expected,
            found,
        },
    }
}

/// The walk of a level, as far as constants go. Numbers are in range, and children lower
/// than their parents: 8 and 9 were looked for before.
struct Search<'a> {
    rules: &'a RuleFile,
    constant: Vec<bool>,
    /// Whether a constant has bytes of a type, once it was asked.
    encoded: HashMap<(u16, u16), bool>,
    /// Levels' own nodes and opened constants, each with its type: met before, and well.
    seen: HashSet<(u16, u16)>,
}

impl<'a> Search<'a> {
    fn node(&self, number: u16) -> &'a Node {
        &self.rules.nodes[usize::from(number)]
    }

    fn ty(&self, number: u16) -> &'a Type {
        &self.rules.types[usize::from(number)]
    }

    fn key(&mut self, level: &Level) -> Result<(), Met> {
        let (node, ty) = (
            level.node,
            self.rules.predicates[usize::from(level.predicate)].key,
        );
        if !self.seen.insert((node, ty)) {
            return Ok(());
        }
        match (self.node(node), self.ty(ty)) {
            (Node::Record(patterns), Type::Record(fields)) => self.fields(patterns, fields, ""),
            (_, Type::Record(fields)) => self.whole_key(node, ty, fields),
            _ => self.field(node, ty, "key"),
        }
    }

    /// A record's key in one pattern: its constant is a record, of which each field is met.
    fn whole_key(&mut self, node: u16, ty: u16, fields: &[FieldType]) -> Result<(), Met> {
        let Some(constant) = self.constant_of(node) else {
            return Ok(());
        };
        let Node::Record(patterns) = self.node(constant) else {
            return Err(Met {
                node,
                constant,
                ty,
                place: String::from("the key"),
            });
        };
        for field in fields {
            if let Some(own) = of_name(patterns, field.name) {
                self.matched(node, own, field.ty, &self.name(field.name))?;
            }
        }
        Ok(())
    }

    fn field(&mut self, node: u16, ty: u16, place: &str) -> Result<(), Met> {
        match (self.node(node), self.ty(ty)) {
            (Node::Record(patterns), Type::Union(alternatives)) => {
                let [only] = patterns.as_slice() else {
                    return Ok(());
                };
                let known = alternatives.iter().find(|each| each.name == only.name);
                let Some(known) = known else {
                    return Ok(());
                };
                let place = format!("{place}.{}", self.name(known.name));
                self.field(only.node, known.ty, &place)
            }
            (pattern, _) => match (self.constant_of(node), pattern) {
                (Some(constant), _) => self.matched(node, constant, ty, place),
                (None, Node::Record(_)) => self.opened(node, ty, place),
                _ => Ok(()),
            },
        }
    }

    fn matched(&mut self, node: u16, constant: u16, ty: u16, place: &str) -> Result<(), Met> {
        if self.has_bytes(constant, ty) {
            return Ok(());
        }
        match (self.node(constant), self.ty(ty)) {
            (Node::Record(_), Type::Record(_)) if !self.seen.insert((constant, ty)) => Ok(()),
            (Node::Record(_), Type::Record(_)) => self.opened(constant, ty, place),
            _ => Err(Met {
                node,
                constant,
                ty,
                place: String::from(place),
            }),
        }
    }

    fn opened(&mut self, node: u16, ty: u16, place: &str) -> Result<(), Met> {
        match (self.node(node), self.ty(ty)) {
            (Node::Record(patterns), Type::Record(fields)) => {
                self.fields(patterns, fields, &format!("{place}."))
            }
            _ => Ok(()),
        }
    }

    /// The fields of a record, in the type's order, each by its first pattern.
    fn fields(
        &mut self,
        patterns: &[FieldPattern],
        fields: &[FieldType],
        before: &str,
    ) -> Result<(), Met> {
        for field in fields {
            if let Some(node) = of_name(patterns, field.name) {
                let place = format!("{before}{}", self.name(field.name));
                self.field(node, field.ty, &place)?;
            }
        }
        Ok(())
    }

    fn name(&self, number: u16) -> String {
        shown_name(self.rules, number)
    }

    /// The constant that a pattern stands for: itself, by a name, a hoisted Fact, or reads
    /// of one of these.
    fn constant_of(&self, mut node: u16) -> Option<u16> {
        let mut reads = vec![];
        while let Node::KeyAccess(name, base) = self.node(node) {
            reads.push(*name);
            node = *base;
        }
        let mut constant = match self.node(node) {
            _ if self.constant[usize::from(node)] => node,
            Node::Var(name) => self.bound(*name)?,
            Node::Fact(..) => {
                let mut hoisted = self.rules.hoisted.iter();
                self.bound(hoisted.find(|entry| entry.node == node)?.name)?
            }
            _ => return None,
        };
        for name in reads.into_iter().rev() {
            let Node::Record(patterns) = self.node(constant) else {
                return None;
            };
            constant = of_name(patterns, name)?;
        }
        Some(constant)
    }

    /// The constant that a name stands for by its last binding.
    fn bound(&self, name: u16) -> Option<u16> {
        let mut bindings = self.rules.bindings.iter().rev();
        match bindings.find(|binding| binding.name == name)?.slot {
            Slot::Const(node) => Some(node),
            _ => None,
        }
    }

    /// Whether a constant is a whole value of a type.
    fn has_bytes(&mut self, node: u16, ty: u16) -> bool {
        if let Some(&known) = self.encoded.get(&(node, ty)) {
            return known;
        }
        let found = match (self.node(node), self.ty(ty)) {
            (Node::Int(_), Type::Int)
            | (Node::Str(_), Type::Str)
            | (Node::Bytes(_), Type::Bytes) => true,
            (Node::Record(patterns), Type::Record(fields)) => fields.iter().all(|field| {
                of_name(patterns, field.name).is_some_and(|node| self.has_bytes(node, field.ty))
            }),
            (Node::Record(patterns), Type::Union(alternatives)) => match patterns.as_slice() {
                [only] => {
                    let known = alternatives.iter().find(|each| each.name == only.name);
                    known.is_some_and(|known| self.has_bytes(only.node, known.ty))
                }
                _ => false,
            },
            _ => false,
        };
        self.encoded.insert((node, ty), found);
        found
    }
}

fn of_name(patterns: &[FieldPattern], name: u16) -> Option<u16> {
    let found = patterns.iter().find(|pattern| pattern.name == name)?;
    Some(found.node)
}

/// A constant, in words.
fn a_node(node: &Node) -> &'static str {
    match node {
        Node::Int(_) => "a number",
        Node::Str(_) => "a text",
        Node::Bytes(_) => "a string of bytes",
        _ => "a record",
    }
}

/// What belongs where a type stands, in words.
pub(super) fn a_type(ty: &Type) -> &'static str {
    match ty {
        Type::Int => "a number (Int)",
        Type::Str => "a text (Str)",
        Type::Bytes => "a string of bytes (Bytes)",
        Type::Fact(_) => "a reference (Fact)",
        Type::Record(_) => "a record",
        Type::Union(_) => "a union's alternative",
    }
}
