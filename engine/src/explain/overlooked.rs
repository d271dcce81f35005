//! Patterns that the compile passes over without a word: the level stands, and
//! matches as if they were not there.

use std::collections::HashSet;
use std::fmt;

use super::literal::a_type;
use crate::rules::{FieldPattern, FieldType, Located, Node, RuleFile, Section, Type};
use crate::text::shown_name;

/// A pattern that a level's seek does not heed, and why.
#[derive(Debug, Clone, PartialEq, Eq)]
pub struct Overlooked {
    /// The level.
    pub level: usize,
    /// The pattern's node.
    pub node: u16,
    /// Where the node begins, in bytes from the file's start.
    pub offset: usize,
    /// A sentence.
    pub why: String,
}

impl fmt::Display for Overlooked {
    fn fmt(&self, f: &mut fmt::Formatter<'_>) -> fmt::Result {
        let Self {
            level,
            node,
            offset,
            why,
        } = self;
        write!(
            f,
            "node {node}, offset {offset}: level {level} passes over it: {why}"
        )
    }
}

/// All of an accepted file.
pub(super) fn overlooked(located: &Located) -> Vec<Overlooked> {
    let rules = &located.rules;
    let mut found = vec![];
    for (at, level) in rules.levels.iter().enumerate() {
        let Some(key) = rules.key_of(level) else {
            continue;
        };
        let mut search = Search {
            rules,
            found: vec![],
        };
        search.pattern(level.node, key);
        found.extend(search.found.into_iter().map(|(node, why)| Overlooked {
            level: at,
            node,
            offset: super::offset(located, Section::Nodes, node.into()),
            why,
        }));
    }
    found
}

struct Search<'a> {
    rules: &'a RuleFile,
    found: Vec<(u16, String)>,
}

impl Search<'_> {
    /// A pattern against its type. Each round goes one type down.
    fn pattern(&mut self, number: u16, ty: &Type) {
        let Some(node) = self.rules.node(number) else {
            return;
        };
        match (node, ty) {
            (Node::Record(patterns), Type::Record(fields)) => self.fields(patterns, fields),
            (Node::Record(patterns), Type::Union(alternatives)) => {
                let [only] = patterns.as_slice() else {
                    return;
                };
                let mut named = alternatives.iter().filter(|each| each.name == only.name);
                if let Some(ty) = named.next().and_then(|each| self.rules.ty(each.ty)) {
                    self.pattern(only.node, ty);
                }
            }
            // One that is constant is refused by 19.
            (Node::Record(_), _) => {
                let why = format!("a record stands where {} belongs", a_type(ty));
                self.found.push((number, why));
            }
            _ => {}
        }
    }

    fn fields(&mut self, patterns: &[FieldPattern], fields: &[FieldType]) {
        let mut seen = HashSet::new();
        for pattern in patterns {
            let name = self.name(pattern.name);
            let Some(field) = fields.iter().find(|field| field.name == pattern.name) else {
                let why = format!("there is no field {name} here, only {}", self.names(fields));
                self.found.push((pattern.node, why));
                continue;
            };
            if !seen.insert(pattern.name) {
                let why = format!("{name} was given before, and the first counts");
                self.found.push((pattern.node, why));
            } else if let Some(ty) = self.rules.ty(field.ty) {
                self.pattern(pattern.node, ty);
            }
        }
    }

    fn name(&self, number: u16) -> String {
        shown_name(self.rules, number)
    }

    fn names(&self, fields: &[FieldType]) -> String {
        let names: Vec<String> = fields.iter().map(|field| self.name(field.name)).collect();
        if names.is_empty() {
            return String::from("an empty record");
        }
        names.join(", ")
    }
}
