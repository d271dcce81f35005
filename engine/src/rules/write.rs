//! A rule file's bytes.

use super::*;

pub(super) fn write(rules: &RuleFile) -> Vec<u8> {
    let mut bytes = Bytes::default();
    bytes.section(&rules.names, |bytes, name| bytes.counted(name));
    bytes.section(&rules.types, Bytes::ty);
    bytes.section(&rules.predicates, |bytes, predicate| {
        bytes.u16(predicate.key);
        bytes.u16(predicate.value.unwrap_or(NONE));
    });
    bytes.section(&rules.nodes, Bytes::node);
    bytes.section(&rules.bindings, |bytes, binding| {
        bytes.u16(binding.name);
        bytes.slot(&binding.slot);
    });
    bytes.section(&rules.hoisted, |bytes, hoisted| {
        bytes.numbers(&[hoisted.node, hoisted.name]);
    });
    bytes.section(&rules.fetched, |bytes, fetched| {
        bytes.u16(fetched.address);
        bytes.path(&fetched.path);
        bytes.u16(fetched.register);
    });
    bytes.section(&rules.constraints, |bytes, constraint| {
        bytes.numbers(&[constraint.name, constraint.node]);
    });
    bytes.section(&rules.comparisons, |bytes, comparison| {
        bytes.u8(comparison.op as u8);
        bytes.numbers(&[comparison.left, comparison.right]);
    });
    bytes.section(&rules.levels, |bytes, level| {
        bytes.numbers(&[level.predicate, level.node, level.address]);
    });
    bytes.0
}

#[derive(Default)]
pub(crate) struct Bytes(pub(crate) Vec<u8>);

impl Bytes {
    pub(crate) fn u8(&mut self, value: u8) {
        self.0.push(value);
    }

    pub(crate) fn u16(&mut self, value: u16) {
        self.0.extend(value.to_le_bytes());
    }

    pub(crate) fn u32(&mut self, value: u32) {
        self.0.extend(value.to_le_bytes());
    }

    fn numbers(&mut self, values: &[u16]) {
        values.iter().for_each(|&value| self.u16(value));
    }

    fn counted(&mut self, bytes: &[u8]) {
        self.u8(bytes.len() as u8);
        self.0.extend(bytes);
    }

    pub(crate) fn section<T>(&mut self, records: &[T], write: impl Fn(&mut Self, &T)) {
        self.u16(records.len() as u16);
        records.iter().for_each(|record| write(self, record));
    }

    fn ty(&mut self, ty: &Type) {
        match ty {
            Type::Int => self.u8(0),
            Type::Str => self.u8(1),
            Type::Bytes => self.u8(2),
            Type::Fact(predicate) => {
                self.u8(3);
                self.u16(*predicate);
            }
            Type::Record(fields) => {
                self.0.extend([4, fields.len() as u8]);
                (fields.iter()).for_each(|field| self.numbers(&[field.name, field.ty]));
            }
            Type::Union(alternatives) => {
                self.0.extend([5, alternatives.len() as u8]);
                for each in alternatives {
                    self.u16(each.name);
                    self.u32(each.disc);
                    self.u16(each.ty);
                }
            }
        }
    }

    fn node(&mut self, node: &Node) {
        self.u8(kind(node));
        match node {
            Node::Int(value) => self.0.extend(value.to_le_bytes()),
            Node::Str(number) | Node::Var(number) | Node::Prefix(number) => self.u16(*number),
            Node::ValueAccess(number) => self.u16(*number),
            Node::Bytes(bytes) => self.counted(bytes),
            Node::Fuzzy(name, distance, anchor) => {
                self.u16(*name);
                self.fuzzy(*distance, *anchor);
            }
            Node::Record(fields) => {
                self.u8(fields.len() as u8);
                (fields.iter()).for_each(|field| self.numbers(&[field.name, field.node]));
            }
            Node::KeyAccess(first, second)
            | Node::Select(first, second)
            | Node::Fact(first, second) => self.numbers(&[*first, *second]),
            Node::Wildcard
            | Node::Never
            | Node::Disjunction
            | Node::Subquery
            | Node::Arith
            | Node::Error => {}
        }
    }

    pub(crate) fn fuzzy(&mut self, distance: u8, anchor: Anchor) {
        self.u8(distance);
        self.u8(match anchor {
            Anchor::Prefix => 0,
            Anchor::Whole => 1,
        });
    }

    pub(crate) fn path(&mut self, path: &Path) {
        self.u16(path.field);
        self.u8(path.steps.len() as u8);
        path.steps.iter().for_each(|&step| self.u32(step));
    }

    pub(crate) fn slot(&mut self, slot: &Slot) {
        match slot {
            Slot::Row(address, predicate) => {
                self.u8(0);
                self.numbers(&[*address, predicate.unwrap_or(NONE)]);
            }
            Slot::Key(address, ty) => {
                self.u8(1);
                self.numbers(&[*address, *ty]);
            }
            Slot::Derived(address) => {
                self.u8(2);
                self.u16(*address);
            }
            Slot::Field(address, path, ty) => {
                self.u8(3);
                self.u16(*address);
                self.path(path);
                self.u16(*ty);
            }
            Slot::Value(address, ty) => {
                self.u8(4);
                self.numbers(&[*address, *ty]);
            }
            Slot::Const(node) => {
                self.u8(5);
                self.u16(*node);
            }
        }
    }
}

fn kind(node: &Node) -> u8 {
    match node {
        Node::Int(_) => 0,
        Node::Str(_) => 1,
        Node::Bytes(_) => 2,
        Node::Var(_) => 3,
        Node::Wildcard => 4,
        Node::Never => 5,
        Node::Prefix(_) => 6,
        Node::Fuzzy(..) => 7,
        Node::Record(_) => 8,
        Node::KeyAccess(..) => 9,
        Node::ValueAccess(_) => 10,
        Node::Select(..) => 11,
        Node::Disjunction => 12,
        Node::Subquery => 13,
        Node::Fact(..) => 14,
        Node::Arith => 15,
        Node::Error => 16,
    }
}
