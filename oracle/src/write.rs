//! A rule file's bytes. The form of names, paths and slots is the plan's too.

use crate::file::*;

#[derive(Default)]
pub struct Writer {
    pub bytes: Vec<u8>,
}

impl Writer {
    pub fn u8(&mut self, value: u8) {
        self.bytes.push(value);
    }

    pub fn u16(&mut self, value: u16) {
        self.bytes.extend_from_slice(&value.to_le_bytes());
    }

    pub fn u32(&mut self, value: u32) {
        self.bytes.extend_from_slice(&value.to_le_bytes());
    }

    /// A count or length. One that does not fit u16 only ever stands in a plan
    /// that is longer than a plan may be, so its bytes are never seen.
    pub fn count(&mut self, value: usize) {
        self.u16(value as u16);
    }

    /// A u16 length, then the bytes.
    pub fn text(&mut self, bytes: &[u8]) {
        self.count(bytes.len());
        self.bytes.extend_from_slice(bytes);
    }

    fn short_text(&mut self, bytes: &[u8]) {
        self.u8(bytes.len() as u8);
        self.bytes.extend_from_slice(bytes);
    }

    pub fn path(&mut self, path: &Path) {
        self.u16(path.field);
        self.u8(path.steps.len() as u8);
        for &step in &path.steps {
            self.u32(step);
        }
    }

    pub fn anchor(&mut self, anchor: Anchor) {
        self.u8(match anchor {
            Anchor::Prefix => 0,
            Anchor::Whole => 1,
        });
    }

    pub fn binding(&mut self, binding: &Binding) {
        self.u16(binding.name);
        self.slot(&binding.slot);
    }

    fn slot(&mut self, slot: &Slot) {
        match slot {
            Slot::Row(address, predicate) => self.kind(0, &[*address, *predicate]),
            Slot::Key(address, ty) => self.kind(1, &[*address, *ty]),
            Slot::Derived(address) => self.kind(2, &[*address]),
            Slot::Field(address, path, ty) => {
                self.kind(3, &[*address]);
                self.path(path);
                self.u16(*ty);
            }
            Slot::Value(address, ty) => self.kind(4, &[*address, *ty]),
            Slot::Const(node) => self.kind(5, &[*node]),
        }
    }

    fn kind(&mut self, kind: u8, numbers: &[u16]) {
        self.u8(kind);
        for &number in numbers {
            self.u16(number);
        }
    }

    fn ty(&mut self, ty: &Type) {
        match ty {
            Type::Int => self.u8(0),
            Type::Str => self.u8(1),
            Type::Bytes => self.u8(2),
            Type::Fact(predicate) => self.kind(3, &[*predicate]),
            Type::Record(fields) => self.pairs(4, fields),
            Type::Union(alts) => {
                self.u8(5);
                self.u8(alts.len() as u8);
                for &(name, disc, ty) in alts {
                    self.u16(name);
                    self.u32(disc);
                    self.u16(ty);
                }
            }
        }
    }

    fn pairs(&mut self, kind: u8, pairs: &[(u16, u16)]) {
        self.u8(kind);
        self.u8(pairs.len() as u8);
        for &(name, child) in pairs {
            self.u16(name);
            self.u16(child);
        }
    }

    fn node(&mut self, node: &Node) {
        match node {
            Node::Int(value) => {
                self.u8(0);
                self.bytes.extend_from_slice(&value.to_le_bytes());
            }
            Node::Str(name) => self.kind(1, &[*name]),
            Node::Bytes(bytes) => {
                self.u8(2);
                self.short_text(bytes);
            }
            Node::Var(name) => self.kind(3, &[*name]),
            Node::Wildcard => self.u8(4),
            Node::Never => self.u8(5),
            Node::Prefix(name) => self.kind(6, &[*name]),
            Node::Fuzzy(name, distance, anchor) => {
                self.kind(7, &[*name]);
                self.u8(*distance);
                self.anchor(*anchor);
            }
            Node::Record(fields) => self.pairs(8, fields),
            Node::KeyAccess(name, base) => self.kind(9, &[*name, *base]),
            Node::ValueAccess(base) => self.kind(10, &[*base]),
            Node::Select(name, base) => self.kind(11, &[*name, *base]),
            Node::Disjunction => self.u8(12),
            Node::Subquery => self.u8(13),
            Node::Fact(predicate, key) => self.kind(14, &[*predicate, *key]),
            Node::Arith => self.u8(15),
            Node::Error => self.u8(16),
        }
    }

    fn comparison(&mut self, comparison: &Comparison) {
        self.u8(match comparison.op {
            Op::Lt => 0,
            Op::Le => 1,
            Op::Gt => 2,
            Op::Ge => 3,
        });
        self.u16(comparison.left);
        self.u16(comparison.right);
    }

    fn section<T>(&mut self, records: &[T], record: impl Fn(&mut Self, &T)) {
        self.count(records.len());
        for one in records {
            record(self, one);
        }
    }
}

/// The file's bytes, followed by the offset at which each section begins.
pub fn write_with_offsets(file: &RuleFile) -> (Vec<u8>, [usize; 10]) {
    let mut w = Writer::default();
    let mut offsets = [0; 10];
    w.section(&file.names, |w, name| w.short_text(name));
    offsets[1] = w.bytes.len();
    w.section(&file.types, Writer::ty);
    offsets[2] = w.bytes.len();
    w.section(&file.predicates, |w, p| {
        w.u16(p.key);
        w.u16(p.value);
    });
    offsets[3] = w.bytes.len();
    w.section(&file.nodes, Writer::node);
    offsets[4] = w.bytes.len();
    w.section(&file.bindings, Writer::binding);
    offsets[5] = w.bytes.len();
    w.section(&file.hoisted, |w, h| {
        w.u16(h.node);
        w.u16(h.name);
    });
    offsets[6] = w.bytes.len();
    w.section(&file.fetched, |w, f| {
        w.u16(f.address);
        w.path(&f.path);
        w.u16(f.register);
    });
    offsets[7] = w.bytes.len();
    w.section(&file.constraints, |w, c| {
        w.u16(c.name);
        w.u16(c.node);
    });
    offsets[8] = w.bytes.len();
    w.section(&file.comparisons, Writer::comparison);
    offsets[9] = w.bytes.len();
    w.section(&file.levels, |w, l| {
        w.u16(l.predicate);
        w.u16(l.node);
        w.u16(l.address);
    });
    (w.bytes, offsets)
}

pub fn write(file: &RuleFile) -> Vec<u8> {
    write_with_offsets(file).0
}
