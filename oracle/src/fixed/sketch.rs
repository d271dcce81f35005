//! Small rule files by hand: names by their text, tables in the order used.

use crate::file::*;

#[derive(Default)]
pub struct Sketch {
    pub file: RuleFile,
}

/// One file of the list, and what it shows.
pub struct Entry {
    pub shows: String,
    pub bytes: Vec<u8>,
}

pub fn entry(shows: impl Into<String>, file: RuleFile) -> Entry {
    Entry {
        shows: shows.into(),
        bytes: crate::write::write(&file),
    }
}

/// A file with one level, address 0, whose key has this type.
pub fn one(ty: Type, node: impl FnOnce(&mut Sketch) -> u16) -> RuleFile {
    let mut sketch = Sketch::default();
    let key = sketch.ty(ty);
    sketch.keyed(key, node)
}

/// A file with one level, address 0, whose key is a record {a, b}; the patterns
/// of both are given.
pub fn two(a: Type, b: Type, nodes: impl FnOnce(&mut Sketch) -> (u16, u16)) -> RuleFile {
    let mut sketch = Sketch::default();
    let (a, b) = (sketch.ty(a), sketch.ty(b));
    let key = sketch.record_ty(&[("a", a), ("b", b)]);
    sketch.keyed(key, |s| {
        let (a, b) = nodes(s);
        s.record(&[("a", a), ("b", b)])
    })
}

/// A file with one level, address 0, whose key is a union u of x (disc 1, of
/// the given type) and y (disc 2, Int), then an Int field that is 1.
pub fn union_then_int(payload: Type, node: impl FnOnce(&mut Sketch) -> u16) -> RuleFile {
    let mut sketch = Sketch::default();
    let (x, y) = (sketch.ty(payload), sketch.ty(Type::Int));
    let union = sketch.union_ty(&[("x", 1, x), ("y", 2, y)]);
    let key = sketch.record_ty(&[("u", union), ("b", y)]);
    sketch.keyed(key, |s| {
        let (u, b) = (node(s), s.int(1));
        s.record(&[("u", u), ("b", b)])
    })
}

pub fn field(field: u16, steps: &[u32]) -> Path {
    Path {
        field,
        steps: steps.to_vec(),
    }
}

impl Sketch {
    pub fn keyed(mut self, key: u16, node: impl FnOnce(&mut Sketch) -> u16) -> RuleFile {
        let predicate = self.predicate(key);
        let node = node(&mut self);
        self.level(predicate, node, 0);
        self.file
    }

    pub fn name(&mut self, text: &str) -> u16 {
        let names = &mut self.file.names;
        let found = names.iter().position(|name| name == text.as_bytes());
        found.unwrap_or_else(|| {
            names.push(text.as_bytes().to_vec());
            names.len() - 1
        }) as u16
    }

    pub fn ty(&mut self, ty: Type) -> u16 {
        self.file.types.push(ty);
        self.file.types.len() as u16 - 1
    }

    pub fn record_ty(&mut self, fields: &[(&str, u16)]) -> u16 {
        let fields = fields.iter().map(|(name, ty)| (self.name(name), *ty));
        let fields = fields.collect();
        self.ty(Type::Record(fields))
    }

    pub fn union_ty(&mut self, alts: &[(&str, u32, u16)]) -> u16 {
        let alts = alts
            .iter()
            .map(|(name, disc, ty)| (self.name(name), *disc, *ty));
        let alts = alts.collect();
        self.ty(Type::Union(alts))
    }

    pub fn predicate(&mut self, key: u16) -> u16 {
        self.valued(key, NONE)
    }

    pub fn valued(&mut self, key: u16, value: u16) -> u16 {
        self.file.predicates.push(Predicate { key, value });
        self.file.predicates.len() as u16 - 1
    }

    pub fn node(&mut self, node: Node) -> u16 {
        self.file.nodes.push(node);
        self.file.nodes.len() as u16 - 1
    }

    pub fn int(&mut self, value: i64) -> u16 {
        self.node(Node::Int(value))
    }

    pub fn text(&mut self, text: &str) -> u16 {
        let name = self.name(text);
        self.node(Node::Str(name))
    }

    pub fn bytes(&mut self, bytes: &[u8]) -> u16 {
        self.node(Node::Bytes(bytes.to_vec()))
    }

    pub fn var(&mut self, name: &str) -> u16 {
        let name = self.name(name);
        self.node(Node::Var(name))
    }

    pub fn wildcard(&mut self) -> u16 {
        self.node(Node::Wildcard)
    }

    pub fn prefix(&mut self, text: &str) -> u16 {
        let name = self.name(text);
        self.node(Node::Prefix(name))
    }

    pub fn fuzzy(&mut self, text: &str, distance: u8, anchor: Anchor) -> u16 {
        let name = self.name(text);
        self.node(Node::Fuzzy(name, distance, anchor))
    }

    pub fn record(&mut self, fields: &[(&str, u16)]) -> u16 {
        let fields = fields.iter().map(|(name, node)| (self.name(name), *node));
        let fields = fields.collect();
        self.node(Node::Record(fields))
    }

    pub fn access(&mut self, name: &str, base: u16) -> u16 {
        let name = self.name(name);
        self.node(Node::KeyAccess(name, base))
    }

    pub fn value(&mut self, base: u16) -> u16 {
        self.node(Node::ValueAccess(base))
    }

    pub fn select(&mut self, name: &str, base: u16) -> u16 {
        let name = self.name(name);
        self.node(Node::Select(name, base))
    }

    pub fn fact(&mut self, predicate: u16, key: u16) -> u16 {
        self.node(Node::Fact(predicate, key))
    }

    pub fn bind(&mut self, name: &str, slot: Slot) {
        let name = self.name(name);
        self.file.bindings.push(Binding { name, slot });
    }

    pub fn hoist(&mut self, node: u16, name: &str) {
        let name = self.name(name);
        self.file.hoisted.push(Hoisted { node, name });
    }

    pub fn fetch(&mut self, address: u16, path: Path, register: u16) {
        self.file.fetched.push(Fetched {
            address,
            path,
            register,
        });
    }

    pub fn constrain(&mut self, name: &str, node: u16) {
        let name = self.name(name);
        self.file.constraints.push(Constraint { name, node });
    }

    pub fn compare(&mut self, op: Op, left: u16, right: u16) {
        self.file.comparisons.push(Comparison { op, left, right });
    }

    pub fn level(&mut self, predicate: u16, node: u16, address: u16) {
        self.file.levels.push(Level {
            predicate,
            node,
            address,
        });
    }
}
