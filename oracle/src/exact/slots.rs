//! What a name or a read stands for.

use crate::file::*;

use super::value::Value;

/// A file's tables, and which of its nodes are constant.
pub struct Tables<'a> {
    pub file: &'a RuleFile,
    constant: Vec<bool>,
}

impl<'a> Tables<'a> {
    pub fn new(file: &'a RuleFile) -> Self {
        Self {
            file,
            constant: constants(&file.nodes),
        }
    }

    pub fn node(&self, node: u16) -> &'a Node {
        &self.file.nodes[usize::from(node)]
    }

    pub fn ty(&self, ty: u16) -> &'a Type {
        &self.file.types[usize::from(ty)]
    }

    pub fn text(&self, name: u16) -> &'a [u8] {
        &self.file.names[usize::from(name)]
    }

    pub fn key_type(&self, level: &Level) -> u16 {
        self.file.predicates[usize::from(level.predicate)].key
    }

    pub fn is_constant(&self, node: u16) -> bool {
        self.constant[usize::from(node)]
    }

    /// The slot that a pattern stands for, if any. A select leaves its mark in the
    /// plan, and a fact's value a diagnostic: no file that meets the conditions has
    /// one, so neither is followed here.
    pub fn resolve(&self, node: u16, bindings: &[Binding]) -> Option<Slot> {
        if self.is_constant(node) {
            return Some(Slot::Const(node));
        }
        match self.node(node) {
            Node::Var(name) => lookup(*name, bindings),
            Node::Fact(..) => {
                let mut hoisted = self.file.hoisted.iter();
                let first = hoisted.find(|hoisted| hoisted.node == node)?;
                lookup(first.name, bindings)
            }
            Node::KeyAccess(name, base) => {
                let base = self.resolve(*base, bindings)?;
                self.field(&self.followed(base)?, *name)
            }
            _ => None,
        }
    }

    /// The one value that a pattern gives at a type, if it gives all of it.
    pub fn constant(&self, node: u16, ty: u16, bindings: &[Binding]) -> Option<Value> {
        match (self.node(node), self.ty(ty)) {
            (Node::Var(name), _) => match lookup(*name, bindings)? {
                Slot::Const(node) => self.constant(node, ty, bindings),
                _ => None,
            },
            (Node::Int(number), Type::Int) => Some(Value::Int(*number)),
            (Node::Str(name), Type::Str) => Some(Value::Str(self.text(*name).to_vec())),
            (Node::Bytes(bytes), Type::Bytes) => Some(Value::Bytes(bytes.clone())),
            (Node::Record(entries), Type::Record(fields)) => {
                let values = fields.iter().map(|(name, ty)| {
                    let entry = first(entries, *name)?;
                    self.constant(entry, *ty, bindings)
                });
                values.collect::<Option<_>>().map(Value::Rec)
            }
            (Node::Record(entries), Type::Union(alts)) => {
                let [(name, payload)] = entries.as_slice() else {
                    return None;
                };
                let (_, disc, ty) = alts.iter().find(|(of, _, _)| of == name)?;
                let payload = self.constant(*payload, *ty, bindings)?;
                Some(Value::Uni(*disc, Box::new(payload)))
            }
            _ => None,
        }
    }

    /// A reference, as the row that it was fetched into.
    fn followed(&self, slot: Slot) -> Option<Slot> {
        let Slot::Field(address, path, ty) = &slot else {
            return Some(slot);
        };
        let Type::Fact(predicate) = self.ty(*ty) else {
            return Some(slot);
        };
        let mut fetched = self.file.fetched.iter();
        let first = fetched.find(|it| it.address == *address && it.path == *path)?;
        Some(Slot::Row(first.register, *predicate))
    }

    /// The field of that name inside a slot.
    fn field(&self, slot: &Slot, name: u16) -> Option<Slot> {
        match slot {
            Slot::Row(_, NONE) => None,
            Slot::Row(address, predicate) => {
                let key = self.file.predicates[usize::from(*predicate)].key;
                self.field_of_key(*address, key, name)
            }
            Slot::Key(address, ty) => self.field_of_key(*address, *ty, name),
            Slot::Field(address, path, ty) => {
                let (index, ty) = self.entry(*ty, name)?;
                Some(Slot::Field(*address, then(path, u32::from(index)), ty))
            }
            Slot::Const(node) => match self.node(*node) {
                Node::Record(entries) => first(entries, name).map(Slot::Const),
                _ => None,
            },
            Slot::Derived(_) | Slot::Value(..) => None,
        }
    }

    fn field_of_key(&self, address: u16, key: u16, name: u16) -> Option<Slot> {
        let (index, ty) = self.entry(key, name)?;
        Some(Slot::Field(address, top(index), ty))
    }

    /// A record type's field of that name: its index and its type.
    fn entry(&self, ty: u16, name: u16) -> Option<(u16, u16)> {
        let Type::Record(fields) = self.ty(ty) else {
            return None;
        };
        let index = fields.iter().position(|(field, _)| *field == name)?;
        Some((index as u16, fields[index].1))
    }
}

/// The last binding of a name.
pub fn lookup(name: u16, bindings: &[Binding]) -> Option<Slot> {
    let mut latest = bindings.iter().rev();
    let found = latest.find(|binding| binding.name == name)?;
    Some(found.slot.clone())
}

/// The first entry of that name.
pub fn first(entries: &[(u16, u16)], name: u16) -> Option<u16> {
    let mut entries = entries.iter();
    let found = entries.find(|(of, _)| *of == name)?;
    Some(found.1)
}

/// The path of a key's field.
pub fn top(field: u16) -> Path {
    Path {
        field,
        steps: vec![],
    }
}

/// One step deeper: a field's index, or a disc.
pub fn then(path: &Path, step: u32) -> Path {
    let mut path = path.clone();
    path.steps.push(step);
    path
}
