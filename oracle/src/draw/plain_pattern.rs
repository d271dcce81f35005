//! Patterns that fit their types, and such as a walk passes over.

use crate::exact::slots::Tables;
use crate::file::*;

use super::query::Draft;

/// Where a pattern stands: the level's register and the path.
type Place = (u16, Path);

impl Draft<'_> {
    pub fn plain_pattern(&mut self, ty: u16, at: Place) -> u16 {
        if self.full() {
            return self.push(Node::Wildcard);
        }
        match self.rng.weighted(&[55, 17, 17, 5, 3, 3]) {
            0 => self.plain_fitting(ty, at),
            1 => self.fresh_var(Slot::Field(at.0, at.1, ty)),
            2 => self.plain_read(ty, at.0),
            3 => self.push(Node::Wildcard),
            4 => self.passed_over(),
            _ => self.record_at_leaf(ty, at),
        }
    }

    /// A pattern of the type's own shape.
    pub fn plain_fitting(&mut self, ty: u16, at: Place) -> u16 {
        match self.file.types[usize::from(ty)].clone() {
            Type::Int => self.int(),
            Type::Str => match self.rng.weighted(&[60, 20, 20]) {
                0 => self.text(),
                1 => self.prefix(),
                _ => self.fuzzy(),
            },
            Type::Bytes => self.byte_string(),
            Type::Fact(_) => self.plain_read(ty, at.0),
            Type::Record(fields) => self.plain_record(&fields, |step| stepped(&at, step)),
            Type::Union(alts) => match self.rng.pick(&alts).copied() {
                None => self.push(Node::Wildcard),
                Some((name, disc, ty)) => {
                    let payload = self.plain_pattern(ty, stepped(&at, disc));
                    self.push(Node::Record(vec![(name, payload)]))
                }
            },
        }
    }

    /// A record's fields; some are missing, given twice, or not the type's.
    pub fn plain_record(&mut self, fields: &[(u16, u16)], at: impl Fn(u32) -> Place) -> u16 {
        let mut given = vec![];
        for (index, &(name, ty)) in fields.iter().enumerate() {
            if self.rng.chance(8) {
                continue;
            }
            let child = self.plain_pattern(ty, at(index as u32));
            given.push((name, child));
            if self.rng.chance(3) {
                let again = self.leaf();
                given.push((name, again));
            }
        }
        if self.rng.chance(4) {
            let extra = self.leaf();
            given.push((self.name(), extra));
        }
        if self.rng.chance(20) {
            // The first entry of a name stays the first.
            given.sort_by_key(|(name, _)| *name);
        }
        self.push(Node::Record(given))
    }

    fn passed_over(&mut self) -> u16 {
        let node = [Node::Subquery, Node::Error][self.rng.below(2)].clone();
        self.push(node)
    }

    /// A record that is no constant where the type has no inside.
    fn record_at_leaf(&mut self, ty: u16, at: Place) -> u16 {
        if !self.file.types[usize::from(ty)].children().is_empty() {
            return self.plain_fitting(ty, at);
        }
        let name = self.name();
        let inner = match self.rng.below(2) {
            0 => self.push(Node::Wildcard),
            _ => self.push(Node::Var(name)),
        };
        self.push(Node::Record(vec![(name, inner)]))
    }

    /// A constant of the type's shape, where there is one.
    pub fn literal(&mut self, ty: u16) -> Option<u16> {
        if self.full() {
            return None;
        }
        match self.file.types[usize::from(ty)].clone() {
            Type::Int => Some(self.int()),
            Type::Str => Some(self.text()),
            Type::Bytes => Some(self.byte_string()),
            Type::Fact(_) => None,
            Type::Record(fields) => {
                let whole = self.rng.chance(80);
                let mut given = vec![];
                for (name, ty) in fields {
                    match self.literal(ty) {
                        Some(child) if whole || self.rng.chance(70) => given.push((name, child)),
                        _ => {}
                    }
                }
                Some(self.push(Node::Record(given)))
            }
            Type::Union(alts) => {
                let (name, _, ty) = *self.rng.pick(&alts)?;
                let payload = self.literal(ty)?;
                Some(self.push(Node::Record(vec![(name, payload)])))
            }
        }
    }

    /// A name that stands for something which fits a type, or a new one.
    pub fn plain_name(&mut self, ty: u16, address: u16) -> u16 {
        let fitting = |(name, slot): &(u16, Slot)| self.suits(slot, ty).then_some(*name);
        let fitting: Vec<u16> = self.env.iter().filter_map(fitting).collect();
        match self.rng.pick(&fitting) {
            Some(name) => self.push(Node::Var(*name)),
            None => {
                let path = Path {
                    field: 0,
                    steps: vec![],
                };
                self.fresh_var(Slot::Field(address, path, ty))
            }
        }
    }

    /// A name or a read of what is bound; a wildcard where none is met that fits.
    fn plain_read(&mut self, ty: u16, address: u16) -> u16 {
        for _ in 0..6 {
            let Some((name, slot)) = self.rng.pick(&self.env).cloned() else {
                break;
            };
            let (mut node, mut slot) = (self.push(Node::Var(name)), slot);
            if self.rng.chance(10) {
                let (predicate, key) = (self.predicate(), self.leaf());
                node = self.push(Node::Fact(predicate, key));
                self.file.hoisted.push(Hoisted { node, name });
            }
            for _ in 0..self.rng.below(4) {
                if let Some(deeper) = self.plain_step(node, &slot) {
                    (node, slot) = deeper;
                }
            }
            let own = matches!(slot, Slot::Field(of, _, _) if of == address);
            if self.suits(&slot, ty) && (!own || self.rng.chance(40)) {
                return node;
            }
        }
        self.push(Node::Wildcard)
    }

    fn suits(&self, slot: &Slot, ty: u16) -> bool {
        let here = &self.file.types[usize::from(ty)];
        match slot {
            Slot::Row(_, predicate) => *here == Type::Fact(*predicate),
            Slot::Field(_, _, of) => {
                let there = &self.file.types[usize::from(*of)];
                there == here || there.children().is_empty() && here.children().is_empty()
            }
            Slot::Const(node) => {
                let tables = Tables::new(&self.file);
                let opened = matches!(
                    (tables.node(*node), here),
                    (Node::Record(_), Type::Record(_))
                );
                opened || tables.constant(*node, ty, &[]).is_some()
            }
            _ => false,
        }
    }

    /// One field deeper, by an access.
    fn plain_step(&mut self, base: u16, slot: &Slot) -> Option<(u16, Slot)> {
        let (address, path, ty) = match slot {
            Slot::Row(address, predicate) => {
                let key = self.file.predicates[usize::from(*predicate)].key;
                (*address, None, key)
            }
            Slot::Key(address, ty) => (*address, None, *ty),
            Slot::Field(address, path, ty) => self.fetched_row(*address, path, *ty)?,
            Slot::Const(node) => return self.constant_step(base, *node),
            _ => return None,
        };
        let Type::Record(fields) = self.file.types[usize::from(ty)].clone() else {
            return None;
        };
        let at = self.rng.below(fields.len().max(1));
        let (name, ty) = *fields.get(at)?;
        let path = match path {
            None => Path {
                field: at as u16,
                steps: vec![],
            },
            Some(path) => stepped(&(address, path), at as u32).1,
        };
        let node = self.push(Node::KeyAccess(name, base));
        Some((node, Slot::Field(address, path, ty)))
    }

    /// A field to be read into: of a reference, the row that it is fetched into.
    fn fetched_row(
        &mut self,
        address: u16,
        path: &Path,
        ty: u16,
    ) -> Option<(u16, Option<Path>, u16)> {
        let Type::Fact(predicate) = self.file.types[usize::from(ty)] else {
            return Some((address, Some(path.clone()), ty));
        };
        let key = self.file.predicates[usize::from(predicate)].key;
        let mut fetched = self.file.fetched.iter();
        if let Some(known) = fetched.find(|it| it.address == address && it.path == *path) {
            return Some((known.register, None, key));
        }
        let register = self.address();
        self.file.fetched.push(Fetched {
            address,
            path: path.clone(),
            register,
        });
        Some((register, None, key))
    }

    fn constant_step(&mut self, base: u16, constant: u16) -> Option<(u16, Slot)> {
        let Node::Record(entries) = &self.file.nodes[usize::from(constant)] else {
            return None;
        };
        let (name, entry) = *self.rng.pick(entries)?;
        let node = self.push(Node::KeyAccess(name, base));
        Some((node, Slot::Const(entry)))
    }
}

fn stepped((address, path): &Place, step: u32) -> Place {
    let mut path = path.clone();
    path.steps.push(step);
    (*address, path)
}
