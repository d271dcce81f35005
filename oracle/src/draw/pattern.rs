//! Patterns for a type: nodes, each below its parent.

use crate::file::{Anchor, Node, Path, Slot, Type};

use super::query::Draft;

/// Where a pattern stands, as far as it is known: the level's register and path.
pub type At = Option<(u16, Path)>;

impl Draft<'_> {
    /// A node meant for a field of this type.
    pub fn pattern(&mut self, ty: u16, at: At) -> u16 {
        if self.full() {
            return self.leaf();
        }
        match self.rng.weighted(&[56, 24, 9, 5, 6]) {
            0 => self.fitting(ty, at),
            1 => self.variable(ty, at),
            2 => self.read_chain().0,
            3 => self.push(Node::Wildcard),
            _ => self.odd(ty),
        }
    }

    /// A pattern of the type's own shape.
    pub fn fitting(&mut self, ty: u16, at: At) -> u16 {
        match self.file.types[ty as usize].clone() {
            Type::Int => self.int(),
            Type::Str => match self.rng.weighted(&[60, 20, 20]) {
                0 => self.text(),
                1 => self.prefix(),
                _ => self.fuzzy(),
            },
            Type::Bytes => self.byte_string(),
            Type::Fact(predicate) => self.reference(predicate),
            Type::Record(fields) => self.record_pattern(&fields, at),
            Type::Union(alts) => self.union_pattern(&alts, at),
        }
    }

    fn record_pattern(&mut self, fields: &[(u16, u16)], at: At) -> u16 {
        let whole = self.rng.chance(60);
        let mut given = vec![];
        for (index, &(name, ty)) in fields.iter().enumerate() {
            if !whole && self.rng.chance(25) {
                continue;
            }
            let child = self.pattern(ty, step(&at, index as u32));
            given.push((name, child));
            if self.rng.chance(4) {
                let again = self.pattern(ty, None);
                given.push((name, again));
            }
        }
        if self.rng.chance(4) {
            let extra = self.leaf();
            given.push((self.name(), extra));
        }
        if self.rng.chance(40) {
            self.rng.shuffle(&mut given);
        }
        self.push(Node::Record(given))
    }

    fn union_pattern(&mut self, alts: &[(u16, u32, u16)], at: At) -> u16 {
        let known = self.rng.pick(alts).copied();
        let mut given = match known {
            Some((name, disc, ty)) if self.rng.chance(92) => {
                let child = self.pattern(ty, step(&at, disc));
                vec![(name, child)]
            }
            _ => {
                let child = self.leaf();
                vec![(self.name(), child)]
            }
        };
        match self.rng.weighted(&[92, 4, 4]) {
            0 => {}
            1 => given.clear(),
            _ => {
                let child = self.leaf();
                given.push((self.name(), child));
            }
        }
        self.push(Node::Record(given))
    }

    /// A name: one that is bound already, or one that this field binds.
    fn variable(&mut self, ty: u16, at: At) -> u16 {
        let name = if self.rng.chance(35) {
            self.bound_name()
        } else {
            self.name()
        };
        let bound = self.env.iter().any(|(known, _)| *known == name);
        if let (false, Some((address, path))) = (bound, at) {
            self.env.push((name, Slot::Field(address, path, ty)));
        }
        self.push(Node::Var(name))
    }

    fn reference(&mut self, predicate: u16) -> u16 {
        let rows: Vec<u16> = self
            .env
            .iter()
            .filter(|(_, slot)| matches!(slot, Slot::Row(_, of) if *of == predicate))
            .map(|(name, _)| *name)
            .collect();
        match self.rng.pick(&rows).copied() {
            Some(name) if self.rng.chance(70) => self.push(Node::Var(name)),
            _ => self.hoisted_fact().0,
        }
    }

    /// Something that mostly does not fit.
    fn odd(&mut self, ty: u16) -> u16 {
        match self.rng.below(11) {
            0 => self.push(Node::Never),
            1 => self.push(Node::Disjunction),
            2 => self.push(Node::Subquery),
            3 => self.push(Node::Arith),
            4 => self.push(Node::Error),
            5 => self.hoisted_fact().0,
            6 => self.prefix(),
            7 => self.fuzzy(),
            8 => self.push(Node::Record(vec![])),
            9 => {
                let other = self.ty();
                self.constant(other)
            }
            _ => self.constant(ty),
        }
    }

    /// A constant node, of the type's shape where it has one.
    pub fn constant(&mut self, ty: u16) -> u16 {
        if self.full() {
            return self.int();
        }
        match self.file.types[ty as usize].clone() {
            Type::Int => self.int(),
            Type::Str => self.text(),
            Type::Bytes => self.byte_string(),
            Type::Fact(_) => self.int(),
            Type::Record(fields) => {
                let skip = self.rng.chance(25);
                let mut given = vec![];
                for (name, ty) in fields {
                    if skip && self.rng.chance(40) {
                        continue;
                    }
                    let child = self.constant(ty);
                    given.push((name, child));
                }
                self.push(Node::Record(given))
            }
            Type::Union(alts) => match self.rng.pick(&alts).copied() {
                None => self.push(Node::Record(vec![])),
                Some((name, _, ty)) => {
                    let child = self.constant(ty);
                    self.push(Node::Record(vec![(name, child)]))
                }
            },
        }
    }

    pub fn leaf(&mut self) -> u16 {
        match self.rng.below(8) {
            0 => self.int(),
            1 => self.text(),
            2 => self.byte_string(),
            3 => self.push(Node::Wildcard),
            4 => self.prefix(),
            5 => self.push(Node::Record(vec![])),
            _ => {
                let name = self.name();
                self.push(Node::Var(name))
            }
        }
    }

    pub fn int(&mut self) -> u16 {
        let value = match self.rng.weighted(&[50, 10, 10, 10, 20]) {
            0 => self.rng.below(9) as i64,
            1 => -1,
            2 => i64::MIN,
            3 => i64::MAX,
            _ => self.rng.bits() as i64,
        };
        self.push(Node::Int(value))
    }

    pub fn text(&mut self) -> u16 {
        let name = self.name();
        self.push(Node::Str(name))
    }

    pub fn prefix(&mut self) -> u16 {
        let name = self.name();
        self.push(Node::Prefix(name))
    }

    pub fn fuzzy(&mut self) -> u16 {
        let anchor = if self.rng.chance(50) {
            Anchor::Prefix
        } else {
            Anchor::Whole
        };
        let distance = if self.rng.chance(80) {
            self.rng.below(4)
        } else {
            self.rng.below(256)
        };
        let name = self.name();
        self.push(Node::Fuzzy(name, distance as u8, anchor))
    }

    pub fn byte_string(&mut self) -> u16 {
        let length = self.rng.weighted(&[15, 30, 30, 15, 10]);
        let byte = |draft: &mut Self| match draft.rng.below(4) {
            0 => 0,
            1 => 0xFF,
            _ => draft.rng.below(256) as u8,
        };
        let bytes = (0..length).map(|_| byte(self)).collect();
        self.push(Node::Bytes(bytes))
    }
}

fn step(at: &At, step: u32) -> At {
    at.as_ref().map(|(address, path)| {
        let mut path = path.clone();
        path.steps.push(step);
        (*address, path)
    })
}
