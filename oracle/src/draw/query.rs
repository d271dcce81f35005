//! A whole rule file: tables, then levels, then what constrains their names.

use crate::file::*;
use crate::rng::Rng;

use super::pattern::At;
use super::schema::{self, Size};

/// A file while it is drawn.
pub struct Draft<'a> {
    pub rng: &'a mut Rng,
    pub file: RuleFile,
    /// What each name is taken to stand for, starting bindings first.
    pub env: Vec<(u16, Slot)>,
    most_nodes: usize,
}

pub fn query(rng: &mut Rng) -> RuleFile {
    let size = Size::draw(rng);
    let mut draft = Draft::new(rng, size);
    draft.bindings(size.entries);
    draft.levels(size.levels);
    draft.constraints(size.entries);
    draft.comparisons(size.entries);
    draft.noise();
    draft.trim();
    draft.file
}

impl<'a> Draft<'a> {
    /// Names, types and predicates, and nothing that uses them.
    pub fn new(rng: &'a mut Rng, size: Size) -> Self {
        let file = schema::draw(rng, size);
        Self {
            rng,
            file,
            env: vec![],
            most_nodes: size.nodes,
        }
    }
}

impl Draft<'_> {
    pub fn push(&mut self, node: Node) -> u16 {
        self.file.nodes.push(node);
        (self.file.nodes.len() - 1) as u16
    }

    pub fn full(&self) -> bool {
        self.file.nodes.len() >= self.most_nodes
    }

    pub fn name(&mut self) -> u16 {
        self.rng.below(self.file.names.len()) as u16
    }

    pub fn ty(&mut self) -> u16 {
        self.rng.below(self.file.types.len()) as u16
    }

    pub fn predicate(&mut self) -> u16 {
        self.rng.below(self.file.predicates.len()) as u16
    }

    /// Few registers, so that levels and bindings often share one.
    pub fn address(&mut self) -> u16 {
        if self.rng.chance(97) {
            self.rng.below(5) as u16
        } else {
            self.rng.bits() as u16
        }
    }

    pub fn bound_name(&mut self) -> u16 {
        match self.rng.pick(&self.env) {
            Some((name, _)) if self.rng.chance(92) => *name,
            _ => self.name(),
        }
    }

    fn bindings(&mut self, entries: usize) {
        for _ in 0..self.rng.within(0, entries + 1) {
            let name = self.name();
            let slot = self.slot();
            self.env.push((name, slot.clone()));
            self.file.bindings.push(Binding { name, slot });
        }
    }

    fn slot(&mut self) -> Slot {
        let address = self.address();
        match self.rng.weighted(&[22, 14, 6, 26, 8, 24]) {
            0 if self.rng.chance(8) => Slot::Row(address, NONE),
            0 => Slot::Row(address, self.predicate()),
            1 => Slot::Key(address, self.key_type()),
            2 => Slot::Derived(address),
            3 => self.field_slot(address),
            4 => Slot::Value(address, self.ty()),
            _ => {
                let ty = self.ty();
                Slot::Const(self.constant(ty))
            }
        }
    }

    fn key_type(&mut self) -> u16 {
        if self.rng.chance(70) {
            let predicate = self.predicate();
            self.file.predicates[predicate as usize].key
        } else {
            self.ty()
        }
    }

    pub fn field_slot(&mut self, address: u16) -> Slot {
        let ty = self.place_type();
        let room = MAX_DEPTH - depths(&self.file.types)[ty as usize];
        let steps = match self.rng.weighted(&[57, 25, 10, 3, 5]) {
            4 => room,
            few => few.min(room),
        };
        let wide = self.rng.chance(4);
        let path = Path {
            field: if wide {
                self.rng.bits() as u16
            } else {
                self.rng.below(4) as u16
            },
            steps: (0..steps).map(|_| self.step(wide)).collect(),
        };
        Slot::Field(address, path, ty)
    }

    fn step(&mut self, wide: bool) -> u32 {
        if wide {
            self.rng.bits() as u32
        } else {
            self.rng.below(4) as u32
        }
    }

    /// A type to be read into: mostly one that has an inside.
    fn place_type(&mut self) -> u16 {
        let any = self.ty();
        let inside: Vec<u16> = (0..self.file.types.len() as u16)
            .filter(|&ty| !self.file.types[ty as usize].children().is_empty())
            .collect();
        match self.rng.pick(&inside) {
            Some(&ty) if self.rng.chance(55) => ty,
            _ => any,
        }
    }

    fn levels(&mut self, most: usize) {
        let least = usize::from(self.rng.chance(95));
        let count = self.rng.within(least, most);
        for _ in 0..count {
            let predicate = self.predicate();
            let address = self.address();
            let node = self.level_node(predicate, address);
            self.file.levels.push(Level {
                predicate,
                node,
                address,
            });
        }
    }

    fn level_node(&mut self, predicate: u16, address: u16) -> u16 {
        let used: Vec<u16> = self.file.levels.iter().map(|level| level.node).collect();
        match self.rng.pick(&used).copied() {
            Some(node) if self.rng.chance(12) => return node,
            _ => {}
        }
        let ty = self.file.predicates[predicate as usize].key;
        let top = |field: u32| Path {
            field: field as u16,
            steps: vec![],
        };
        let at = |field| -> At { Some((address, top(field))) };
        match self.file.types[ty as usize].clone() {
            Type::Record(fields) if self.rng.chance(78) => self.key_record(&fields, at),
            Type::Record(_) => self.whole_key(ty, address),
            _ if self.rng.chance(60) => self.fitting(ty, at(0)),
            _ => self.pattern(ty, at(0)),
        }
    }

    /// A record key, field by field.
    fn key_record(&mut self, fields: &[(u16, u16)], at: impl Fn(u32) -> At) -> u16 {
        let mut given = vec![];
        let whole = self.rng.chance(75);
        for (index, &(name, ty)) in fields.iter().enumerate() {
            if !whole && self.rng.chance(20) {
                continue;
            }
            let child = self.pattern(ty, at(index as u32));
            given.push((name, child));
            if self.rng.chance(3) {
                let again = self.leaf();
                given.push((name, again));
            }
        }
        if self.rng.chance(30) {
            self.rng.shuffle(&mut given);
        }
        self.push(Node::Record(given))
    }

    /// A record key in one pattern that is not a record.
    fn whole_key(&mut self, ty: u16, address: u16) -> u16 {
        match self.rng.weighted(&[12, 50, 20, 10, 8]) {
            0 => self.push(Node::Wildcard),
            1 => {
                let name = if self.rng.chance(60) {
                    self.bound_name()
                } else {
                    self.name()
                };
                if self.env.iter().all(|(known, _)| *known != name) {
                    self.env.push((name, Slot::Key(address, ty)));
                }
                self.push(Node::Var(name))
            }
            2 => self.read_chain().0,
            3 => self.hoisted_fact().0,
            _ => self.pattern(ty, None),
        }
    }

    /// A name that some level's field binds, with that field's type.
    fn captured(&mut self) -> (u16, u16) {
        let captured: Vec<(u16, u16)> = self.env[self.file.bindings.len()..]
            .iter()
            .filter_map(|(name, slot)| match slot {
                Slot::Field(_, _, ty) => Some((*name, *ty)),
                _ => None,
            })
            .collect();
        match self.rng.pick(&captured).copied() {
            Some(found) if self.rng.chance(88) => found,
            _ => (self.name(), self.ty()),
        }
    }

    fn constraints(&mut self, entries: usize) {
        if self.rng.chance(45) {
            return;
        }
        for _ in 0..self.rng.within(1, entries + 1) {
            let (name, ty) = self.captured();
            let node = self.constraint_node(ty);
            self.file.constraints.push(Constraint { name, node });
        }
    }

    fn constraint_node(&mut self, ty: u16) -> u16 {
        let text = matches!(self.file.types[ty as usize], Type::Str);
        match self.rng.weighted(if text {
            &[25, 30, 35, 10]
        } else {
            &[70, 6, 6, 18]
        }) {
            0 => self.constant(ty),
            1 => self.prefix(),
            2 => self.fuzzy(),
            _ => self.any_node(),
        }
    }

    /// A node already there, wherever it stands, or a new one.
    fn any_node(&mut self) -> u16 {
        if !self.file.nodes.is_empty() && self.rng.chance(60) {
            return self.rng.below(self.file.nodes.len()) as u16;
        }
        self.leaf()
    }

    fn comparisons(&mut self, entries: usize) {
        if self.rng.chance(45) {
            return;
        }
        let mut subject = self.captured();
        for _ in 0..self.rng.within(1, entries + 2) {
            if self.rng.chance(40) {
                subject = self.captured();
            }
            let (name, ty) = subject;
            let mut left = self.push(Node::Var(name));
            let mut right = match self.rng.weighted(&[72, 10, 8, 10]) {
                0 => self.constant(ty),
                1 => {
                    let other = self.bound_name();
                    self.push(Node::Var(other))
                }
                2 => self.push(Node::Var(name)),
                _ => self.any_node(),
            };
            if self.rng.chance(40) {
                std::mem::swap(&mut left, &mut right);
            }
            let op = [Op::Lt, Op::Le, Op::Gt, Op::Ge][self.rng.below(4)];
            self.file.comparisons.push(Comparison { op, left, right });
        }
    }

    /// Entries that nothing above aims at.
    fn noise(&mut self) {
        if self.rng.chance(10) && !self.file.nodes.is_empty() {
            let node = self.rng.below(self.file.nodes.len()) as u16;
            let name = self.name();
            let at = self.rng.below(self.file.hoisted.len() + 1);
            self.file.hoisted.insert(at, Hoisted { node, name });
        }
        if self.rng.chance(10) {
            let path = Path {
                field: self.rng.below(3) as u16,
                steps: (0..self.rng.below(3))
                    .map(|_| self.rng.below(3) as u32)
                    .collect(),
            };
            let (address, register) = (self.address(), self.address());
            let at = self.rng.below(self.file.fetched.len() + 1);
            self.file.fetched.insert(
                at,
                Fetched {
                    address,
                    path,
                    register,
                },
            );
        }
    }

    /// Within the sections' limits, whatever was drawn.
    pub fn trim(&mut self) {
        self.file.hoisted.truncate(LIMITS[5]);
        self.file.fetched.truncate(LIMITS[6]);
    }
}
