//! Files of which request [10] speaks: no diagnostics, no selects, levels whose own
//! nodes are records, wildcards or names, constraints that are Prefixes or Fuzzies.

use crate::file::*;
use crate::rng::Rng;

use super::names;
use super::query::Draft;
use super::schema::Size;

pub fn plain(rng: &mut Rng) -> RuleFile {
    let size = Size::draw(rng);
    let mut draft = Draft::new(rng, size);
    draft.plain_bindings(size.entries);
    for _ in 0..draft.rng.within(1, size.levels) {
        draft.plain_level();
    }
    draft.plain_constraints(size.entries);
    draft.plain_comparisons(size.entries);
    draft.trim();
    draft.file
}

impl Draft<'_> {
    fn plain_bindings(&mut self, entries: usize) {
        for _ in 0..self.rng.within(0, entries + 1) {
            let address = self.address();
            let slot = match self.rng.weighted(&[25, 10, 30, 35]) {
                0 => Some(Slot::Row(address, self.predicate())),
                1 => Some(Slot::Key(address, self.ty())),
                2 => Some(self.field_slot(address)),
                _ => {
                    let ty = self.ty();
                    self.literal(ty).map(Slot::Const)
                }
            };
            let name = self.fresh_name();
            if let Some(slot) = slot {
                self.env.push((name, slot.clone()));
                self.file.bindings.push(Binding { name, slot });
            }
        }
    }

    /// A name that stands for nothing yet.
    pub fn fresh_name(&mut self) -> u16 {
        let names = 0..self.file.names.len() as u16;
        let fresh = |name: &u16| self.env.iter().all(|(known, _)| known != name);
        let fresh: Vec<u16> = names.filter(fresh).collect();
        match self.rng.pick(&fresh) {
            Some(name) if self.rng.chance(80) => *name,
            _ => {
                let name = names::name(self.rng);
                self.file.names.push(name);
                self.file.names.len() as u16 - 1
            }
        }
    }

    fn plain_level(&mut self) {
        let predicate = self.predicate();
        let address = self.address();
        let ty = self.file.predicates[usize::from(predicate)].key;
        let used: Vec<u16> = self.file.levels.iter().map(|level| level.node).collect();
        let node = match self.rng.pick(&used).copied() {
            Some(node) if self.rng.chance(6) => node,
            _ => self.own_node(ty, address),
        };
        self.file.levels.push(Level {
            predicate,
            node,
            address,
        });
    }

    /// A level's own node.
    fn own_node(&mut self, ty: u16, address: u16) -> u16 {
        let top = |field: u32| Path {
            field: field as u16,
            steps: vec![],
        };
        match self.file.types[usize::from(ty)].clone() {
            Type::Record(fields) => match self.rng.weighted(&[85, 5, 10]) {
                0 => self.plain_record(&fields, |field| (address, top(field))),
                1 => self.push(Node::Wildcard),
                _ => self.fresh_var(Slot::Key(address, ty)),
            },
            Type::Union(_) if self.rng.chance(80) => self.plain_fitting(ty, (address, top(0))),
            _ => match self.rng.weighted(&[10, 50, 40]) {
                0 => self.push(Node::Wildcard),
                1 => self.fresh_var(Slot::Field(address, top(0), ty)),
                _ => self.plain_name(ty, address),
            },
        }
    }

    pub fn fresh_var(&mut self, slot: Slot) -> u16 {
        let name = self.fresh_name();
        self.env.push((name, slot));
        self.push(Node::Var(name))
    }

    /// The names that some level's field binds, with that field's type.
    fn captures(&self) -> Vec<(u16, u16)> {
        let new = self.env[self.file.bindings.len()..].iter();
        let fields = new.filter_map(|(name, slot)| match slot {
            Slot::Field(_, _, ty) => Some((*name, *ty)),
            _ => None,
        });
        fields.collect()
    }

    fn plain_constraints(&mut self, entries: usize) {
        let types = &self.file.types;
        let is_text = |ty: u16| matches!(types[usize::from(ty)], Type::Str);
        let texts = self.captures().into_iter().filter(|(_, ty)| is_text(*ty));
        let mut names: Vec<u16> = texts.map(|(name, _)| name).collect();
        if self.rng.chance(25) {
            names.extend(self.unread());
        }
        if names.is_empty() || self.rng.chance(25) {
            return;
        }
        for _ in 0..self.rng.within(1, entries + 1) {
            let name = names[self.rng.below(names.len())];
            let node = match self.rng.below(2) {
                0 => self.prefix(),
                _ => self.fuzzy(),
            };
            self.file.constraints.push(Constraint { name, node });
        }
    }

    /// The names whose constraints no level reads: starting ones, and whole keys.
    fn unread(&self) -> Vec<u16> {
        let starting = self.file.bindings.len();
        let whole = |slot: &Slot| matches!(slot, Slot::Key(..));
        let names = self.env.iter().enumerate();
        let names = names.filter(|(at, (_, slot))| *at < starting || whole(slot));
        names.map(|(_, (name, _))| *name).collect()
    }

    fn plain_comparisons(&mut self, entries: usize) {
        let captures = self.captures();
        if captures.is_empty() || self.rng.chance(25) {
            return;
        }
        for _ in 0..self.rng.within(1, entries + 2) {
            let (name, ty) = captures[self.rng.below(captures.len())];
            let mut left = self.push(Node::Var(name));
            let Some(mut right) = self.compared(ty) else {
                continue;
            };
            if self.rng.chance(40) {
                std::mem::swap(&mut left, &mut right);
            }
            let op = [Op::Lt, Op::Le, Op::Gt, Op::Ge][self.rng.below(4)];
            self.file.comparisons.push(Comparison { op, left, right });
        }
    }

    /// A constant, or some name.
    fn compared(&mut self, ty: u16) -> Option<u16> {
        if self.rng.chance(15) {
            let name = self.bound_name();
            return Some(self.push(Node::Var(name)));
        }
        self.literal(ty)
    }
}
