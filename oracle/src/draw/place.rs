//! What a drawn name or read is expected to stand for. A guess, made so that
//! reads often resolve; no file depends on it being right.

use crate::file::{Fetched, MAX_STEPS, NONE, Node, Path, Slot, Type};

use super::query::Draft;

#[derive(Debug, Clone)]
pub enum Place {
    Slot(Slot),
    Unknown,
}

impl Draft<'_> {
    /// A read: a name or a hoisted fact, then some steps into it.
    pub fn read_chain(&mut self) -> (u16, Place) {
        let (mut node, mut place) = self.read_base();
        let steps = self.rng.weighted(&[10, 45, 30, 15]);
        for _ in 0..steps {
            (node, place) = self.read_step(node, place);
        }
        (node, place)
    }

    fn read_base(&mut self) -> (u16, Place) {
        if self.rng.chance(15) {
            return self.hoisted_fact();
        }
        let name = self.bound_name();
        let place = self.place_of(name);
        (self.push(Node::Var(name)), place)
    }

    pub fn place_of(&self, name: u16) -> Place {
        let found = self.env.iter().rev().find(|(bound, _)| *bound == name);
        found.map_or(Place::Unknown, |(_, slot)| Place::Slot(slot.clone()))
    }

    /// A Fact node, mostly with an entry that gives it a name.
    pub fn hoisted_fact(&mut self) -> (u16, Place) {
        let predicate = self.predicate();
        let key = self.leaf();
        let node = self.push(Node::Fact(predicate, key));
        let mut place = Place::Unknown;
        let entries = self.rng.weighted(&[20, 65, 15]);
        for entry in 0..entries {
            let name = self.bound_name();
            if entry == 0 {
                place = self.place_of(name);
            }
            self.file.hoisted.push(crate::file::Hoisted { node, name });
        }
        (node, place)
    }

    fn read_step(&mut self, base: u16, place: Place) -> (u16, Place) {
        let place = self.followed(place);
        if self.rng.chance(8) {
            return self.random_step(base);
        }
        match place {
            Place::Slot(Slot::Row(address, predicate)) if predicate != NONE => {
                let sides = self.file.predicates[predicate as usize];
                if sides.value != NONE && self.rng.chance(30) {
                    let node = self.push(Node::ValueAccess(base));
                    return (node, Place::Slot(Slot::Value(address, sides.value)));
                }
                self.key_step(base, address, None, sides.key)
            }
            Place::Slot(Slot::Key(address, ty)) => self.key_step(base, address, None, ty),
            Place::Slot(Slot::Field(address, path, ty)) => {
                self.key_step(base, address, Some(path), ty)
            }
            Place::Slot(Slot::Const(node)) => self.const_step(base, node),
            _ => self.random_step(base),
        }
    }

    /// Reading through a reference needs an entry that says where it was fetched.
    fn followed(&mut self, place: Place) -> Place {
        let Place::Slot(Slot::Field(address, path, ty)) = &place else {
            return place;
        };
        let Type::Fact(predicate) = self.file.types[*ty as usize] else {
            return place;
        };
        if !self.rng.chance(75) || path.steps.len() > MAX_STEPS {
            return place;
        }
        let register = self.address();
        for _ in 0..1 + self.rng.weighted(&[80, 20]) {
            let register = if self.rng.chance(75) {
                register
            } else {
                self.address()
            };
            self.file.fetched.push(Fetched {
                address: *address,
                path: path.clone(),
                register,
            });
        }
        Place::Slot(Slot::Row(register, predicate))
    }

    fn key_step(&mut self, base: u16, address: u16, path: Option<Path>, ty: u16) -> (u16, Place) {
        match self.file.types[ty as usize].clone() {
            Type::Record(fields) if !fields.is_empty() => {
                let at = self.rng.below(fields.len());
                let (name, ty) = fields[at];
                let node = self.push(Node::KeyAccess(name, base));
                (
                    node,
                    Place::Slot(Slot::Field(address, stepped(path, at as u32), ty)),
                )
            }
            Type::Union(alts) if !alts.is_empty() => {
                let (name, disc, ty) = alts[self.rng.below(alts.len())];
                let node = self.push(Node::Select(name, base));
                (
                    node,
                    Place::Slot(Slot::Field(address, stepped(path, disc), ty)),
                )
            }
            _ => self.random_step(base),
        }
    }

    fn const_step(&mut self, base: u16, constant: u16) -> (u16, Place) {
        match self.file.nodes[constant as usize].clone() {
            Node::Record(fields) if !fields.is_empty() => {
                let (name, child) = fields[self.rng.below(fields.len())];
                let node = self.push(Node::KeyAccess(name, base));
                (node, Place::Slot(Slot::Const(child)))
            }
            _ => self.random_step(base),
        }
    }

    fn random_step(&mut self, base: u16) -> (u16, Place) {
        let name = self.name();
        let node = match self.rng.below(3) {
            0 => Node::KeyAccess(name, base),
            1 => Node::ValueAccess(base),
            _ => Node::Select(name, base),
        };
        (self.push(node), Place::Unknown)
    }
}

fn stepped(path: Option<Path>, step: u32) -> Path {
    match path {
        None => Path {
            field: step as u16,
            steps: vec![],
        },
        Some(mut path) => {
            path.steps.push(step);
            path
        }
    }
}
