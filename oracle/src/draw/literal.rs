//! Constants at fields of every type, by every way in which one comes there: written,
//! by a name, a read or a hoisted Fact, in a whole key, an opened record or a payload.
//! All of them fit, but often one of them, or of the constraints, has another kind.

use crate::file::*;
use crate::rng::Rng;

use super::shape::{level, predicate};

/// Names: of fields and alternatives, then those that stand for something.
const M: u16 = 0;
const N: u16 = 1;
const X: u16 = 2;
const Y: u16 = 3;
const Z: u16 = 4;
const INNER: u16 = 5;
const FIELDS: [u16; 4] = [6, 7, 8, 9];
const FIRST: u16 = 10;
const NAMES: u16 = 40;

const INT: u16 = 0;
const STR: u16 = 1;
const BYTES: u16 = 2;
const RECORD: u16 = 3;
const UNION: u16 = 4;
const NESTED: u16 = 5;
const EMPTY: u16 = 6;
const FACT: u16 = 7;

pub fn literals(rng: &mut Rng) -> RuleFile {
    let mut drawn = Drawn {
        file: tables(),
        names: FIRST,
        rng,
    };
    for address in 0..drawn.rng.within(1, 3) as u16 {
        let key = drawn.key();
        let node = drawn.own_node(key);
        drawn.file.predicates.push(predicate(key as usize));
        let of = drawn.file.predicates.len() as u16 - 1;
        drawn.file.levels.push(level(of, node as usize, address));
    }
    for _ in 0..drawn.rng.weighted(&[30, 50, 20]) {
        drawn.spoil();
    }
    drawn.file
}

fn tables() -> RuleFile {
    RuleFile {
        names: (0..NAMES as u8).map(|name| vec![b'A' + name]).collect(),
        types: vec![
            Type::Int,
            Type::Str,
            Type::Bytes,
            Type::Record(vec![(M, INT), (N, STR)]),
            Type::Union(vec![(X, 1, INT), (Y, 2, STR), (Z, 3, RECORD)]),
            Type::Record(vec![(M, RECORD), (N, UNION), (INNER, BYTES)]),
            Type::Record(vec![]),
            Type::Fact(0),
        ],
        predicates: vec![predicate(INT as usize)],
        ..RuleFile::default()
    }
}

struct Drawn<'a> {
    file: RuleFile,
    /// The next name that stands for nothing yet.
    names: u16,
    rng: &'a mut Rng,
}

impl Drawn<'_> {
    /// A key's type: mostly a record of its own.
    fn key(&mut self) -> u16 {
        let whole = [INT, STR, UNION, RECORD, NESTED, EMPTY];
        if self.rng.chance(45) {
            return whole[self.rng.below(whole.len())];
        }
        let kinds = [INT, STR, BYTES, RECORD, UNION, NESTED, EMPTY, FACT];
        let count = self.rng.within(1, FIELDS.len());
        let fields = FIELDS[..count].iter().map(|&name| {
            let ty = kinds[self.rng.weighted(&[18, 18, 10, 18, 18, 10, 4, 4])];
            (name, ty)
        });
        let fields = fields.collect();
        self.file.types.push(Type::Record(fields));
        self.file.types.len() as u16 - 1
    }

    fn push(&mut self, node: Node) -> u16 {
        self.file.nodes.push(node);
        self.file.nodes.len() as u16 - 1
    }

    /// A name that nothing has yet, or one of the last ones where there is none left.
    fn fresh(&mut self) -> u16 {
        let name = self.names.min(NAMES - 1);
        self.names += 1;
        name
    }

    /// A record is mostly written as one, so that its fields are met; any other pattern of
    /// it is a whole key.
    fn own_node(&mut self, key: u16) -> u16 {
        match self.file.types[key as usize].clone() {
            Type::Record(fields) if fields.is_empty() && self.rng.chance(60) => {
                let node = self.any_constant();
                let name = self.bound(node);
                self.push(Node::Var(name))
            }
            Type::Record(fields) if self.rng.chance(70) => self.record(&fields),
            _ => self.pattern(key),
        }
    }

    fn record(&mut self, fields: &[(u16, u16)]) -> u16 {
        let mut given = vec![];
        for &(name, ty) in fields {
            if self.rng.chance(92) {
                given.push((name, self.pattern(ty)));
            }
        }
        self.push(Node::Record(given))
    }

    fn pattern(&mut self, ty: u16) -> u16 {
        match self.rng.weighted(&[34, 16, 12, 10, 20, 4, 4]) {
            0 => self.constant(ty),
            1 => self.named(ty),
            2 => self.read(ty),
            3 => self.hoisted(ty),
            4 => self.inside(ty),
            5 => self.push(Node::Wildcard),
            _ => self.captured(),
        }
    }

    /// A constant of the type; some records lack a field.
    fn constant(&mut self, ty: u16) -> u16 {
        let node = match self.file.types[ty as usize].clone() {
            Type::Int | Type::Fact(_) => Node::Int(4),
            Type::Str => Node::Str(M),
            Type::Bytes => Node::Bytes(vec![7]),
            Type::Record(fields) => {
                let lacks = self.rng.chance(20);
                let mut given = vec![];
                for (name, ty) in fields {
                    if !lacks || self.rng.chance(60) {
                        given.push((name, self.constant(ty)));
                    }
                }
                Node::Record(given)
            }
            Type::Union(alts) => {
                let (name, _, ty) = alts[self.rng.below(alts.len())];
                let payload = self.constant(ty);
                Node::Record(vec![(name, payload)])
            }
        };
        self.push(node)
    }

    fn bound(&mut self, node: u16) -> u16 {
        let name = self.fresh();
        let slot = Slot::Const(node);
        self.file.bindings.push(Binding { name, slot });
        name
    }

    fn named(&mut self, ty: u16) -> u16 {
        let node = self.constant(ty);
        let name = self.bound(node);
        self.push(Node::Var(name))
    }

    /// A field of a record that a name stands for, or of a record in that.
    fn read(&mut self, ty: u16) -> u16 {
        let mut node = self.constant(ty);
        let steps = self.rng.within(1, 2);
        for _ in 0..steps {
            node = self.push(Node::Record(vec![(INNER, node)]));
        }
        let name = self.bound(node);
        let mut read = self.push(Node::Var(name));
        for _ in 0..steps {
            read = self.push(Node::KeyAccess(INNER, read));
        }
        read
    }

    fn hoisted(&mut self, ty: u16) -> u16 {
        let node = self.constant(ty);
        let name = self.bound(node);
        let key = self.push(Node::Wildcard);
        let node = self.push(Node::Fact(0, key));
        self.file.hoisted.push(Hoisted { node, name });
        node
    }

    /// What a record or a union has inside, each by its own way.
    fn inside(&mut self, ty: u16) -> u16 {
        match self.file.types[ty as usize].clone() {
            Type::Record(fields) => self.record(&fields),
            Type::Union(alts) => {
                let (name, _, ty) = alts[self.rng.below(alts.len())];
                let payload = self.pattern(ty);
                self.push(Node::Record(vec![(name, payload)]))
            }
            _ => self.constant(ty),
        }
    }

    /// A new name, with constraints and comparisons of any kind.
    fn captured(&mut self) -> u16 {
        let name = self.fresh();
        if self.rng.chance(50) {
            let node = self.any_constant();
            self.file.constraints.push(Constraint { name, node });
        }
        if self.rng.chance(50) {
            let (left, right) = (self.push(Node::Var(name)), self.any_constant());
            let op = [Op::Lt, Op::Ge][self.rng.below(2)];
            self.file.comparisons.push(Comparison { op, left, right });
        }
        self.push(Node::Var(name))
    }

    fn any_constant(&mut self) -> u16 {
        let ty = [INT, STR, BYTES, RECORD][self.rng.below(4)];
        self.constant(ty)
    }

    /// A constant without children becomes one of another kind, or a record of one field
    /// gets another name for it.
    fn spoil(&mut self) {
        if self.file.nodes.is_empty() {
            return;
        }
        let at = self.rng.below(self.file.nodes.len());
        let kinds = [
            Node::Int(9),
            Node::Str(N),
            Node::Bytes(vec![]),
            Node::Record(vec![]),
        ];
        let other = kinds[self.rng.below(4)].clone();
        match &mut self.file.nodes[at] {
            Node::Int(_) | Node::Str(_) | Node::Bytes(_) => self.file.nodes[at] = other,
            Node::Record(fields) if fields.len() == 1 => fields[0].0 = Y,
            _ => {}
        }
    }
}
