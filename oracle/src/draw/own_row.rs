//! Rows that are held against themselves: names and reads that stand for a field of
//! the level's own row, in fields, payloads and inner records, and as whole keys.

use crate::file::*;
use crate::rng::Rng;

use super::shape::level;

/// The names of the key's fields, of the inner ones, and of what is bound.
const FIELDS: u16 = 6;
const INNER: [u16; 2] = [6, 7];
const ALTERNATIVES: [u16; 2] = [8, 9];
const BOUND: u16 = 10;
const NAMES: u16 = 14;

const INT: u16 = 0;
const STR: u16 = 1;
const FACT: u16 = 2;
const RECORD: u16 = 3;
const UNION: u16 = 4;
const KEY: u16 = 5;

pub fn own_rows(rng: &mut Rng) -> RuleFile {
    let mut drawn = Drawn {
        file: tables(rng),
        fields: vec![],
        rng,
    };
    drawn.key();
    for name in BOUND..NAMES {
        if drawn.rng.chance(40) {
            let slot = drawn.slot();
            drawn.file.bindings.push(Binding { name, slot });
        }
    }
    for _ in 0..drawn.rng.within(1, 3) {
        let address = drawn.address();
        let node = drawn.own_node();
        drawn.file.levels.push(level(0, node as usize, address));
    }
    drawn.beside();
    drawn.file
}

fn tables(rng: &mut Rng) -> RuleFile {
    let scalar = |rng: &mut Rng| [INT, STR][rng.below(2)];
    let record = INNER.map(|name| (name, scalar(rng))).to_vec();
    let payloads = [scalar(rng), [STR, RECORD][rng.below(2)]];
    let union = (0..2).map(|at| (ALTERNATIVES[at], at as u32 + 1, payloads[at]));
    RuleFile {
        names: (0..NAMES as u8).map(|name| vec![b'a' + name]).collect(),
        types: vec![
            Type::Int,
            Type::Str,
            Type::Fact(0),
            Type::Record(record),
            Type::Union(union.collect()),
        ],
        predicates: vec![Predicate {
            key: KEY,
            value: NONE,
        }],
        ..RuleFile::default()
    }
}

struct Drawn<'a> {
    file: RuleFile,
    /// The types of the key's fields; none where the key is no record.
    fields: Vec<u16>,
    rng: &'a mut Rng,
}

impl Drawn<'_> {
    fn key(&mut self) {
        if self.rng.chance(8) {
            let scalar = self.file.types[self.rng.below(5)].clone();
            self.file.types.push(scalar);
            return;
        }
        let count = self.rng.within(2, FIELDS as usize);
        let kinds = [INT, STR, FACT, RECORD, UNION];
        self.fields = (0..count)
            .map(|_| kinds[self.rng.weighted(&[35, 25, 6, 16, 18])])
            .collect();
        let fields = self.fields.iter().enumerate();
        let fields = fields.map(|(name, ty)| (name as u16, *ty)).collect();
        self.file.types.push(Type::Record(fields));
    }

    /// Few, so that levels and slots mostly share one.
    fn address(&mut self) -> u16 {
        self.rng.weighted(&[80, 20]) as u16
    }

    /// A place in the key, with its type; sometimes one that the key lacks.
    fn place(&mut self) -> (Path, u16) {
        let at = self.rng.below(self.fields.len().max(1));
        let path = |steps| Path {
            field: at as u16,
            steps,
        };
        let inner = self.rng.below(2);
        match self.fields.get(at) {
            Some(&RECORD) if self.rng.chance(60) => {
                let Type::Record(fields) = &self.file.types[RECORD as usize] else {
                    unreachable!("the type is a record");
                };
                (path(vec![inner as u32]), fields[inner].1)
            }
            Some(&UNION) if self.rng.chance(60) => {
                let Type::Union(alts) = &self.file.types[UNION as usize] else {
                    unreachable!("the type is a union");
                };
                (path(vec![alts[inner].1]), alts[inner].2)
            }
            Some(&ty) => (path(vec![]), ty),
            None => (path(vec![7; self.rng.below(3)]), KEY),
        }
    }

    fn slot(&mut self) -> Slot {
        let address = self.address();
        match self.rng.weighted(&[50, 20, 20, 5, 5]) {
            0 => {
                let (path, ty) = self.place();
                Slot::Field(address, path, ty)
            }
            1 => Slot::Row(address, 0),
            2 => Slot::Key(address, KEY),
            3 => Slot::Derived(address),
            _ => Slot::Const(self.push(Node::Int(4))),
        }
    }

    fn push(&mut self, node: Node) -> u16 {
        self.file.nodes.push(node);
        self.file.nodes.len() as u16 - 1
    }

    fn own_node(&mut self) -> u16 {
        if self.fields.is_empty() {
            return self.pattern(KEY);
        }
        if self.rng.chance(12) {
            return self.read();
        }
        let mut given = vec![];
        for (name, ty) in self.fields.clone().into_iter().enumerate() {
            if self.rng.chance(90) {
                given.push((name as u16, self.pattern(ty)));
            }
        }
        self.push(Node::Record(given))
    }

    fn pattern(&mut self, ty: u16) -> u16 {
        match self.rng.weighted(&[50, 22, 20, 4, 4]) {
            0 => {
                let name = self.bound();
                self.push(Node::Var(name))
            }
            1 => self.read(),
            2 => self.of_type(ty),
            3 => self.push(Node::Wildcard),
            _ => self.push(Node::Prefix(0)),
        }
    }

    fn bound(&mut self) -> u16 {
        self.rng.within(BOUND as usize, NAMES as usize - 1) as u16
    }

    /// A name, and what is read of it; sometimes by way of a hoisted Fact.
    fn read(&mut self) -> u16 {
        let name = self.bound();
        let mut node = self.push(Node::Var(name));
        if self.rng.chance(15) {
            node = self.push(Node::Fact(0, node));
            self.file.hoisted.push(Hoisted { node, name });
        }
        for _ in 0..self.rng.weighted(&[25, 45, 25, 5]) {
            let inner = self.rng.below(2);
            let field = self.rng.below(self.fields.len().max(1)) as u16;
            let read = match self.rng.weighted(&[50, 25, 25]) {
                0 => Node::KeyAccess(field, node),
                1 => Node::KeyAccess(INNER[inner], node),
                _ => Node::Select(ALTERNATIVES[inner], node),
            };
            node = self.push(read);
        }
        node
    }

    /// What the type has inside, or a constant of it.
    fn of_type(&mut self, ty: u16) -> u16 {
        match self.file.types[ty as usize].clone() {
            Type::Str => self.push(Node::Str(0)),
            Type::Record(fields) => {
                let fields = fields.iter();
                let given = fields.map(|(name, ty)| (*name, self.pattern(*ty)));
                let given = given.collect();
                self.push(Node::Record(given))
            }
            Type::Union(alts) => {
                let (name, _, ty) = alts[self.rng.below(alts.len())];
                let payload = self.pattern(ty);
                self.push(Node::Record(vec![(name, payload)]))
            }
            _ => self.push(Node::Int(4)),
        }
    }

    /// Constraints and comparisons of the names.
    fn beside(&mut self) {
        for _ in 0..self.rng.weighted(&[60, 25, 15]) {
            let name = self.bound();
            let node = self.pattern(STR);
            self.file.constraints.push(Constraint { name, node });
        }
        for _ in 0..self.rng.weighted(&[70, 20, 10]) {
            let name = self.bound();
            let (left, right) = (self.push(Node::Var(name)), self.push(Node::Int(3)));
            let op = [Op::Lt, Op::Ge][self.rng.below(2)];
            self.file.comparisons.push(Comparison { op, left, right });
        }
    }
}
