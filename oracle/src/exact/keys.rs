//! Drawn keys: built after a level's pattern, changed in one place, and random ones;
//! with registers and a rule for fuzzy texts.

use crate::file::*;
use crate::rng::Rng;

use super::given::{Given, Rule};
use super::matcher::Matcher;
use super::slots::{Tables, first, lookup, then, top};
use super::value::Value;

/// How large a value of each type is at most, none where a type has no values.
pub fn sizes(types: &[Type]) -> Vec<Option<usize>> {
    let mut sizes: Vec<Option<usize>> = vec![];
    for ty in types {
        let mut children = ty.children().into_iter().map(|ty| sizes[usize::from(ty)]);
        sizes.push(match ty {
            Type::Record(_) => {
                children.try_fold(1, |sum: usize, size| Some(sum.saturating_add(size?)))
            }
            Type::Union(_) => children.flatten().max().map(|size| size.saturating_add(1)),
            _ => Some(1),
        });
    }
    sizes
}

/// Draws for one level. What registers hold is drawn where a pattern first reads it.
pub struct Keys<'a> {
    pub tables: &'a Tables<'a>,
    pub level: &'a Level,
    pub folded: &'a [usize],
    pub sizes: &'a [Option<usize>],
    pub given: Given,
    pub rng: &'a mut Rng,
}

/// A key while it is built: what is bound, and which paths are to equal which.
struct Build {
    bindings: Vec<Binding>,
    equal: Vec<(Path, Path)>,
}

/// How often a text or a number is drawn until it fits.
const TRIES: usize = 8;

pub fn rule(rng: &mut Rng) -> Rule {
    match rng.weighted(&[20, 10, 70]) {
        0 => Rule::Always,
        1 => Rule::Never,
        _ => Rule::Half(rng.bits()),
    }
}

impl Keys<'_> {
    fn key_type(&self) -> u16 {
        self.tables.key_type(self.level)
    }

    pub fn random(&mut self) -> Value {
        self.any(self.key_type())
    }

    /// A key after the pattern, which mostly accepts it.
    pub fn built(&mut self, before: &[Binding]) -> Value {
        let mut build = Build {
            bindings: before.to_vec(),
            equal: vec![],
        };
        let ty = self.key_type();
        let (node, key_type) = (self.tables.node(self.level.node), self.tables.ty(ty));
        let mut key = match (node, key_type) {
            (Node::Record(entries), Type::Record(fields)) => {
                self.fields(entries, fields, top, &mut build)
            }
            (_, Type::Record(_)) => self.any(ty),
            _ => self.after(self.level.node, ty, top(0), &mut build),
        };
        for (path, other) in build.equal {
            equalize(&mut key, &path, &other, self.tables, ty);
        }
        key
    }

    fn fields(
        &mut self,
        entries: &[(u16, u16)],
        fields: &[(u16, u16)],
        path: impl Fn(u16) -> Path,
        build: &mut Build,
    ) -> Value {
        let fields = fields.iter().enumerate();
        let values = fields.map(|(index, &(name, ty))| match first(entries, name) {
            Some(entry) => self.after(entry, ty, path(index as u16), build),
            None => self.any(ty),
        });
        Value::Rec(values.collect())
    }

    /// A value after a pattern.
    fn after(&mut self, node: u16, ty: u16, path: Path, build: &mut Build) -> Value {
        let tables = self.tables;
        match (tables.node(node), tables.ty(ty)) {
            (Node::Record(entries), Type::Record(fields)) => {
                let inner = |index| then(&path, u32::from(index));
                self.fields(entries, fields, inner, build)
            }
            (Node::Record(entries), Type::Union(alts)) => {
                self.alternative(entries, alts, ty, path, build)
            }
            (Node::Prefix(_) | Node::Fuzzy(..), Type::Str) => {
                let pattern = tables.node(node);
                let new = |keys: &mut Self| keys.text_after(node);
                self.tried(new, |matcher, value| matcher.accepts_text(pattern, value))
            }
            (Node::Var(name), _) if lookup(*name, &build.bindings).is_none() => {
                let slot = Slot::Field(self.level.address, path, ty);
                build.bindings.push(Binding { name: *name, slot });
                self.named(*name, ty, &build.bindings)
            }
            _ => match tables.resolve(node, &build.bindings) {
                Some(slot) => self.of_slot(&slot, ty, path, build),
                None => self.any(ty),
            },
        }
    }

    fn alternative(
        &mut self,
        entries: &[(u16, u16)],
        alts: &[(u16, u32, u16)],
        ty: u16,
        path: Path,
        build: &mut Build,
    ) -> Value {
        let inhabited = |ty: u16| self.sizes[usize::from(ty)].is_some();
        let named = |name: u16| alts.iter().find(|(of, _, _)| *of == name);
        let known = match entries {
            [(name, payload)] => named(*name).map(|(_, disc, ty)| (*disc, *ty, *payload)),
            _ => None,
        };
        match known {
            Some((disc, ty, payload)) if inhabited(ty) => {
                let payload = self.after(payload, ty, then(&path, disc), build);
                Value::Uni(disc, Box::new(payload))
            }
            _ => self.any(ty),
        }
    }

    fn of_slot(&mut self, slot: &Slot, ty: u16, path: Path, build: &mut Build) -> Value {
        match slot {
            Slot::Const(node) => match self.tables.constant(*node, ty, &build.bindings) {
                Some(value) => value,
                None if matches!(self.tables.node(*node), Node::Record(_)) => {
                    self.after(*node, ty, path, build)
                }
                None => self.any(ty),
            },
            Slot::Field(address, other, _) if *address == self.level.address => {
                build.equal.push((path, other.clone()));
                self.any(ty)
            }
            Slot::Field(address, other, _) => self.register(*address, other, ty),
            Slot::Row(address, _) => {
                let drawn = self.rng.below(5) as u64;
                Value::Fact(*self.given.facts.entry(*address).or_insert(drawn))
            }
            _ => self.any(ty),
        }
    }

    /// What a register holds, where it is of this type; mostly it is.
    fn register(&mut self, address: u16, path: &Path, ty: u16) -> Value {
        let value = self.any(ty);
        let held = if self.rng.chance(92) {
            value.clone()
        } else {
            self.changed(&value, ty)
        };
        let place = (address, path.clone());
        let held = self.given.fields.entry(place).or_insert(held).clone();
        let fits = held.has_type(&self.tables.file.types, ty);
        if fits { held } else { value }
    }

    /// A value that a new name's constraints and folded comparisons accept, if one is
    /// met soon.
    fn named(&mut self, name: u16, ty: u16, bindings: &[Binding]) -> Value {
        let file = self.tables.file;
        let of_name = |node: u16| matches!(self.tables.node(node), Node::Var(of) if *of == name);
        let constraints = file.constraints.iter().filter(|it| it.name == name);
        let constraints: Vec<u16> = constraints.map(|it| it.node).collect();
        let folded = self.folded.iter().map(|index| &file.comparisons[*index]);
        let folded = folded.filter(|it| of_name(it.left) || of_name(it.right));
        let sides = folded.flat_map(|it| [it.left, it.right]);
        let edges = sides.filter_map(|node| self.tables.constant(node, ty, bindings));
        let edges: Vec<Value> = edges.collect();
        let new = |keys: &mut Self| match (keys.rng.pick(&constraints), keys.rng.pick(&edges)) {
            (Some(&node), _) if keys.rng.chance(80) => keys.text_after(node),
            (_, Some(edge)) if keys.rng.chance(30) => edge.clone(),
            (_, Some(edge)) if keys.rng.chance(60) => keys.changed(edge, ty),
            _ => keys.any(ty),
        };
        self.tried(new, |matcher, value| {
            matcher.accepts_new(name, ty, value, bindings)
        })
    }

    /// The first drawn value that is accepted, or the last one drawn.
    fn tried(
        &mut self,
        new: impl Fn(&mut Self) -> Value,
        accepts: impl Fn(&Matcher, &Value) -> bool,
    ) -> Value {
        let mut value = new(self);
        for _ in 1..TRIES {
            let matcher = Matcher {
                tables: self.tables,
                level: self.level,
                folded: self.folded,
                given: &self.given,
            };
            if accepts(&matcher, &value) {
                break;
            }
            value = new(self);
        }
        value
    }

    /// A text for a Prefix or a Fuzzy.
    fn text_after(&mut self, node: u16) -> Value {
        let mut text = match self.tables.node(node) {
            Node::Prefix(name) => self.tables.text(*name).to_vec(),
            _ => vec![],
        };
        if self.rng.chance(60) {
            text.extend(self.text());
        }
        Value::Str(text)
    }

    /// A value of a type that has values.
    pub fn any(&mut self, ty: u16) -> Value {
        match self.tables.ty(ty) {
            Type::Int => Value::Int(self.int()),
            Type::Str => Value::Str(self.text()),
            Type::Bytes => Value::Bytes(self.byte_string()),
            Type::Fact(_) => Value::Fact(self.rng.below(5) as u64),
            Type::Record(fields) => {
                let values = fields.iter().map(|(_, ty)| self.any(*ty));
                Value::Rec(values.collect())
            }
            Type::Union(alts) => {
                let sized = |ty: u16| self.sizes[usize::from(ty)].is_some();
                let alts: Vec<_> = alts.iter().filter(|(_, _, ty)| sized(*ty)).collect();
                let (_, disc, ty) = alts[self.rng.below(alts.len())];
                Value::Uni(*disc, Box::new(self.any(*ty)))
            }
        }
    }

    fn int(&mut self) -> i64 {
        match self.rng.weighted(&[60, 10, 10, 10, 10]) {
            0 => self.rng.below(9) as i64,
            1 => -1,
            2 => i64::MIN,
            3 => i64::MAX,
            _ => self.rng.bits() as i64,
        }
    }

    /// One of the file's names, or a few bytes, which need not be UTF-8.
    fn text(&mut self) -> Vec<u8> {
        match self.rng.pick(&self.tables.file.names) {
            Some(name) if self.rng.chance(35) => name.clone(),
            _ => self.few_bytes(),
        }
    }

    fn byte_string(&mut self) -> Vec<u8> {
        let nodes = self.tables.file.nodes.iter();
        let written = nodes.filter_map(|node| match node {
            Node::Bytes(bytes) => Some(bytes),
            _ => None,
        });
        let written: Vec<&Vec<u8>> = written.collect();
        match self.rng.pick(&written) {
            Some(bytes) if self.rng.chance(35) => bytes.to_vec(),
            _ => self.few_bytes(),
        }
    }

    fn few_bytes(&mut self) -> Vec<u8> {
        let length = self.rng.weighted(&[20, 40, 25, 15]);
        let mut bytes: Vec<u8> = (0..length).map(|_| self.byte()).collect();
        if self.rng.chance(4) {
            let at = self.rng.below(bytes.len() + 1);
            bytes.insert(at, 0);
        }
        bytes
    }

    /// No zero; the others that have a meaning in a key's bytes among them.
    fn byte(&mut self) -> u8 {
        match self.rng.weighted(&[70, 15, 15]) {
            0 => [b'a', b'b', b'c'][self.rng.below(3)],
            1 => self.rng.within(1, 6) as u8,
            _ => [0xFF, 0x7F, 0x80, 0xFE][self.rng.below(4)],
        }
    }

    /// The value, changed in one place.
    pub fn changed(&mut self, value: &Value, ty: u16) -> Value {
        match (value, self.tables.ty(ty)) {
            (Value::Int(number), _) => Value::Int(match self.rng.below(4) {
                0 => self.int(),
                1 => number.wrapping_sub(1),
                _ => number.wrapping_add(1),
            }),
            (Value::Fact(id), _) => Value::Fact(id ^ 1 << self.rng.below(3)),
            (Value::Str(text), _) => Value::Str(self.changed_bytes(text)),
            (Value::Bytes(bytes), _) => Value::Bytes(self.changed_bytes(bytes)),
            (Value::Rec(values), Type::Record(fields)) if !values.is_empty() => {
                let at = self.rng.below(values.len());
                let mut values = values.clone();
                values[at] = self.changed(&values[at], fields[at].1);
                Value::Rec(values)
            }
            (Value::Uni(disc, payload), Type::Union(alts)) if self.rng.chance(70) => {
                let alt = alts.iter().find(|(_, of, _)| of == disc);
                let (_, _, ty) = alt.expect("the value has the type");
                Value::Uni(*disc, Box::new(self.changed(payload, *ty)))
            }
            _ => self.any(ty),
        }
    }

    fn changed_bytes(&mut self, bytes: &[u8]) -> Vec<u8> {
        let mut bytes = bytes.to_vec();
        let at = self.rng.below(bytes.len() + 1);
        match self.rng.below(4) {
            0 => bytes.truncate(at),
            1 => drop(bytes.pop()),
            2 if at < bytes.len() => bytes[at] = self.byte(),
            _ => bytes.insert(at, self.byte()),
        }
        bytes
    }
}

/// Sets the value at one path to that at the other, where the types allow it.
fn equalize(key: &mut Value, path: &Path, other: &Path, tables: &Tables, ty: u16) {
    let old = key.clone();
    if let (Some(from), Some(to)) = (old.at(other), key.at_mut(path)) {
        *to = from.clone();
        if !key.has_type(&tables.file.types, ty) {
            *key = old;
        }
    }
}

#[cfg(test)]
mod tests {
    use super::*;
    use crate::fixed::sketch::Sketch;

    /// {a: Int, r: {s: Str, b: Bytes}, u: union of Fact and of nothing}, all of it a
    /// wildcard.
    fn sketched() -> RuleFile {
        let mut s = Sketch::default();
        let (int, text) = (s.ty(Type::Int), s.ty(Type::Str));
        let (bytes, fact) = (s.ty(Type::Bytes), s.ty(Type::Fact(0)));
        let record = s.record_ty(&[("s", text), ("b", bytes)]);
        let none = s.union_ty(&[]);
        let union = s.union_ty(&[("f", 7, fact), ("n", 8, none)]);
        let key = s.record_ty(&[("a", int), ("r", record), ("u", union)]);
        s.name("zero\0");
        s.keyed(key, Sketch::wildcard)
    }

    /// Drawn values have their types, and changed ones too. Their order is that of their
    /// bytes, with zero bytes in them or not.
    #[test]
    fn drawn_values() {
        let file = sketched();
        let (tables, sizes) = (Tables::new(&file), sizes(&file.types));
        let mut rng = Rng::new(51, 0);
        let mut keys = Keys {
            tables: &tables,
            level: &file.levels[0],
            folded: &[],
            sizes: &sizes,
            given: Given::new(Rule::Always),
            rng: &mut rng,
        };
        let ty = file.predicates[0].key;
        let (mut different, mut zeros) = (0, 0);
        for _ in 0..20_000 {
            let key = keys.random();
            let changed = keys.changed(&key, ty);
            for key in [&key, &changed] {
                assert!(key.has_type(&file.types, ty));
                zeros += usize::from(!key.is_zero_free());
            }
            different += usize::from(key != changed);
            assert_eq!(key.cmp(&changed), key.stored().cmp(&changed.stored()));
            assert_eq!(key.cmp(&changed), key.encoded().cmp(&changed.encoded()));
        }
        assert!(different > 15_000 && zeros > 500, "{different} {zeros}");
    }

    #[test]
    fn sizes_of_types() {
        let found = sizes(&sketched().types);
        assert_eq!(found[5], None, "a union of nothing");
        assert_eq!(found[6], Some(2), "its other alternative");
        assert_eq!(found[7], Some(1 + 1 + 3 + 2));
        let doubled = (0..70).map(|at| Type::Record(vec![(0, at), (1, at)]));
        let types: Vec<Type> = std::iter::once(Type::Int).chain(doubled).collect();
        assert_eq!(sizes(&types)[70], Some(usize::MAX));
    }
}
