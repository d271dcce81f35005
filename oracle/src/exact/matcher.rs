//! A plain matcher: it reads a key of the level's type field by field against the
//! pattern. It knows nothing of events, parts or building.

use std::cmp::Ordering;

use crate::file::*;
use crate::plan::Fuzzy;

use super::given::Given;
use super::slots::{Tables, first, lookup, then, top};
use super::value::Value;

/// A level, what its plan says was folded, and what it is tried with.
pub struct Matcher<'a> {
    pub tables: &'a Tables<'a>,
    pub level: &'a Level,
    pub folded: &'a [usize],
    pub given: &'a Given,
}

/// Where a pattern stands: the type there, its path, and the key's value, if the key
/// has one there: it has none below another alternative than its own.
struct Place<'a> {
    ty: u16,
    path: Path,
    value: Option<&'a Value>,
}

impl Matcher<'_> {
    /// Whether the level's pattern accepts a key. New names are added to the bindings,
    /// the same ones for every key, and for none.
    pub fn accepts(&self, key: Option<&Value>, bindings: &mut Vec<Binding>) -> bool {
        let ty = self.tables.key_type(self.level);
        let mut reading = Reading {
            matcher: self,
            key,
            bindings,
        };
        match (self.tables.node(self.level.node), self.tables.ty(ty)) {
            (Node::Record(entries), Type::Record(fields)) => {
                reading.fields(entries, fields, key, top)
            }
            (Node::Var(name), Type::Record(_)) => {
                let slot = Slot::Key(self.level.address, ty);
                reading.bind_new(*name, slot);
                true
            }
            (_, Type::Record(_)) => true,
            _ => {
                let path = top(0);
                let value = key;
                reading.pattern(self.level.node, Place { ty, path, value })
            }
        }
    }

    /// A name's constraints, and the comparisons with it that the level has folded.
    pub fn accepts_new(&self, name: u16, ty: u16, value: &Value, bindings: &[Binding]) -> bool {
        let file = self.tables.file;
        let constraints = file.constraints.iter().filter(|it| it.name == name);
        let mut folded = self.folded.iter().map(|index| &file.comparisons[*index]);
        constraints
            .map(|it| self.tables.node(it.node))
            .all(|node| self.accepts_text(node, value))
            && folded.all(|comparison| self.compares(comparison, name, ty, value, bindings))
    }

    /// A Prefix or a Fuzzy; other nodes are none of a constraint's here.
    pub fn accepts_text(&self, node: &Node, value: &Value) -> bool {
        let Value::Str(text) = value else {
            return false;
        };
        match node {
            Node::Prefix(name) => text.starts_with(self.tables.text(*name)),
            Node::Fuzzy(name, distance, anchor) => {
                let fuzzy = Fuzzy {
                    name: *name,
                    distance: *distance,
                    anchor: *anchor,
                };
                self.given.rule.accepts(&fuzzy, text)
            }
            _ => false,
        }
    }

    /// A folded comparison holds, or is of another name.
    fn compares(
        &self,
        comparison: &Comparison,
        name: u16,
        ty: u16,
        value: &Value,
        bindings: &[Binding],
    ) -> bool {
        let is_name = |node| matches!(self.tables.node(node), Node::Var(of) if *of == name);
        let constant = |node| self.tables.constant(node, ty, bindings);
        let order = if is_name(comparison.left) {
            constant(comparison.right).map(|right| value.cmp(&right))
        } else if is_name(comparison.right) {
            constant(comparison.left).map(|left| left.cmp(value))
        } else {
            return true;
        };
        order.is_some_and(|order| match comparison.op {
            Op::Lt => order == Ordering::Less,
            Op::Le => order != Ordering::Greater,
            Op::Gt => order == Ordering::Greater,
            Op::Ge => order != Ordering::Less,
        })
    }
}

/// A key while it is read.
struct Reading<'a> {
    matcher: &'a Matcher<'a>,
    key: Option<&'a Value>,
    bindings: &'a mut Vec<Binding>,
}

impl<'a> Reading<'a> {
    fn pattern(&mut self, node: u16, place: Place) -> bool {
        let tables = self.matcher.tables;
        let is = |value: Value| place.value == Some(&value);
        match (tables.node(node), tables.ty(place.ty)) {
            (Node::Wildcard | Node::Subquery | Node::Error, _) => true,
            (Node::Int(number), _) => is(Value::Int(*number)),
            (Node::Str(name), _) => is(Value::Str(tables.text(*name).to_vec())),
            (Node::Bytes(bytes), _) => is(Value::Bytes(bytes.clone())),
            (text @ (Node::Prefix(_) | Node::Fuzzy(..)), _) => {
                let value = place.value;
                value.is_some_and(|value| self.matcher.accepts_text(text, value))
            }
            (Node::Record(entries), Type::Record(fields)) => {
                let inner = |index| then(&place.path, u32::from(index));
                self.fields(entries, fields, place.value, inner)
            }
            (Node::Record(entries), Type::Union(alts)) => self.alternative(entries, alts, place),
            (Node::Record(_), _) => true,
            (Node::Var(name), _) if lookup(*name, self.bindings).is_none() => {
                self.new_name(*name, place)
            }
            _ => match tables.resolve(node, self.bindings) {
                Some(slot) => self.slot(&slot, place),
                None => true,
            },
        }
    }

    /// Each field of the type, by the first entry of its name.
    fn fields(
        &mut self,
        entries: &[(u16, u16)],
        fields: &[(u16, u16)],
        record: Option<&Value>,
        path: impl Fn(u16) -> Path,
    ) -> bool {
        let mut accepted = true;
        for (index, &(name, ty)) in fields.iter().enumerate() {
            let Some(entry) = first(entries, name) else {
                continue;
            };
            let value = match record {
                Some(Value::Rec(values)) => values.get(index),
                _ => None,
            };
            let path = path(index as u16);
            accepted &= self.pattern(entry, Place { ty, path, value });
        }
        accepted
    }

    /// The one alternative that is named, and its payload.
    fn alternative(&mut self, entries: &[(u16, u16)], alts: &[Alt], place: Place) -> bool {
        let [(name, payload)] = entries else {
            return true;
        };
        let Some((_, disc, ty)) = alts.iter().find(|(of, _, _)| of == name) else {
            return true;
        };
        let value = match place.value {
            Some(Value::Uni(of, value)) if of == disc => Some(&**value),
            _ => None,
        };
        let inner = Place {
            ty: *ty,
            path: then(&place.path, *disc),
            value,
        };
        self.pattern(*payload, inner) && value.is_some()
    }

    fn new_name(&mut self, name: u16, place: Place) -> bool {
        let slot = Slot::Field(self.matcher.level.address, place.path, place.ty);
        self.bind_new(name, slot);
        place.value.is_some_and(|value| {
            let matcher = self.matcher;
            matcher.accepts_new(name, place.ty, value, self.bindings)
        })
    }

    fn bind_new(&mut self, name: u16, slot: Slot) {
        if lookup(name, self.bindings).is_none() {
            self.bindings.push(Binding { name, slot });
        }
    }

    /// A field of the level's own row goes by the address.
    fn slot(&mut self, slot: &Slot, place: Place) -> bool {
        let given = self.matcher.given;
        let equals = |value: Option<&Value>| value.is_some() && value == place.value;
        match slot {
            Slot::Const(node) => self.pattern(*node, place),
            Slot::Field(address, path, _) if *address == self.matcher.level.address => {
                equals(self.key.and_then(|key| key.at(path)))
            }
            Slot::Field(address, path, _) => equals(Some(&given.field(*address, path))),
            Slot::Row(address, _) => equals(Some(&Value::Fact(given.fact(*address)))),
            Slot::Key(..) | Slot::Derived(_) | Slot::Value(..) => true,
        }
    }
}

/// A union's alternative: name, disc, type.
type Alt = (u16, u32, u16);

#[cfg(test)]
mod tests {
    use super::*;
    use crate::exact::given::Rule;
    use crate::fixed::sketch::{Sketch, field, one, two};

    fn text(text: &str) -> Value {
        Value::Str(text.as_bytes().to_vec())
    }

    fn pair(a: Value, b: Value) -> Value {
        Value::Rec(vec![a, b])
    }

    fn tried(file: &RuleFile, folded: &[usize], key: Option<&Value>, given: &Given) -> bool {
        let matcher = Matcher {
            tables: &Tables::new(file),
            level: &file.levels[0],
            folded,
            given,
        };
        matcher.accepts(key, &mut file.bindings.clone())
    }

    fn accepts(file: &RuleFile, key: &Value) -> bool {
        let folded: Vec<usize> = (0..file.comparisons.len()).collect();
        tried(file, &folded, Some(key), &Given::new(Rule::Always))
    }

    #[test]
    fn literals_and_what_is_passed_over() {
        let file = two(Type::Int, Type::Str, |s| (s.int(7), s.text("x")));
        assert!(accepts(&file, &pair(Value::Int(7), text("x"))));
        assert!(!accepts(&file, &pair(Value::Int(7), text("xy"))));
        assert!(!accepts(&file, &pair(Value::Int(6), text("x"))));
        for node in [Node::Wildcard, Node::Subquery, Node::Error] {
            let file = two(Type::Int, Type::Str, |s| (s.node(node), s.text("x")));
            assert!(accepts(&file, &pair(Value::Int(1), text("x"))));
        }
        let file = two(Type::Int, Type::Int, |s| {
            let inner = s.var("v");
            (s.record(&[("q", inner)]), s.var("v"))
        });
        assert!(accepts(&file, &pair(Value::Int(1), Value::Int(2))));
    }

    #[test]
    fn prefixes_and_fuzzies() {
        let file = one(Type::Str, |s| s.prefix("ab"));
        assert!(accepts(&file, &text("abc")) && !accepts(&file, &text("a")));
        let file = one(Type::Str, |s| s.fuzzy("ab", 1, Anchor::Whole));
        assert!(accepts(&file, &text("zz")));
        let never = Given::new(Rule::Never);
        assert!(!tried(&file, &[], Some(&text("ab")), &never));
    }

    #[test]
    fn one_alternative_and_its_payload() {
        let mut s = Sketch::default();
        let int = s.ty(Type::Int);
        let union = s.union_ty(&[("x", 1, int), ("y", 2, int)]);
        let file = s.keyed(union, |s| {
            let payload = s.int(5);
            s.record(&[("y", payload)])
        });
        let key = |disc, number| Value::Uni(disc, Box::new(Value::Int(number)));
        assert!(accepts(&file, &key(2, 5)));
        assert!(!accepts(&file, &key(1, 5)) && !accepts(&file, &key(2, 6)));
    }

    #[test]
    fn a_new_name_with_constraints() {
        let mut file = one(Type::Str, |s| {
            let prefix = s.prefix("ab");
            s.constrain("v", prefix);
            s.var("v")
        });
        assert!(accepts(&file, &text("ab")) && !accepts(&file, &text("b")));
        // Of a name that is bound already a level reads no constraint.
        let name = file.constraints[0].name;
        let slot = Slot::Field(9, field(0, &[]), 0);
        file.bindings.push(Binding { name, slot });
        let mut given = Given::new(Rule::Always);
        given.fields.insert((9, field(0, &[])), text("b"));
        assert!(tried(&file, &[], Some(&text("b")), &given));
        assert!(!tried(&file, &[], Some(&text("ab")), &given));
    }

    /// On either side; those that are not folded are not asked.
    #[test]
    fn folded_comparisons() {
        for (op, left, kept) in [
            (Op::Lt, true, [true, false, false]),
            (Op::Le, true, [true, true, false]),
            (Op::Gt, true, [false, false, true]),
            (Op::Ge, true, [false, true, true]),
            (Op::Lt, false, [false, false, true]),
            (Op::Ge, false, [true, true, false]),
        ] {
            let file = one(Type::Int, |s| {
                let (v, four) = (s.var("v"), s.int(4));
                let (l, r) = if left { (v, four) } else { (four, v) };
                s.compare(op, l, r);
                v
            });
            for (number, kept) in (3..=5).zip(kept) {
                assert_eq!(accepts(&file, &Value::Int(number)), kept, "{op:?} {left}");
                let given = Given::new(Rule::Always);
                assert!(tried(&file, &[], Some(&Value::Int(number)), &given));
            }
        }
    }

    /// A name twice: both fields are equal, by the address of the row.
    #[test]
    fn slots() {
        let file = two(Type::Int, Type::Int, |s| (s.var("v"), s.var("v")));
        assert!(accepts(&file, &pair(Value::Int(3), Value::Int(3))));
        assert!(!accepts(&file, &pair(Value::Int(3), Value::Int(4))));
        let mut given = Given::new(Rule::Always);
        given.facts.insert(5, 8);
        let slots = [
            (Slot::Field(9, field(2, &[1]), 0), Type::Int, Value::Int(9)),
            (Slot::Row(5, 0), Type::Fact(0), Value::Fact(8)),
            (Slot::Const(0), Type::Int, Value::Int(6)),
        ];
        for (slot, ty, value) in slots {
            let file = two(ty, Type::Int, |s| {
                s.int(6);
                s.bind("v", slot);
                (s.var("v"), s.wildcard())
            });
            let tried = |value| tried(&file, &[], Some(&pair(value, Value::Int(0))), &given);
            assert!(tried(value));
            assert!(!tried(Value::Fact(1)) && !tried(Value::Int(1)));
        }
    }

    /// What is bound goes by the pattern alone.
    #[test]
    fn bindings_are_the_same_for_every_key_and_for_none() {
        let file = two(Type::Str, Type::Str, |s| (s.text("x"), s.var("v")));
        let given = Given::new(Rule::Always);
        let tables = Tables::new(&file);
        let matcher = Matcher {
            tables: &tables,
            level: &file.levels[0],
            folded: &[],
            given: &given,
        };
        let (good, bad) = (pair(text("x"), text("")), pair(text("y"), text("")));
        for (key, accepted) in [(Some(&good), true), (Some(&bad), false), (None, false)] {
            let mut bindings = vec![];
            assert_eq!(matcher.accepts(key, &mut bindings), accepted);
            assert_eq!(bindings.len(), 1);
            assert_eq!(bindings[0].slot, Slot::Field(0, field(1, &[]), 1));
        }
    }

    /// The same key passes the level: see `passes`.
    #[test]
    fn a_zero_byte_does_not_match_the_empty_text() {
        let file = one(Type::Str, |s| s.text(""));
        assert!(accepts(&file, &text("")));
        assert!(!accepts(&file, &text("\0")));
    }
}
