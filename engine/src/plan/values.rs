//! The bytes of a seek, as the values that they encode.

use crate::rules::{RuleFile, Type};
use crate::text::{shown_bytes, shown_name, shown_text};

/// A value of a key.
#[derive(Debug, Clone, PartialEq, Eq)]
pub enum Value {
    /// A number.
    Int(i64),
    /// A text.
    Str(Vec<u8>),
    /// Bytes.
    Bytes(Vec<u8>),
    /// A record's fields, in type order.
    Record(Vec<Value>),
    /// An alternative by its disc, and what it carries.
    Union(u32, Box<Value>),
}

/// What stands in a key's beginning: values, and unions that are still open.
#[derive(Debug, Clone, PartialEq, Eq)]
pub(super) enum Piece {
    Value(Value),
    Tag(u32),
    Closer,
    /// Bytes that encode nothing.
    Other(Vec<u8>),
}

/// Values nest as types do; nothing that a compile writes is deeper.
const DEEPEST: usize = 64;

/// The values that bytes encode, one after the other; none where they are
/// something else.
pub fn values(bytes: &[u8]) -> Option<Vec<Value>> {
    let mut reader = Reader { bytes };
    let mut found = vec![];
    while !reader.bytes.is_empty() {
        found.push(reader.value(0)?);
    }
    Some(found)
}

/// The pieces of a seek's bytes.
pub(super) fn pieces(bytes: &[u8]) -> Vec<Piece> {
    let mut reader = Reader { bytes };
    let mut found = vec![];
    while !reader.bytes.is_empty() {
        found.push(reader.piece());
    }
    found
}

/// The pieces of parts that were joined, one for each node; none where there are
/// not as many.
///
/// A union that is one value may also be a tag, what it carries and a closer, which
/// then have a node each: first and last the union's own.
pub(super) fn told_apart(bytes: &[u8], nodes: &[u16]) -> Option<Vec<Piece>> {
    let whole = pieces(bytes);
    let mut apart = Apart {
        nodes,
        more: nodes.len().checked_sub(whole.len())?,
        found: vec![],
    };
    for piece in whole {
        match piece {
            Piece::Value(value) => apart.value(value),
            other => apart.found.push(other),
        }
    }
    (apart.more == 0).then_some(apart.found)
}

/// Pieces found so far, and how many more there are to be than values.
struct Apart<'a> {
    nodes: &'a [u16],
    more: usize,
    found: Vec<Piece>,
}

impl Apart<'_> {
    fn value(&mut self, value: Value) {
        let (start, more) = (self.found.len(), self.more);
        if let (Value::Union(disc, payload), 2..) = (&value, more) {
            self.more -= 2;
            self.found.push(Piece::Tag(*disc));
            self.value(Value::clone(payload));
            if self.nodes.get(self.found.len()) == Some(&self.nodes[start]) {
                self.found.push(Piece::Closer);
                return;
            }
            self.found.truncate(start);
            self.more = more;
        }
        self.found.push(Piece::Value(value));
    }
}

struct Reader<'a> {
    bytes: &'a [u8],
}

impl<'a> Reader<'a> {
    fn piece(&mut self) -> Piece {
        let start = self.bytes;
        if let Some(value) = self.value(0) {
            return Piece::Value(value);
        }
        self.bytes = start;
        match start {
            [0, rest @ ..] => {
                self.bytes = rest;
                Piece::Closer
            }
            [5, a, b, c, d, rest @ ..] => {
                self.bytes = rest;
                Piece::Tag(u32::from_be_bytes([*a, *b, *c, *d]))
            }
            other => {
                self.bytes = &[];
                Piece::Other(other.to_vec())
            }
        }
    }

    fn take<const N: usize>(&mut self) -> Option<[u8; N]> {
        let (taken, rest) = self.bytes.split_first_chunk()?;
        self.bytes = rest;
        Some(*taken)
    }

    fn value(&mut self, depth: usize) -> Option<Value> {
        if depth == DEEPEST {
            return None;
        }
        match self.take()? {
            [2] => Some(Value::Int(i64::from_be_bytes(self.take()?) ^ i64::MIN)),
            [3] => self.escaped().map(Value::Str),
            [4] => self.escaped().map(Value::Bytes),
            [5] => {
                let disc = u32::from_be_bytes(self.take()?);
                let payload = self.value(depth + 1)?;
                let [end] = self.take()?;
                (end == 0).then(|| Value::Union(disc, Box::new(payload)))
            }
            [6] => {
                let mut fields = vec![];
                while *self.bytes.first()? != 0 {
                    fields.push(self.value(depth + 1)?);
                }
                self.take::<1>()?;
                Some(Value::Record(fields))
            }
            _ => None,
        }
    }

    /// To the zero byte that no FF follows.
    fn escaped(&mut self) -> Option<Vec<u8>> {
        let mut found = vec![];
        loop {
            let [byte] = self.take()?;
            if byte == 0 {
                let Some((0xFF, rest)) = self.bytes.split_first() else {
                    return Some(found);
                };
                self.bytes = rest;
            }
            found.push(byte);
        }
    }
}

/// The text that a Prefix's bytes encode.
pub(super) fn prefix(bytes: &[u8]) -> Option<Vec<u8>> {
    let closed = [bytes, &[0]].concat();
    match values(&closed)?.as_slice() {
        [Value::Str(text)] => Some(text.clone()),
        _ => None,
    }
}

impl Value {
    /// As it is written, with the names of its type where that is known.
    pub(super) fn shown(&self, rules: Option<&RuleFile>, ty: Option<&Type>) -> String {
        match self {
            Value::Int(number) => number.to_string(),
            Value::Str(text) => shown_text(text),
            Value::Bytes(bytes) => shown_bytes(bytes),
            Value::Record(fields) => {
                let fields = fields.iter().enumerate();
                let items = fields.map(|(at, value)| value.field(rules, ty, at));
                format!("{{ {} }}", items.collect::<Vec<_>>().join(", "))
            }
            Value::Union(disc, payload) => {
                let found = alternative(rules, ty, *disc);
                let (name, ty) = found.unwrap_or_else(|| (disc.to_string(), None));
                format!("{{ {name} = {} }}", payload.shown(rules, ty))
            }
        }
    }

    fn field(&self, rules: Option<&RuleFile>, ty: Option<&Type>, at: usize) -> String {
        let (Some(rules), Some(Type::Record(fields))) = (rules, ty) else {
            return self.shown(rules, None);
        };
        let Some(field) = fields.get(at) else {
            return self.shown(Some(rules), None);
        };
        let name = shown_name(rules, field.name);
        format!("{name} = {}", self.shown(Some(rules), rules.ty(field.ty)))
    }
}

/// A union's alternative: its name and its type.
pub(super) fn alternative<'a>(
    rules: Option<&'a RuleFile>,
    ty: Option<&Type>,
    disc: u32,
) -> Option<(String, Option<&'a Type>)> {
    let (Some(rules), Some(Type::Union(alternatives))) = (rules, ty) else {
        return None;
    };
    let found = alternatives.iter().find(|each| each.disc == disc)?;
    Some((shown_name(rules, found.name), rules.ty(found.ty)))
}
