//! Values of the types of a rule file, and the bytes that stand for them.

use crate::file::{Path, Type};

/// A value, without its type. Of one type the order is that of numbers, of bytes, of
/// fields one by one, of the disc and then the payload.
#[derive(Debug, Clone, PartialEq, Eq, PartialOrd, Ord)]
pub enum Value {
    Int(i64),
    Str(Vec<u8>),
    Bytes(Vec<u8>),
    Fact(u64),
    Rec(Vec<Value>),
    Uni(u32, Box<Value>),
}

const FACT: u8 = 1;
const INT: u8 = 2;
const STR: u8 = 3;
const BYTES: u8 = 4;
const UNION: u8 = 5;
const RECORD: u8 = 6;
const END: u8 = 0;
const ESCAPE: u8 = 0xFF;

impl Value {
    /// 01's bytes of a constant, for every value; a fact reference by the request.
    pub fn encoded(&self) -> Vec<u8> {
        let mut out = vec![];
        self.write(&mut out);
        out
    }

    /// A key as it is stored: a record's fields one behind the other, and nothing
    /// around them.
    pub fn stored(&self) -> Vec<u8> {
        match self {
            Value::Rec(fields) => fields.iter().flat_map(Value::encoded).collect(),
            _ => self.encoded(),
        }
    }

    fn write(&self, out: &mut Vec<u8>) {
        match self {
            Value::Fact(id) => {
                out.push(FACT);
                out.extend(id.to_be_bytes());
            }
            Value::Int(number) => {
                out.push(INT);
                out.extend((*number as u64 ^ 1 << 63).to_be_bytes());
            }
            Value::Str(text) => write_text(STR, text, out),
            Value::Bytes(bytes) => write_text(BYTES, bytes, out),
            Value::Uni(disc, payload) => {
                out.push(UNION);
                out.extend(disc.to_be_bytes());
                payload.write(out);
                out.push(END);
            }
            Value::Rec(fields) => {
                out.push(RECORD);
                fields.iter().for_each(|field| field.write(out));
                out.push(END);
            }
        }
    }

    /// The value at a path of this key. A key that is no record has field 0 alone.
    pub fn at(&self, path: &Path) -> Option<&Value> {
        let field = match self {
            Value::Rec(fields) => fields.get(usize::from(path.field))?,
            _ if path.field == 0 => self,
            _ => return None,
        };
        let mut steps = path.steps.iter();
        steps.try_fold(field, |value, step| value.step(*step))
    }

    fn step(&self, step: u32) -> Option<&Value> {
        match self {
            Value::Rec(fields) => fields.get(step as usize),
            Value::Uni(disc, payload) if *disc == step => Some(payload),
            _ => None,
        }
    }

    /// As [`Value::at`], to be changed.
    pub fn at_mut(&mut self, path: &Path) -> Option<&mut Value> {
        let field = match self {
            Value::Rec(fields) => fields.get_mut(usize::from(path.field))?,
            key if path.field == 0 => key,
            _ => return None,
        };
        let mut steps = path.steps.iter();
        steps.try_fold(field, |value, step| match value {
            Value::Rec(fields) => fields.get_mut(*step as usize),
            Value::Uni(disc, payload) if disc == step => Some(&mut **payload),
            _ => None,
        })
    }

    /// No zero byte in its texts and byte strings.
    pub fn is_zero_free(&self) -> bool {
        match self {
            Value::Int(_) | Value::Fact(_) => true,
            Value::Str(bytes) | Value::Bytes(bytes) => !bytes.contains(&0),
            Value::Rec(fields) => fields.iter().all(Value::is_zero_free),
            Value::Uni(_, payload) => payload.is_zero_free(),
        }
    }

    pub fn has_type(&self, types: &[Type], ty: u16) -> bool {
        match (self, &types[usize::from(ty)]) {
            (Value::Int(_), Type::Int)
            | (Value::Str(_), Type::Str)
            | (Value::Bytes(_), Type::Bytes)
            | (Value::Fact(_), Type::Fact(_)) => true,
            (Value::Rec(values), Type::Record(fields)) => {
                let mut pairs = values.iter().zip(fields);
                values.len() == fields.len()
                    && pairs.all(|(value, (_, ty))| value.has_type(types, *ty))
            }
            (Value::Uni(disc, payload), Type::Union(alts)) => {
                let mut alts = alts.iter().filter(|(_, of, _)| of == disc);
                alts.any(|(_, _, ty)| payload.has_type(types, *ty))
            }
            _ => false,
        }
    }
}

fn write_text(mark: u8, text: &[u8], out: &mut Vec<u8>) {
    out.push(mark);
    out.extend(escaped(text));
    out.push(END);
}

/// Each zero byte is followed by FF.
pub fn escaped(text: &[u8]) -> Vec<u8> {
    let pair = |&byte| match byte {
        0 => vec![0, ESCAPE],
        byte => vec![byte],
    };
    text.iter().flat_map(pair).collect()
}

/// How long the value is that these bytes begin with, if they do.
pub fn one_value(bytes: &[u8]) -> Option<usize> {
    let (mark, rest) = bytes.split_first()?;
    let length = match *mark {
        FACT | INT => Some(8).filter(|length| *length <= rest.len()),
        STR | BYTES => one_text(rest),
        UNION => {
            let payload = one_value(rest.get(4..)?)?;
            (rest.get(4 + payload) == Some(&END)).then_some(4 + payload + 1)
        }
        RECORD => some_values(rest),
        _ => None,
    };
    length.map(|length| 1 + length)
}

/// Up to and with the zero byte that no FF follows.
fn one_text(bytes: &[u8]) -> Option<usize> {
    let mut at = 0;
    loop {
        match (bytes.get(at)?, bytes.get(at + 1)) {
            (&END, Some(&ESCAPE)) => at += 2,
            (&END, _) => return Some(at + 1),
            _ => at += 1,
        }
    }
}

/// Values up to and with the zero byte that ends a record.
fn some_values(bytes: &[u8]) -> Option<usize> {
    let mut at = 0;
    while *bytes.get(at)? != END {
        at += one_value(&bytes[at..])?;
    }
    Some(at + 1)
}

#[cfg(test)]
mod tests {
    use super::*;
    use crate::fixed::sketch::field;

    fn text(text: &[u8]) -> Value {
        Value::Str(text.to_vec())
    }

    fn union(disc: u32, payload: Value) -> Value {
        Value::Uni(disc, Box::new(payload))
    }

    /// {7, "a\0", 5: {#1, y}} as a field.
    fn nested() -> Value {
        let inner = Value::Rec(vec![Value::Fact(1), Value::Bytes(b"y".to_vec())]);
        Value::Rec(vec![Value::Int(7), text(b"a\0"), union(5, inner)])
    }

    const NESTED: [u8; 37] = [
        6, 2, 0x80, 0, 0, 0, 0, 0, 0, 7, 3, b'a', 0, 0xFF, 0, 5, 0, 0, 0, 5, 6, 1, 0, 0, 0, 0, 0,
        0, 0, 1, 4, b'y', 0, 0, 0, 0, 0xEE,
    ];

    #[test]
    fn a_value_and_its_bytes() {
        let encoded = &NESTED[..36];
        assert_eq!(nested().encoded(), encoded);
        assert_eq!(nested().stored(), &encoded[1..35]);
        assert_eq!(union(5, text(b"")).stored(), [5, 0, 0, 0, 5, 3, 0, 0]);
        let mut lowest = vec![0; 9];
        lowest[0] = 2;
        assert_eq!(Value::Int(i64::MIN).encoded(), lowest);
        assert_eq!(Value::Int(-1).encoded()[..2], [2, 0x7F]);
    }

    #[test]
    fn one_value_is_cut_off() {
        assert_eq!(one_value(&NESTED), Some(36));
        for length in 0..36 {
            assert_eq!(one_value(&NESTED[..length]), None, "{length}");
        }
        assert_eq!(one_value(&[3, 0, 0xFF, 0, 3]), Some(4));
        assert_eq!(one_value(&[3, 0, 6, 0]), Some(2));
        assert_eq!(one_value(&[0]), None);
    }

    #[test]
    fn the_value_at_a_path() {
        let key = nested();
        assert_eq!(key.at(&field(0, &[])), Some(&Value::Int(7)));
        assert_eq!(key.at(&field(2, &[5, 0])), Some(&Value::Fact(1)));
        assert_eq!(key.at(&field(2, &[4, 0])), None);
        assert_eq!(key.at(&field(2, &[5, 2])), None);
        assert_eq!(key.at(&field(0, &[0])), None);
        assert_eq!(key.at(&field(3, &[])), None);
        let scalar = union(5, text(b"z"));
        assert_eq!(scalar.at(&field(0, &[5])), Some(&text(b"z")));
        assert_eq!(scalar.at(&field(1, &[])), None);
        let mut changed = key.clone();
        *changed.at_mut(&field(2, &[5, 0])).expect("it is there") = Value::Int(3);
        assert_eq!(changed.at(&field(2, &[5, 0])), Some(&Value::Int(3)));
    }

    #[test]
    fn values_have_their_types() {
        let types = [
            Type::Int,
            Type::Union(vec![(0, 5, 0), (1, 6, 0)]),
            Type::Record(vec![(0, 0), (1, 1)]),
        ];
        let key = |disc, payload| Value::Rec(vec![Value::Int(1), union(disc, payload)]);
        assert!(key(6, Value::Int(2)).has_type(&types, 2));
        assert!(!key(7, Value::Int(2)).has_type(&types, 2));
        assert!(!key(6, text(b"")).has_type(&types, 2));
        assert!(!Value::Rec(vec![Value::Int(1)]).has_type(&types, 2));
    }

    #[test]
    fn zero_bytes_are_seen_in_texts_alone() {
        assert!(!nested().is_zero_free());
        assert!(Value::Rec(vec![Value::Int(0), text(b"a")]).is_zero_free());
        assert!(!union(0, Value::Bytes(vec![1, 0])).is_zero_free());
    }
}
