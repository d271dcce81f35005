//! Files of the largest size: every section in use, every level with work.

use oracle::file::*;
use oracle::fixed::sketch::{Sketch, field};
use oracle::write::write;

const LEVELS: u16 = 64;
const FIELDS: usize = 16;

/// Accepted: 32,768 bytes and 64 levels, each of a type of its own with 16
/// fields, and a pattern for each field.
pub fn largest() -> RuleFile {
    let mut file = levels();
    pad(&mut file);
    file
}

/// Accepted, of the same size, with no level: reading and checking alone.
pub fn without_levels() -> RuleFile {
    let mut file = levels();
    file.levels.clear();
    pad(&mut file);
    file
}

/// As [`without_levels`], with a fetched path of one step more than a path
/// holds: refused by 14, the last check.
pub fn refused_by_14() -> RuleFile {
    let mut file = levels();
    file.levels.clear();
    file.fetched.push(Fetched {
        address: 0,
        path: field(0, &[0; MAX_STEPS + 1]),
        register: 0,
    });
    pad(&mut file);
    file
}

/// Accepted, of the same size, with no level: as many record types of 255
/// fields as there is room for.
pub fn wide_types() -> RuleFile {
    const WIDE: u16 = 255;
    let mut file = RuleFile {
        names: vec![vec![]; WIDE as usize + 1],
        types: vec![Type::Int],
        ..RuleFile::default()
    };
    let fields: Vec<(u16, u16)> = (0..WIDE).rev().map(|name| (name, 0)).collect();
    let record = 2 + 4 * fields.len();
    while write(&file).len() + record <= MAX_FILE {
        file.types.push(Type::Record(fields.clone()));
    }
    pad(&mut file);
    file
}

/// Lengthens names, from the first, until the file has its size. The names in
/// front are those of fields and variables, which stand in no plan.
fn pad(file: &mut RuleFile) {
    let mut left = MAX_FILE - write(file).len();
    for name in &mut file.names {
        let more = left.min(u8::MAX as usize - name.len());
        name.resize(name.len() + more, b'_');
        left -= more;
    }
    assert_eq!(left, 0);
}

/// The types that all levels share.
struct Types {
    int: u16,
    text: u16,
    bytes: u16,
    row: u16,
    inner: u16,
    union: u16,
}

impl Types {
    fn new(s: &mut Sketch) -> Self {
        let (int, text, bytes) = (s.ty(Type::Int), s.ty(Type::Str), s.ty(Type::Bytes));
        let row = s.ty(Type::Fact(0));
        let inner = s.record_ty(&[("left", int), ("right", text)]);
        let union = s.union_ty(&[("one", 1, int), ("two", 2, text), ("three", 3, inner)]);
        Self {
            int,
            text,
            bytes,
            row,
            inner,
            union,
        }
    }

    fn of_fields(&self) -> [u16; FIELDS] {
        let Self {
            int,
            text,
            bytes,
            row,
            inner,
            union,
        } = *self;
        [
            int, text, row, bytes, union, inner, int, text, bytes, row, union, inner, int, text,
            text, int,
        ]
    }
}

fn field_name(at: usize) -> String {
    format!("field{at}")
}

fn levels() -> RuleFile {
    let mut s = Sketch::default();
    (0..FIELDS).for_each(|at| {
        s.name(&field_name(at));
    });
    let types = Types::new(&mut s);
    for level in 0..LEVELS {
        for variable in ["row", "text", "field", "new", "fact", "least"] {
            s.name(&format!("{variable}{level}"));
        }
    }
    let names: Vec<String> = (0..FIELDS).map(field_name).collect();
    let fields: Vec<(&str, u16)> = names
        .iter()
        .map(String::as_str)
        .zip(types.of_fields())
        .collect();
    for level in 0..LEVELS {
        let key = s.record_ty(&fields);
        s.predicate(key);
        bindings(&mut s, &types, level);
    }
    constant(&mut s);
    for level in 0..LEVELS {
        one_level(&mut s, &names, level);
    }
    s.file
}

/// A row, a field of it that was fetched, and a text field with a path.
fn bindings(s: &mut Sketch, types: &Types, level: u16) {
    s.bind(&format!("row{level}"), Slot::Row(level, 0));
    s.fetch(level, field(2, &[]), level + LEVELS);
    let path = field(5, &[1]);
    s.bind(
        &format!("text{level}"),
        Slot::Field(level, path, types.text),
    );
}

/// A constant record that every level uses.
fn constant(s: &mut Sketch) {
    let (left, right) = (s.int(-1), s.text("shared"));
    let record = s.record(&[("left", left), ("right", right)]);
    s.bind("constant", Slot::Const(record));
}

fn one_level(s: &mut Sketch, names: &[String], level: u16) {
    // The level whose row is used: another one, so that it is a join.
    let other = (level * 7 + 5) % LEVELS;
    let nodes = [before_the_fall(s, level, other), after_the_fall(s, level)].concat();
    let given: Vec<(&str, u16)> = names.iter().map(String::as_str).zip(nodes).rev().collect();
    let key = s.record(&given);
    s.level(level, key, level);
    compared(s, level);
}

/// Patterns of fields 0 to 7: each is a part, up to the text that is bound and
/// constrained by a prefix.
fn before_the_fall(s: &mut Sketch, level: u16, other: u16) -> Vec<u16> {
    let word = s.text(&format!("word{}", level % 16));
    let (int, row, bytes) = (
        s.int(i64::from(level)),
        s.var(&format!("row{other}")),
        s.bytes(&[0, level as u8, 2]),
    );
    let payload = s.int(5);
    let union = s.record(&[("one", payload)]);
    let (left, right) = (s.int(6), s.var(&format!("text{other}")));
    let inner = s.record(&[("left", left), ("right", right)]);
    let base = s.var(&format!("row{other}"));
    let reference = s.access("field2", base);
    let read = s.access("field0", reference);
    let new = s.var(&format!("new{level}"));
    let prefix = s.prefix("wo");
    s.constrain(&format!("new{level}"), prefix);
    vec![int, word, row, bytes, union, inner, read, new]
}

/// Patterns of fields 8 to 15: what narrows is a residual.
fn after_the_fall(s: &mut Sketch, level: u16) -> Vec<u16> {
    let (bytes, fact) = (s.bytes(&[level as u8]), s.var(&format!("fact{level}")));
    let left = s.wildcard();
    let inner = s.record(&[("left", left)]);
    let union = s.record(&[("three", inner)]);
    let constant = s.var("constant");
    let least = s.var(&format!("least{level}"));
    let (prefix, fuzzy) = (s.prefix("wo"), s.fuzzy("word", 1, Anchor::Whole));
    let any = s.wildcard();
    vec![bytes, fact, union, constant, least, prefix, fuzzy, any]
}

fn compared(s: &mut Sketch, level: u16) {
    for (op, value) in [(Op::Ge, 3), (Op::Lt, 30)] {
        let (left, right) = (s.var(&format!("least{level}")), s.int(value));
        s.compare(op, left, right);
    }
}
