//! Equal fields of one row: request [8] of document 02.

use crate::file::*;

use super::sketch::*;

/// The level's own address, as [`Sketch::keyed`] has it.
const OWN: u16 = 0;

/// A key {a: Int, b: Int, c: Int, r: record {m: Int, n: Int}, u: union {x 1: Int, y
/// 2: Int}, f: Fact of predicate 0}, which is predicate 0's.
fn base() -> (Sketch, u16) {
    let mut s = Sketch::default();
    let int = s.ty(Type::Int);
    let record = s.record_ty(&[("m", int), ("n", int)]);
    let union = s.union_ty(&[("x", 1, int), ("y", 2, int)]);
    let fact = s.ty(Type::Fact(0));
    let key = s.record_ty(&[
        ("a", int),
        ("b", int),
        ("c", int),
        ("r", record),
        ("u", union),
        ("f", fact),
    ]);
    let predicate = s.predicate(key);
    (s, predicate)
}

/// Types of [`base`].
const INT: u16 = 0;
const UNION: u16 = 2;
const KEY: u16 = 4;

/// One level, whose own node is given.
fn level(node: impl FnOnce(&mut Sketch) -> u16) -> RuleFile {
    let (mut s, predicate) = base();
    let node = node(&mut s);
    s.level(predicate, node, OWN);
    s.file
}

/// Several levels, each with its address.
fn levels(addresses: &[u16], node: impl Fn(&mut Sketch) -> u16) -> RuleFile {
    let (mut s, predicate) = base();
    for &address in addresses {
        let node = node(&mut s);
        s.level(predicate, node, address);
    }
    s.file
}

/// A name for this path of the level's own row.
fn own(s: &mut Sketch, path: Path) -> u16 {
    s.bind("o", Slot::Field(OWN, path, INT));
    s.var("o")
}

pub fn entries() -> Vec<Entry> {
    let mut found = names();
    found.extend(reads());
    found.extend(nested());
    found.extend(rows());
    found.extend(around());
    found
}

fn names() -> Vec<Entry> {
    vec![
        entry(
            "a name in two fields",
            level(|s| {
                let (a, b) = (s.var("v"), s.var("v"));
                s.record(&[("a", a), ("b", b)])
            }),
        ),
        entry(
            "a name in three fields: both stand beside the first",
            level(|s| {
                let (a, b, c) = (s.var("v"), s.var("v"), s.var("v"));
                s.record(&[("a", a), ("b", b), ("c", c)])
            }),
        ),
        entry(
            "while building: a part, then building falls",
            level(|s| {
                let (a, b, c) = (s.int(1), own(s, field(0, &[])), s.int(3));
                s.record(&[("a", a), ("b", b), ("c", c)])
            }),
        ),
        entry(
            "first of all",
            level(|s| {
                let (a, b) = (own(s, field(2, &[])), s.int(2));
                s.record(&[("a", a), ("b", b)])
            }),
        ),
        entry(
            "a path that is to equal itself",
            level(|s| {
                let (a, b) = (own(s, field(0, &[])), s.int(2));
                s.record(&[("a", a), ("b", b)])
            }),
        ),
        entry(
            "a path of all steps",
            level(|s| {
                let a = own(s, field(0xFFFF, &[0xFFFF_FFFF; MAX_STEPS]));
                s.record(&[("a", a)])
            }),
        ),
        entry(
            "of another type than the field's",
            level(|s| {
                s.bind("o", Slot::Field(OWN, field(3, &[]), KEY));
                let f = s.var("o");
                s.record(&[("f", f)])
            }),
        ),
        entry(
            "a scalar key",
            one(Type::Str, |s| {
                s.bind("o", Slot::Field(OWN, field(0, &[]), INT));
                s.var("o")
            }),
        ),
    ]
}

fn reads() -> Vec<Entry> {
    vec![
        entry(
            "an access of a record that was captured",
            level(|s| {
                let (r, name) = (s.var("v"), s.var("v"));
                let u = s.access("m", name);
                s.record(&[("r", r), ("u", u)])
            }),
        ),
        entry(
            "an access of the own row",
            level(|s| {
                s.bind("o", Slot::Row(OWN, 0));
                let name = s.var("o");
                let (a, b) = (s.access("b", name), s.int(2));
                s.record(&[("a", a), ("b", b)])
            }),
        ),
        entry(
            "an access of the own key",
            level(|s| {
                s.bind("o", Slot::Key(OWN, KEY));
                let name = s.var("o");
                let record = s.access("r", name);
                let (a, b) = (s.int(1), s.access("n", record));
                s.record(&[("a", a), ("b", b)])
            }),
        ),
        entry(
            "a select of the own union",
            level(|s| {
                s.bind("o", Slot::Field(OWN, field(4, &[]), UNION));
                let name = s.var("o");
                let (a, b) = (s.int(1), s.select("y", name));
                s.record(&[("a", a), ("b", b)])
            }),
        ),
        entry(
            "a hoisted Fact that stands for a field of the own row",
            level(|s| {
                s.bind("o", Slot::Field(OWN, field(5, &[]), INT));
                let inner = s.wildcard();
                let fact = s.fact(0, inner);
                s.hoist(fact, "o");
                s.record(&[("f", fact)])
            }),
        ),
        entry(
            "through a reference that the own register has fetched",
            level(|s| {
                s.bind("o", Slot::Row(5, 0));
                s.fetch(5, field(5, &[]), OWN);
                let name = s.var("o");
                let reference = s.access("f", name);
                let a = s.access("b", reference);
                s.record(&[("a", a)])
            }),
        ),
    ]
}

fn nested() -> Vec<Entry> {
    let unions = |b: fn(&mut Sketch) -> u16| {
        level(|s| {
            let (a, b, c, payload) = (s.int(1), b(s), s.int(3), own(s, field(0, &[])));
            let (m, n) = (s.int(4), s.int(5));
            let (r, u) = (s.record(&[("m", m), ("n", n)]), s.record(&[("y", payload)]));
            s.record(&[("a", a), ("b", b), ("c", c), ("r", r), ("u", u)])
        })
    };
    vec![
        entry("a payload while building: no closer", unions(|s| s.int(2))),
        entry("a payload after the fall", unions(|s| s.wildcard())),
        entry(
            "a payload that was captured, in a field before it",
            level(|s| {
                let (c, payload) = (s.var("v"), s.var("v"));
                let u = s.record(&[("x", payload)]);
                s.record(&[("c", c), ("u", u)])
            }),
        ),
        entry(
            "two fields of an inner record",
            level(|s| {
                let (m, n) = (s.var("v"), s.var("v"));
                let r = s.record(&[("m", m), ("n", n)]);
                s.record(&[("r", r)])
            }),
        ),
    ]
}

fn rows() -> Vec<Entry> {
    let name = |s: &mut Sketch| {
        let a = s.var("v");
        s.record(&[("a", a)])
    };
    vec![
        entry("two levels of one address", levels(&[7, 7], name)),
        entry(
            "three levels, the last one's is the first's",
            levels(&[7, 8, 7], name),
        ),
        entry(
            "the whole key of its own row: each field is to equal itself",
            levels(&[7, 7], |s| s.var("k")),
        ),
        entry(
            "a record of its own row as a whole key",
            level(|s| {
                s.bind("o", Slot::Field(OWN, field(3, &[2]), KEY));
                s.var("o")
            }),
        ),
    ]
}

/// What stands around it is placed as behind any fall; constraints are as before.
fn around() -> Vec<Entry> {
    let then = |b: fn(&mut Sketch) -> u16| {
        two(Type::Str, Type::Str, |s| {
            s.bind("o", Slot::Field(OWN, field(1, &[]), 1));
            (s.var("o"), b(s))
        })
    };
    vec![
        entry("then a Prefix", then(|s| s.prefix("p"))),
        entry("then a Fuzzy", then(|s| s.fuzzy("f", 1, Anchor::Whole))),
        entry(
            "then a name with a comparison: no edge",
            then(|s| {
                let (v, text) = (s.var("v"), s.text("t"));
                s.compare(Op::Ge, v, text);
                v
            }),
        ),
        entry(
            "behind a range",
            two(Type::Str, Type::Str, |s| {
                s.bind("o", Slot::Field(OWN, field(0, &[]), 0));
                (s.prefix("p"), s.var("o"))
            }),
        ),
        entry(
            "as a constraint: code 8",
            level(|s| {
                s.bind("o", Slot::Field(OWN, field(1, &[]), INT));
                let (a, constraint) = (s.var("v"), s.var("o"));
                s.constrain("v", constraint);
                s.record(&[("a", a)])
            }),
        ),
    ]
}
