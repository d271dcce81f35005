//! Literals of the wrong kind, refusal 19, and what is near them: request [7] of
//! document 02.

use crate::compile::unhex;
use crate::file::*;

use super::sketch::*;

/// A name k for a constant, then one level that has it, at a field a of this type.
fn named(ty: impl Fn(&mut Sketch) -> u16, constant: impl Fn(&mut Sketch) -> u16) -> RuleFile {
    let mut s = Sketch::default();
    let ty = ty(&mut s);
    let key = s.record_ty(&[("a", ty)]);
    let constant = constant(&mut s);
    s.bind("k", Slot::Const(constant));
    s.keyed(key, |s| {
        let a = s.var("k");
        s.record(&[("a", a)])
    })
}

/// The same, with the constant itself in the level.
fn written(ty: impl Fn(&mut Sketch) -> u16, pattern: impl Fn(&mut Sketch) -> u16) -> RuleFile {
    let mut s = Sketch::default();
    let ty = ty(&mut s);
    let key = s.record_ty(&[("a", ty)]);
    s.keyed(key, |s| {
        let a = pattern(s);
        s.record(&[("a", a)])
    })
}

/// The constant, by a name, as the whole key of this type.
fn whole(key: impl Fn(&mut Sketch) -> u16, constant: impl Fn(&mut Sketch) -> u16) -> RuleFile {
    let mut s = Sketch::default();
    let key = key(&mut s);
    let constant = constant(&mut s);
    s.bind("k", Slot::Const(constant));
    s.keyed(key, |s| s.var("k"))
}

fn text(s: &mut Sketch) -> u16 {
    s.ty(Type::Str)
}

fn int(s: &mut Sketch) -> u16 {
    s.ty(Type::Int)
}

fn fact(s: &mut Sketch) -> u16 {
    s.ty(Type::Fact(0))
}

/// {c: Int, d: Str}.
fn record(s: &mut Sketch) -> u16 {
    let (c, d) = (s.ty(Type::Int), s.ty(Type::Str));
    s.record_ty(&[("c", c), ("d", d)])
}

/// {x (1): Int, y (2): {c: Int, d: Str}}.
fn union(s: &mut Sketch) -> u16 {
    let (x, y) = (s.ty(Type::Int), record(s));
    s.union_ty(&[("x", 1, x), ("y", 2, y)])
}

fn half(s: &mut Sketch) -> u16 {
    let d = s.text("t");
    s.record(&[("d", d)])
}

/// Its d is no text.
fn mistyped(s: &mut Sketch) -> u16 {
    let d = s.int(1);
    s.record(&[("d", d)])
}

fn one_field(name: &'static str) -> impl Fn(&mut Sketch) -> u16 {
    move |s| {
        let value = s.int(1);
        s.record(&[(name, value)])
    }
}

pub fn entries() -> Vec<Entry> {
    let mut found = ways();
    found.extend(keys());
    found.extend(records());
    found.extend(unions());
    found.extend(passing());
    found.extend(places());
    found
}

/// A number where a text belongs, by each way in which it comes there.
fn ways() -> Vec<Entry> {
    let read = |s: &mut Sketch| {
        let value = s.int(1);
        let inner = s.record(&[("n", value)]);
        let outer = s.record(&[("n", inner)]);
        s.bind("k", Slot::Const(outer));
        let k = s.var("k");
        let n = s.access("n", k);
        s.access("n", n)
    };
    let hoisted = |s: &mut Sketch| {
        let value = s.int(1);
        s.bind("k", Slot::Const(value));
        let inner = s.wildcard();
        let node = s.fact(0, inner);
        s.hoist(node, "k");
        node
    };
    vec![
        entry("19: written", written(text, |s| s.int(1))),
        entry("19: by a name", named(text, |s| s.int(1))),
        entry("19: by a read of a Const", written(text, read)),
        entry("19: by a hoisted Fact", written(text, hoisted)),
        entry(
            "19: bytes where a number belongs",
            written(int, |s| s.bytes(b"b")),
        ),
        entry(
            "19: a text where a reference belongs",
            named(fact, |s| s.text("t")),
        ),
        entry(
            "19: a record where a reference belongs",
            named(fact, |s| s.record(&[])),
        ),
        entry("19: a record where a number belongs", written(int, half)),
        entry(
            "19: a number where a record belongs",
            written(record, |s| s.int(1)),
        ),
        entry(
            "19: a text where a union belongs",
            written(union, |s| s.text("t")),
        ),
    ]
}

fn keys() -> Vec<Entry> {
    let nothing = |s: &mut Sketch| s.record_ty(&[]);
    let literal = |key: fn(&mut Sketch) -> u16| {
        let mut s = Sketch::default();
        let key = key(&mut s);
        s.keyed(key, |s| s.int(1))
    };
    vec![
        entry("19: a number as a whole key", literal(record)),
        entry(
            "19: a number as a whole key, by a name",
            whole(record, |s| s.int(1)),
        ),
        entry(
            "19: a number as a whole key of no fields",
            literal(|s| s.record_ty(&[])),
        ),
        entry(
            "19: a text as a whole key of no fields, by a name",
            whole(nothing, |s| s.text("t")),
        ),
        entry(
            "a record of nothing as a whole key of no fields",
            whole(nothing, |s| s.record(&[])),
        ),
        entry(
            "a whole key's Const that lacks a field",
            whole(record, half),
        ),
        entry(
            "19: a whole key's Const with a field of the wrong kind",
            whole(record, mistyped),
        ),
        entry(
            "19: bytes as a union key, by a name",
            whole(union, |s| s.bytes(&[])),
        ),
    ]
}

/// Where both are records the fields decide.
fn records() -> Vec<Entry> {
    let deep = |s: &mut Sketch| {
        let inner = record(s);
        s.record_ty(&[("e", inner), ("f", inner)])
    };
    let inside = |of: fn(&mut Sketch) -> u16| {
        move |s: &mut Sketch| {
            let f = of(s);
            s.record(&[("f", f)])
        }
    };
    vec![
        entry("a record that lacks a field", written(record, half)),
        entry(
            "a record that lacks a field, by a name",
            named(record, half),
        ),
        entry(
            "19: a record's field of the wrong kind",
            written(record, mistyped),
        ),
        entry(
            "19: a record's field of the wrong kind, by a name",
            named(record, mistyped),
        ),
        entry(
            "a record in a record, each lacking a field",
            named(deep, inside(half)),
        ),
        entry(
            "19: the same with a field of the wrong kind",
            named(deep, inside(mistyped)),
        ),
        entry(
            "19: a number for a record's record",
            named(deep, inside(|s| s.int(1))),
        ),
        entry(
            "a record of nothing at a record",
            named(record, |s| s.record(&[])),
        ),
        entry(
            "a field that the type lacks is not met",
            named(record, one_field("z")),
        ),
    ]
}

/// A Record that is written at a union is never refused itself; brought by a name it is,
/// where it has no bytes.
fn unions() -> Vec<Entry> {
    let payload = |of: fn(&mut Sketch) -> u16| {
        move |s: &mut Sketch| {
            let y = of(s);
            s.record(&[("y", y)])
        }
    };
    // The papers' own: an empty Record at an empty union, by a name and written.
    let paper = |node: &str| {
        let start = "0100 00 0100 0500 0100 0000ffff 0200 0800 030000 0100 0000050000";
        let file = format!("{start} 0000 0000 0000 0000 0100 0000 {node} 0000");
        unhex(&file.replace(' ', "")).expect("it is hex")
    };
    let raw = |shows: &str, bytes: Vec<u8>| Entry {
        shows: String::from(shows),
        bytes,
    };
    vec![
        entry("a union's value by a name", named(union, one_field("x"))),
        entry(
            "no such alternative, written: code 10",
            written(union, one_field("z")),
        ),
        entry(
            "19: no such alternative, by a name",
            named(union, one_field("z")),
        ),
        raw("19: no alternative, by a name", paper("0100")),
        raw("no alternative, written: code 9", paper("0000")),
        entry("19: no such alternative, in a whole key's Const", {
            whole(
                |s| {
                    let union = union(s);
                    s.record_ty(&[("a", union)])
                },
                |s| {
                    let value = one_field("z")(s);
                    s.record(&[("a", value)])
                },
            )
        }),
        entry("19: a payload of the wrong kind", {
            written(union, |s| {
                let x = s.text("t");
                s.record(&[("x", x)])
            })
        }),
        entry(
            "a payload that lacks a field, written",
            written(union, payload(half)),
        ),
        entry(
            "19: a payload that lacks a field, by a name",
            named(union, payload(half)),
        ),
        entry(
            "19: a payload's field of the wrong kind",
            written(union, payload(mistyped)),
        ),
        entry("19: a payload by a name that is a number", {
            written(union, |s| {
                let value = s.int(1);
                s.bind("k", Slot::Const(value));
                let y = s.var("k");
                s.record(&[("y", y)])
            })
        }),
    ]
}

/// What is no constant, or is not brought to a field.
fn passing() -> Vec<Entry> {
    vec![
        entry("a record with a Wildcard in it, where a number belongs", {
            written(int, |s| {
                let c = s.wildcard();
                s.record(&[("c", c)])
            })
        }),
        entry(
            "a Prefix where a number belongs: code 8",
            written(int, |s| s.prefix("p")),
        ),
        entry("a constraint of the wrong kind: code 8", {
            written(text, |s| {
                let one = s.int(1);
                s.constrain("v", one);
                s.var("v")
            })
        }),
        entry("a comparison of the wrong kind", {
            written(text, |s| {
                let (v, one) = (s.var("v"), s.int(1));
                s.compare(Op::Lt, v, one);
                v
            })
        }),
        entry("a field's second pattern", {
            two(Type::Int, Type::Str, |s| (s.int(1), s.text("t"))).doubled()
        }),
        entry("in a Fact's own pattern", {
            written(fact, |s| {
                let inner = s.text("t");
                let node = s.fact(0, inner);
                s.bind("k", Slot::Row(5, 0));
                s.hoist(node, "k");
                node
            })
        }),
        entry("a select of a Const: code 2", {
            written(text, |s| {
                let value = s.int(1);
                s.bind("k", Slot::Const(value));
                let k = s.var("k");
                s.select("x", k)
            })
        }),
        entry("a name whose last binding is no Const", {
            written(text, |s| {
                let value = s.int(1);
                s.bind("k", Slot::Const(value));
                s.bind("k", Slot::Field(5, field(0, &[]), 0));
                s.var("k")
            })
        }),
        entry("19: a name whose last binding is a Const", {
            written(text, |s| {
                let value = s.int(1);
                s.bind("k", Slot::Field(5, field(0, &[]), 0));
                s.bind("k", Slot::Const(value));
                s.var("k")
            })
        }),
    ]
}

impl RuleFile {
    /// The level's record names its first field again, for a text.
    fn doubled(mut self) -> Self {
        let name = self.names.len() as u16 - 1;
        self.nodes.push(Node::Str(name));
        let again = self.nodes.len() as u16 - 1;
        let root = self.levels[0].node as usize;
        let Node::Record(mut fields) = self.nodes[root].clone() else {
            unreachable!("the level's node is a record");
        };
        fields.push((fields[0].0, again));
        self.nodes.push(Node::Record(fields));
        self.nodes[root] = Node::Wildcard;
        self.levels[0].node = self.nodes.len() as u16 - 1;
        self
    }
}

/// All levels are looked at, after 14 and before 15 (which the plan's limit has).
fn places() -> Vec<Entry> {
    let levels = |mistyped: usize| {
        let mut s = Sketch::default();
        let key = s.ty(Type::Str);
        let predicate = s.predicate(key);
        for at in 0..3 {
            let node = if at == mistyped {
                s.int(1)
            } else {
                s.text("t")
            };
            s.level(predicate, node, at as u16);
        }
        s.file
    };
    let mut both = levels(0);
    both.fetched.push(Fetched {
        address: 0,
        path: field(0, &[0; MAX_STEPS + 1]),
        register: 0,
    });
    vec![
        entry("19: in the first of three levels", levels(0)),
        entry("19: in the last of three levels", levels(2)),
        entry("14 before 19", both),
    ]
}
