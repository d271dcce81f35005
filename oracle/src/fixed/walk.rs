//! Patterns, unions, constraints, comparisons and lists of levels.

use crate::file::*;

use super::sketch::*;

/// Each pattern in an Int field and in a Str field, with an Int field after it
/// that shows whether building holds; after the fall; as a whole record key.
pub fn patterns() -> Vec<Entry> {
    let mut found = vec![];
    for (shows, make) in PATTERNS {
        let then_one = |s: &mut Sketch| (make(s), s.int(1));
        found.push(entry(
            format!("{shows} in an Int field"),
            two(Type::Int, Type::Int, then_one),
        ));
        found.push(entry(
            format!("{shows} in a Str field"),
            two(Type::Str, Type::Int, then_one),
        ));
        found.push(entry(
            format!("{shows} after the fall"),
            two(Type::Int, Type::Str, |s| (s.wildcard(), make(s))),
        ));
        found.push(entry(format!("{shows} as a whole key"), whole(make)));
    }
    found
}

type Make = fn(&mut Sketch) -> u16;

const PATTERNS: [(&str, Make); 10] = [
    ("a Var", |s| s.var("x")),
    ("a Never", |s| s.node(Node::Never)),
    ("a Disjunction", |s| s.node(Node::Disjunction)),
    ("a Subquery", |s| s.node(Node::Subquery)),
    ("an Arith", |s| s.node(Node::Arith)),
    ("an Error", |s| s.node(Node::Error)),
    ("a Prefix", |s| s.prefix("p")),
    ("a whole Fuzzy", |s| s.fuzzy("f", 1, Anchor::Whole)),
    ("a prefix Fuzzy", |s| s.fuzzy("f", 255, Anchor::Prefix)),
    ("a Str", |s| s.text("t")),
];

fn whole(make: Make) -> RuleFile {
    let mut s = Sketch::default();
    let int = s.ty(Type::Int);
    let key = s.record_ty(&[("a", int), ("b", int)]);
    s.keyed(key, make)
}

pub fn unions() -> Vec<Entry> {
    let payload = |make: Make| {
        union_then_int(Type::Str, move |s: &mut Sketch| {
            let payload = make(s);
            s.record(&[("x", payload)])
        })
    };
    vec![
        entry("a captured payload", payload(|s| s.var("x"))),
        entry("a Wildcard payload", payload(|s| s.wildcard())),
        entry("a Prefix payload", payload(|s| s.prefix("p"))),
        entry(
            "a Fuzzy payload",
            payload(|s| s.fuzzy("f", 1, Anchor::Whole)),
        ),
        entry("a mistyped constant payload", payload(|s| s.int(1))),
        entry("a Never payload", payload(|s| s.node(Node::Never))),
        entry(
            "a constrained payload: bytes leave building on",
            payload(|s| {
                let text = s.text("t");
                s.constrain("x", text);
                s.var("x")
            }),
        ),
        entry(
            "no alternative",
            union_then_int(Type::Int, |s| s.record(&[])),
        ),
        entry(
            "two alternatives",
            union_then_int(Type::Int, |s| {
                let (x, y) = (s.int(1), s.int(2));
                s.record(&[("x", x), ("y", y)])
            }),
        ),
        entry(
            "an unknown alternative",
            union_then_int(Type::Int, |s| {
                let z = s.int(1);
                s.record(&[("z", z)])
            }),
        ),
        entry(
            "an Int where a union belongs",
            union_then_int(Type::Int, |s| s.int(1)),
        ),
        entry(
            "a union captured whole",
            union_then_int(Type::Int, |s| s.var("v")),
        ),
        entry(
            "tag, register, closer, then the next field",
            union_then_int(Type::Int, |s| {
                s.bind("r", Slot::Field(5, field(2, &[]), 0));
                let r = s.var("r");
                s.record(&[("x", r)])
            }),
        ),
        entry(
            "own-row payload: a residual, and building falls, so no closer",
            union_then_int(Type::Int, |s| {
                s.bind("r", Slot::Field(0, field(2, &[]), 0));
                let r = s.var("r");
                s.record(&[("x", r)])
            }),
        ),
        entry(
            "mistyped Prefix payload: building holds, so a closer",
            union_then_int(Type::Int, |s| {
                let p = s.prefix("p");
                s.record(&[("x", p)])
            }),
        ),
        entry(
            "three unions, a register inside: three closers",
            nested_register(3, true),
        ),
        entry(
            "three unions after the fall: residual tags",
            nested_register(3, false),
        ),
        entry(
            "a union inside a record that is not whole",
            union_in_record(),
        ),
        entry(
            "a Prefix inside a payload's record: no constant",
            record_payload(),
        ),
    ]
}

fn nested_register(depth: u32, building: bool) -> RuleFile {
    let mut s = Sketch::default();
    let int = s.ty(Type::Int);
    s.bind("r", Slot::Field(5, field(0, &[]), int));
    let (mut ty, mut node) = (int, s.var("r"));
    for disc in 1..=depth {
        ty = s.union_ty(&[("u", disc * 0x0101_0101, ty)]);
        node = s.record(&[("u", node)]);
    }
    let key = s.record_ty(&[("a", int), ("b", ty), ("c", int)]);
    s.keyed(key, |s| {
        let a = if building { s.int(1) } else { s.wildcard() };
        let c = s.int(2);
        s.record(&[("a", a), ("b", node), ("c", c)])
    })
}

fn record_payload() -> RuleFile {
    let mut s = Sketch::default();
    let text = s.ty(Type::Str);
    let inner = s.record_ty(&[("c", text), ("d", text)]);
    let union = s.union_ty(&[("u", 3, inner)]);
    s.keyed(union, |s| {
        let (c, d) = (s.text("t"), s.prefix("p"));
        let payload = s.record(&[("c", c), ("d", d)]);
        s.record(&[("u", payload)])
    })
}

fn union_in_record() -> RuleFile {
    let mut s = Sketch::default();
    let int = s.ty(Type::Int);
    let union = s.union_ty(&[("u", 3, int)]);
    let inner = s.record_ty(&[("c", union), ("d", int)]);
    let key = s.record_ty(&[("a", inner)]);
    s.keyed(key, |s| {
        let x = s.var("x");
        let u = s.record(&[("u", x)]);
        let inner = s.record(&[("c", u)]);
        s.record(&[("a", inner)])
    })
}

pub fn constraints() -> Vec<Entry> {
    let ranked: [(&str, &[Make]); 9] = [
        ("bytes", &[|s| s.text("t")]),
        ("bytes twice", &[|s| s.text("t"), |s| s.text("u")]),
        (
            "prefix, then bytes: bytes come first",
            &[|s| s.prefix("p"), |s| s.text("t")],
        ),
        (
            "two prefixes: the second is a residual",
            &[|s| s.prefix("p"), |s| s.prefix("q")],
        ),
        (
            "prefix Fuzzy, whole Fuzzy: the whole one guides",
            &[
                |s| s.fuzzy("f", 1, Anchor::Prefix),
                |s| s.fuzzy("g", 2, Anchor::Whole),
            ],
        ),
        (
            "two whole Fuzzy: the first guides",
            &[
                |s| s.fuzzy("f", 1, Anchor::Whole),
                |s| s.fuzzy("g", 2, Anchor::Whole),
            ],
        ),
        (
            "Fuzzy, Prefix, bytes, Fuzzy",
            &[
                |s| s.fuzzy("f", 1, Anchor::Prefix),
                |s| s.prefix("p"),
                |s| s.text("t"),
                |s| s.fuzzy("g", 0, Anchor::Whole),
            ],
        ),
        ("mistyped, then bytes", &[|s| s.int(1), |s| s.text("t")]),
        (
            "prefix, then mistyped",
            &[|s| s.prefix("p"), |s| s.wildcard()],
        ),
    ];
    let mut found = vec![];
    for (shows, makes) in ranked {
        let level = |s: &mut Sketch| {
            for make in makes {
                let node = make(s);
                s.constrain("x", node);
            }
            (s.var("x"), s.int(1))
        };
        found.push(entry(
            format!("constraints: {shows}"),
            two(Type::Str, Type::Int, level),
        ));
    }
    found.push(entry(
        "constraints after the fall",
        two(Type::Int, Type::Str, |s| {
            let (text, prefix, fuzzy) =
                (s.text("t"), s.prefix("p"), s.fuzzy("f", 3, Anchor::Whole));
            s.constrain("x", fuzzy);
            s.constrain("x", prefix);
            s.constrain("x", text);
            (s.wildcard(), s.var("x"))
        }),
    ));
    found.push(entry(
        "a range, and a fuzzy of another field: a residual",
        two(Type::Str, Type::Str, |s| {
            (s.prefix("p"), s.fuzzy("f", 1, Anchor::Whole))
        }),
    ));
    found.push(entry(
        "a constrained name that is bound already is not constrained",
        two(Type::Str, Type::Int, |s| {
            s.bind("x", Slot::Field(5, field(0, &[]), 0));
            let text = s.text("t");
            s.constrain("x", text);
            (s.var("x"), s.int(1))
        }),
    ));
    found.push(entry(
        "a register, then a guide",
        two(Type::Str, Type::Str, |s| {
            s.bind("r", Slot::Field(5, field(0, &[]), 0));
            (s.var("r"), s.fuzzy("f", 1, Anchor::Prefix))
        }),
    ));
    found
}

pub fn comparisons() -> Vec<Entry> {
    let ops = [
        ("Lt", Op::Lt),
        ("Le", Op::Le),
        ("Gt", Op::Gt),
        ("Ge", Op::Ge),
    ];
    let mut found = vec![];
    for (name, op) in ops {
        for right in [false, true] {
            let side = if right { "right" } else { "left" };
            let level = |s: &mut Sketch| {
                let (x, five) = (s.var("x"), s.int(5));
                let (l, r) = if right { (five, x) } else { (x, five) };
                s.compare(op, l, r);
                (x, s.int(1))
            };
            let shows = format!("comparison {name}, the Var on the {side}");
            found.push(entry(shows, two(Type::Int, Type::Int, level)));
        }
    }
    let both = |s: &mut Sketch| {
        let (x, low, high, higher) = (s.var("x"), s.int(3), s.int(5), s.int(9));
        s.compare(Op::Lt, x, high);
        s.compare(Op::Le, x, higher);
        s.compare(Op::Lt, low, x);
        s.compare(Op::Ge, x, higher);
        (s.int(1), x)
    };
    let other = |make: Make| {
        two(Type::Int, Type::Int, move |s: &mut Sketch| {
            let (x, other) = (s.var("x"), make(s));
            s.compare(Op::Lt, x, other);
            (x, s.int(1))
        })
    };
    found.extend([
        entry(
            "both edges, the first of each sense",
            two(Type::Int, Type::Int, both),
        ),
        entry("the same Var on both sides", other(|s| s.var("x"))),
        entry(
            "a Var bound to Const on the other side",
            other(|s| {
                let seven = s.int(7);
                s.bind("k", Slot::Const(seven));
                s.var("k")
            }),
        ),
        entry(
            "a mistyped constant on the other side",
            other(|s| s.text("t")),
        ),
        entry("an unbound Var on the other side", other(|s| s.var("y"))),
        entry("a Prefix on the other side has no edge", prefix_edge()),
        entry("no edge after the fall", after_fall()),
        entry("no edge for a constrained name", constrained_edge()),
    ]);
    found
}

fn prefix_edge() -> RuleFile {
    two(Type::Str, Type::Int, |s| {
        let (x, prefix, text) = (s.var("x"), s.prefix("p"), s.text("t"));
        s.compare(Op::Gt, x, prefix);
        s.compare(Op::Gt, x, text);
        (x, s.int(1))
    })
}

fn after_fall() -> RuleFile {
    two(Type::Int, Type::Int, |s| {
        let (x, five) = (s.var("x"), s.int(5));
        s.compare(Op::Gt, x, five);
        (s.wildcard(), x)
    })
}

fn constrained_edge() -> RuleFile {
    two(Type::Int, Type::Int, |s| {
        let (x, five) = (s.var("x"), s.int(5));
        s.compare(Op::Gt, x, five);
        s.constrain("x", five);
        (x, s.int(1))
    })
}

/// Lists of levels: what one leaves is what the next begins from.
pub fn levels() -> Vec<Entry> {
    let mut found = vec![entry("no level", Sketch::default().file)];
    for count in [2, 3, 6] {
        let shows = format!("{count} levels share a name: bound once, then a register");
        found.push(entry(shows, shared(count, |level| level)));
    }
    found.push(entry(
        "two levels with one address: fields that are to equal themselves",
        shared(2, |_| 0),
    ));
    found.push(entry(
        "a whole key bound, then read by the next level",
        whole_then_read(),
    ));
    found.push(entry(
        "a union's payload bound, then read by the next level",
        payload_then_read(),
    ));
    found.push(entry(
        "a name is constrained where it is bound, not later",
        constrained_once(),
    ));
    found.push(entry(
        "an edge on each level, from its own comparisons",
        edges_per_level(),
    ));
    found.push(entry("the first level bare, the second not", bare_first()));
    found
}

fn shared(count: u16, address: impl Fn(u16) -> u16) -> RuleFile {
    let mut s = Sketch::default();
    let int = s.ty(Type::Int);
    let key = s.record_ty(&[("a", int), ("b", int)]);
    let predicate = s.predicate(key);
    let (x, y) = (s.var("x"), s.var("y"));
    let node = s.record(&[("a", x), ("b", y)]);
    for level in 0..count {
        s.level(predicate, node, address(level));
    }
    s.file
}

fn whole_then_read() -> RuleFile {
    let mut s = Sketch::default();
    let int = s.ty(Type::Int);
    let key = s.record_ty(&[("a", int), ("b", int)]);
    let predicate = s.predicate(key);
    let (k, again) = (s.var("k"), s.var("k"));
    let read = s.access("b", again);
    let record = s.record(&[("a", read)]);
    s.level(predicate, k, 0);
    s.level(predicate, k, 1);
    s.level(predicate, record, 2);
    s.file
}

fn payload_then_read() -> RuleFile {
    let mut s = Sketch::default();
    let int = s.ty(Type::Int);
    let union = s.union_ty(&[("x", 0xFFFF_FFFF, int)]);
    let predicate = s.predicate(union);
    let v = s.var("v");
    let node = s.record(&[("x", v)]);
    s.level(predicate, node, 3);
    s.level(predicate, node, 4);
    s.file
}

fn constrained_once() -> RuleFile {
    let mut s = Sketch::default();
    let text = s.ty(Type::Str);
    let predicate = s.predicate(text);
    let (x, prefix) = (s.var("x"), s.prefix("p"));
    s.constrain("x", prefix);
    s.level(predicate, x, 0);
    s.level(predicate, x, 1);
    s.file
}

fn edges_per_level() -> RuleFile {
    let mut s = Sketch::default();
    let int = s.ty(Type::Int);
    let predicate = s.predicate(int);
    let (x, y, five, six) = (s.var("x"), s.var("y"), s.int(5), s.int(6));
    s.compare(Op::Gt, y, five);
    s.compare(Op::Lt, x, six);
    s.compare(Op::Ge, six, y);
    s.level(predicate, x, 0);
    s.level(predicate, y, 1);
    s.file
}

fn bare_first() -> RuleFile {
    let mut s = Sketch::default();
    let int = s.ty(Type::Int);
    let predicate = s.predicate(int);
    let (wildcard, five) = (s.wildcard(), s.int(5));
    s.level(predicate, wildcard, 0);
    s.level(predicate, five, 1);
    s.file
}
