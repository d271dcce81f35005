//! The door table's rows, and constants.

use crate::file::*;

use super::sketch::*;

/// The file of row D1, as the paper gives it.
pub fn d1() -> RuleFile {
    two(Type::Int, Type::Str, |s| (s.int(7), s.prefix("k"))).renamed("room", "tag")
}

impl RuleFile {
    /// The record's two names, in D1's words.
    fn renamed(mut self, a: &str, b: &str) -> Self {
        self.names[0] = a.as_bytes().to_vec();
        self.names[1] = b.as_bytes().to_vec();
        self
    }
}

pub fn rows() -> Vec<Entry> {
    let register = |s: &mut Sketch| {
        s.bind("r", Slot::Field(5, field(2, &[]), 0));
        let payload = s.var("r");
        s.record(&[("x", payload)])
    };
    let constant = |s: &mut Sketch| {
        let payload = s.int(4);
        s.record(&[("x", payload)])
    };
    let d10 = |depth: usize| entry(format!("D10: depth {depth}"), deep(depth));
    vec![
        entry("D1", d1()),
        entry("D2: Int -1", one(Type::Int, |s| s.int(-1))),
        entry("D3: the lowest Int", one(Type::Int, |s| s.int(i64::MIN))),
        entry("D4: an empty Prefix", one(Type::Str, |s| s.prefix(""))),
        entry(
            "D5: a lone Wildcard, scalar key",
            one(Type::Int, |s| s.wildcard()),
        ),
        entry("D5: a lone Wildcard, record key", wildcard_record()),
        entry("D6: a constant union", union_then_int(Type::Int, constant)),
        entry(
            "D7: a register payload",
            union_then_int(Type::Int, register),
        ),
        entry("D8: two lower comparisons", two_lower()),
        entry("D9: prefix and fuzzy constraint", prefix_and_fuzzy()),
        d10(MAX_DEPTH),
        d10(MAX_DEPTH + 1),
    ]
}

fn wildcard_record() -> RuleFile {
    let mut s = Sketch::default();
    let int = s.ty(Type::Int);
    let key = s.record_ty(&[("a", int)]);
    s.keyed(key, |s| s.wildcard())
}

fn two_lower() -> RuleFile {
    one(Type::Int, |s| {
        let (x, low, lower) = (s.var("x"), s.int(3), s.int(5));
        s.compare(Op::Ge, x, low);
        s.compare(Op::Gt, x, lower);
        x
    })
}

fn prefix_and_fuzzy() -> RuleFile {
    one(Type::Str, |s| {
        let (x, fuzzy, prefix) = (
            s.var("x"),
            s.fuzzy("parse", 2, Anchor::Whole),
            s.prefix("pa"),
        );
        s.constrain("x", fuzzy);
        s.constrain("x", prefix);
        x
    })
}

/// Unions inside each other, the innermost an Int, with a pattern that binds it.
pub fn deep(depth: usize) -> RuleFile {
    let mut s = Sketch::default();
    let mut ty = s.ty(Type::Int);
    let mut node = s.var("x");
    for disc in 1..depth as u32 {
        ty = s.union_ty(&[("u", disc, ty)]);
        node = s.record(&[("u", node)]);
    }
    s.keyed(ty, |_| node)
}

pub fn constants() -> Vec<Entry> {
    let mut found = vec![
        entry("the highest Int", one(Type::Int, |s| s.int(i64::MAX))),
        entry("Int 0", one(Type::Int, |s| s.int(0))),
        entry("an empty Str", one(Type::Str, |s| s.text(""))),
        entry(
            "a Str with zero bytes",
            one(Type::Str, |s| s.text("\0a\0\0")),
        ),
        entry(
            "a Prefix that ends in a zero byte",
            one(Type::Str, |s| s.prefix("a\0")),
        ),
        entry("empty Bytes", one(Type::Bytes, |s| s.bytes(&[]))),
        entry(
            "Bytes with 00 and FF",
            one(Type::Bytes, |s| s.bytes(&[0, 0xFF, 0, 0x80])),
        ),
        entry("an Int where a Str belongs", one(Type::Str, |s| s.int(1))),
        entry(
            "a Str where Bytes belong",
            one(Type::Bytes, |s| s.text("a")),
        ),
    ];
    found.extend(records());
    found
}

/// A key field that is a record {c: Int, d: Str}, and an Int field after it.
fn record_field(node: impl FnOnce(&mut Sketch) -> u16) -> RuleFile {
    let mut s = Sketch::default();
    let (int, text) = (s.ty(Type::Int), s.ty(Type::Str));
    let inner = s.record_ty(&[("c", int), ("d", text)]);
    let key = s.record_ty(&[("a", inner), ("b", int)]);
    s.keyed(key, |s| {
        let (a, b) = (node(s), s.int(1));
        s.record(&[("b", b), ("a", a)])
    })
}

fn records() -> Vec<Entry> {
    let whole = |s: &mut Sketch| {
        let (c, d) = (s.int(2), s.text("t"));
        s.record(&[("d", d), ("c", c)])
    };
    let partial = |s: &mut Sketch| {
        let d = s.text("t");
        s.record(&[("d", d)])
    };
    let doubled = |s: &mut Sketch| {
        let (c, again, d) = (s.int(2), s.int(9), s.text("t"));
        s.record(&[("c", c), ("c", again), ("d", d)])
    };
    let foreign = |s: &mut Sketch| {
        let (c, d, e) = (s.int(2), s.text("t"), s.int(0));
        s.record(&[("e", e), ("c", c), ("d", d)])
    };
    let prefix = |s: &mut Sketch| {
        let (c, d) = (s.int(2), s.prefix("t"));
        s.record(&[("c", c), ("d", d)])
    };
    let captured = |s: &mut Sketch| {
        let (c, d) = (s.var("x"), s.text("t"));
        s.record(&[("c", c), ("d", d)])
    };
    let bound = |s: &mut Sketch| {
        let (c, d) = (s.int(2), s.text("t"));
        s.bind("k", Slot::Const(c));
        let c = s.var("k");
        s.record(&[("c", c), ("d", d)])
    };
    vec![
        entry(
            "a constant record field, fields in another order",
            record_field(whole),
        ),
        entry("a record field that lacks a field", record_field(partial)),
        entry("a record field with a name twice", record_field(doubled)),
        entry(
            "a record field with a name of its own",
            record_field(foreign),
        ),
        entry("a Prefix within a record", record_field(prefix)),
        entry("a Var within a record", record_field(captured)),
        entry("a Var bound to Const within a record", record_field(bound)),
        entry("an empty record pattern", record_field(|s| s.record(&[]))),
        entry("an Int where a record belongs", record_field(|s| s.int(1))),
        entry("an empty record type", empty_record()),
    ]
}

fn empty_record() -> RuleFile {
    let mut s = Sketch::default();
    let (empty, int) = (s.record_ty(&[]), s.ty(Type::Int));
    let key = s.record_ty(&[("a", empty), ("b", int)]);
    s.keyed(key, |s| {
        let (a, b) = (s.record(&[]), s.int(1));
        s.record(&[("a", a), ("b", b)])
    })
}
