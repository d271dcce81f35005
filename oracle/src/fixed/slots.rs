//! Each slot kind as a starting binding, wherever a name can stand, and reads.

use crate::file::*;

use super::sketch::*;

/// Types: 0 Int, 1 Str, 2 Fact of predicate 0, 3 union {x 1: Int, y 2: Fact},
/// 4 record {a: Int, b: Fact, c: union}. Predicate 0 has key 4 and an Int value,
/// predicate 1 has key 0 and no value.
fn base() -> Sketch {
    let mut s = Sketch::default();
    let int = s.ty(Type::Int);
    s.ty(Type::Str);
    let fact = s.ty(Type::Fact(0));
    let union = s.union_ty(&[("x", 1, int), ("y", 2, fact)]);
    let key = s.record_ty(&[("a", int), ("b", fact), ("c", union)]);
    s.valued(key, int);
    s.predicate(int);
    s
}

fn slots(s: &mut Sketch) -> Vec<(&'static str, Slot)> {
    let three = s.int(3);
    let part = s.record(&[("a", three)]);
    let four = s.int(4);
    let x = s.record(&[("x", four)]);
    let last = s.record(&[("c", x)]);
    vec![
        ("a Row of its predicate", Slot::Row(5, 0)),
        ("a Row of another predicate", Slot::Row(5, 1)),
        ("a Row of no predicate", Slot::Row(5, NONE)),
        ("a Key", Slot::Key(5, 4)),
        ("a Derived", Slot::Derived(5)),
        ("an Int Field", Slot::Field(5, field(7, &[1, 2]), 0)),
        ("a Fact Field", Slot::Field(5, field(1, &[]), 2)),
        ("a union Field", Slot::Field(5, field(2, &[]), 3)),
        ("a record Field", Slot::Field(5, field(3, &[]), 4)),
        ("its own row's Field", Slot::Field(0, field(3, &[]), 0)),
        ("a Value", Slot::Value(5, 0)),
        ("a Value that is a reference", Slot::Value(5, 2)),
        ("a Const Int", Slot::Const(three)),
        ("a Const record", Slot::Const(part)),
        (
            "a Const record that lacks the first fields",
            Slot::Const(last),
        ),
    ]
}

/// One file for each slot, bound to r.
fn each(what: &str, level: impl Fn(&mut Sketch) -> u16) -> Vec<Entry> {
    let count = slots(&mut base()).len();
    (0..count)
        .map(|which| {
            let mut s = base();
            let (shows, slot) = slots(&mut s).swap_remove(which);
            s.bind("r", slot);
            let node = level(&mut s);
            s.level(0, node, 0);
            entry(format!("{what}: {shows}"), s.file)
        })
        .collect()
}

pub fn slot_entries() -> Vec<Entry> {
    let mut found = each("in an Int and a Fact field, then a constant", |s| {
        let (a, b, x) = (s.var("r"), s.var("r"), s.int(1));
        let c = s.record(&[("x", x)]);
        s.record(&[("a", a), ("b", b), ("c", c)])
    });
    found.extend(each("in a Fact field after the fall", |s| {
        let b = s.var("r");
        s.record(&[("b", b)])
    }));
    found.extend(each("as a union's payload", |s| {
        let (a, x) = (s.int(1), s.var("r"));
        let c = s.record(&[("y", x)]);
        let b = s.wildcard();
        s.record(&[("a", a), ("c", c), ("b", b)])
    }));
    found.extend(each("as a whole key", |s| s.var("r")));
    found.extend(each("read by a key name", |s| {
        let r = s.var("r");
        let read = s.access("a", r);
        s.record(&[("a", read)])
    }));
    found.extend(each("read by value", |s| {
        let r = s.var("r");
        let read = s.value(r);
        s.record(&[("a", read)])
    }));
    found.extend(each("selected", |s| {
        let r = s.var("r");
        let read = s.select("x", r);
        s.record(&[("a", read)])
    }));
    found
}

pub fn read_entries() -> Vec<Entry> {
    vec![
        entry(
            "a reference read through a fetched row",
            through(true, false),
        ),
        entry("a reference that was not fetched", through(false, false)),
        entry("the first of two fetched rows", through(true, true)),
        entry("a hoisted fact", hoisted(&["r"])),
        entry(
            "the first hoisted entry decides, though unbound",
            hoisted(&["n", "r"]),
        ),
        entry("a fact that was not hoisted", hoisted(&[])),
        entry(
            "a select's own path is recorded, outer one first",
            selects(),
        ),
        entry("a select of an unknown alternative", select_unknown()),
        entry("a name's last binding", last_binding()),
        entry("a chain of reads", crate::draw::shape::chain_of(12, true)),
        entry("a whole key read once for each field", whole_unfetched()),
        entry("a Const record opened field by field", opened()),
    ]
}

fn through(fetched: bool, twice: bool) -> RuleFile {
    let mut s = base();
    s.bind("r", Slot::Row(5, 0));
    if fetched {
        s.fetch(5, field(0, &[]), 8);
        s.fetch(5, field(1, &[]), 9);
    }
    if twice {
        s.fetch(5, field(1, &[]), 7);
    }
    let row = s.var("r");
    let reference = s.access("b", row);
    let read = s.access("a", reference);
    let key = s.record(&[("a", read)]);
    s.level(0, key, 0);
    s.file
}

fn hoisted(names: &[&str]) -> RuleFile {
    let mut s = base();
    s.bind("r", Slot::Row(5, 0));
    let inner = s.wildcard();
    let fact = s.fact(0, inner);
    for name in names {
        s.hoist(fact, name);
    }
    let one = s.int(1);
    let key = s.record(&[("a", one), ("b", fact)]);
    s.level(0, key, 0);
    s.file
}

fn selects() -> RuleFile {
    let mut s = Sketch::default();
    let int = s.ty(Type::Int);
    let inner = s.union_ty(&[("x", 1, int)]);
    let outer = s.union_ty(&[("y", 2, inner)]);
    s.bind("r", Slot::Field(5, field(3, &[4]), outer));
    s.keyed(int, |s| {
        let r = s.var("r");
        let y = s.select("y", r);
        s.select("x", y)
    })
}

fn select_unknown() -> RuleFile {
    let mut s = base();
    s.bind("r", Slot::Field(5, field(2, &[]), 3));
    let r = s.var("r");
    let read = s.select("a", r);
    let key = s.record(&[("a", read)]);
    s.level(0, key, 0);
    s.file
}

fn last_binding() -> RuleFile {
    one(Type::Int, |s| {
        s.bind("r", Slot::Derived(1));
        s.bind("q", Slot::Derived(2));
        s.bind("r", Slot::Field(3, field(0, &[]), 0));
        s.var("r")
    })
}

fn whole_unfetched() -> RuleFile {
    let mut s = base();
    s.bind("r", Slot::Field(5, field(1, &[]), 2));
    let r = s.var("r");
    s.level(0, r, 0);
    s.file
}

fn opened() -> RuleFile {
    let mut s = Sketch::default();
    let (int, text) = (s.ty(Type::Int), s.ty(Type::Str));
    let inner = s.record_ty(&[("c", int), ("d", text)]);
    let key = s.record_ty(&[("a", inner), ("b", inner)]);
    let (three, text) = (s.int(3), s.text("t"));
    let half = s.record(&[("d", text)]);
    let whole = s.record(&[("b", half), ("a", three)]);
    s.bind("k", Slot::Const(whole));
    let predicate = s.predicate(key);
    let (k, again) = (s.var("k"), s.var("k"));
    let read = s.access("b", again);
    let record = s.record(&[("a", read), ("b", k)]);
    s.level(predicate, k, 0);
    s.level(predicate, record, 1);
    s.file
}
