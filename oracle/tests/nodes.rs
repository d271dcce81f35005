//! The node of each entry: by the list in docs/DECISIONS.md, and beside the original
//! bodies, which know of none.

#![cfg(fjord_bodies)]

use oracle::compile::original;
use oracle::file::{Anchor, MIN_WORK, RuleFile, Slot, Type};
use oracle::fixed::sketch::{Sketch, field, one, two, union_then_int};
use oracle::nodes::dropped;
use oracle::plan::{Level, Seek};
use oracle::run::{Reference, answer, planned, reference};
use oracle::write::write;
use oracle::{draw, front, on_large_stack};

/// The one level of a file's plan.
fn level(file: &RuleFile) -> Level {
    let (mut plan, _) = planned(&write(file)).expect("it has a plan");
    assert_eq!(
        (plan.levels.len(), plan.diagnostics.as_slice()),
        (1, &[][..])
    );
    plan.levels.remove(0)
}

/// The nodes of the one level's parts, range, guide and residuals.
fn nodes(file: &RuleFile) -> Vec<u16> {
    level(file).nodes
}

#[test]
fn patterns_at_a_field_carry_their_own() {
    let constants = two(Type::Int, Type::Str, |s| (s.int(1), s.text("t")));
    assert_eq!(nodes(&constants), [0, 1]);
    let swapped = two(Type::Int, Type::Str, |s| {
        let (b, a) = (s.text("t"), s.int(1));
        (a, b)
    });
    assert_eq!(nodes(&swapped), [1, 0]);
    let after_the_fall = two(Type::Str, Type::Str, |s| (s.prefix("p"), s.prefix("q")));
    assert_eq!(nodes(&after_the_fall), [0, 1]);
    let guide = two(Type::Str, Type::Str, |s| {
        let (a, b) = (
            s.fuzzy("p", 1, Anchor::Whole),
            s.fuzzy("q", 1, Anchor::Whole),
        );
        (a, b)
    });
    assert_eq!(nodes(&guide), [0, 1]);
}

/// Tag and closer have the union's record, the payload its own.
#[test]
fn unions_carry_their_record() {
    let constant = union_then_int(Type::Int, |s| {
        let payload = s.int(4);
        s.record(&[("x", payload)])
    });
    // 0 the payload, 1 the record, 2 the second field.
    assert_eq!(nodes(&constant), [1, 2]);
    let register = union_then_int(Type::Int, |s| {
        s.bind("r", Slot::Field(5, field(2, &[]), 0));
        let payload = s.var("r");
        s.record(&[("x", payload)])
    });
    assert!(matches!(level(&register).seek, Seek::Composite(_)));
    assert_eq!(nodes(&register), [1, 0, 1, 2]);
    // All parts are bytes, and three of them the union's: a constraint gives the
    // payload.
    let named = union_then_int(Type::Int, |s| {
        let (value, payload) = (s.int(4), s.var("v"));
        s.constrain("v", value);
        s.record(&[("x", payload)])
    });
    assert!(matches!(level(&named).seek, Seek::Prefix(_)));
    // 0 the constraint, 1 the name, 2 the record, 3 the second field.
    assert_eq!(nodes(&named), [2, 0, 2, 3]);
}

/// By rank: the constant is a part, the prefix the range, the fuzzy text the guide,
/// a second prefix a residual; none has the name's node.
#[test]
fn constraints_carry_their_own() {
    let file = one(Type::Str, |s| {
        let x = s.var("x");
        let fuzzy = s.fuzzy("parse", 2, Anchor::Whole);
        let (second, first) = (s.prefix("q"), s.prefix("p"));
        let constant = s.text("t");
        for node in [fuzzy, first, second, constant] {
            s.constrain("x", node);
        }
        x
    });
    assert_eq!(nodes(&file), [4, 3, 1, 2]);
}

/// A slot's entry has the node that stands for the slot: the access, not the name
/// in it.
#[test]
fn slots_carry_what_stands_for_them() {
    let mut s = Sketch::default();
    let int = s.ty(Type::Int);
    let inner = s.record_ty(&[("n", int)]);
    let key = s.record_ty(&[("a", int), ("b", int)]);
    s.bind("r", Slot::Field(5, field(2, &[]), inner));
    s.bind("i", Slot::Field(6, field(0, &[]), int));
    let file = s.keyed(key, |s| {
        let name = s.var("r");
        let access = s.access("n", name);
        let plain = s.var("i");
        s.record(&[("a", plain), ("b", access)])
    });
    // 0 the name, 1 the access, 2 the plain name.
    assert_eq!(nodes(&file), [2, 1]);
}

/// Also a select, a row's name and a Fact that was searched for before.
#[test]
fn selects_and_facts_too() {
    let mut s = Sketch::default();
    let int = s.ty(Type::Int);
    let union = s.union_ty(&[("x", 1, int)]);
    let reference = s.ty(Type::Fact(0));
    let key = s.record_ty(&[("a", int), ("b", reference), ("c", reference)]);
    s.predicate(int);
    s.bind("u", Slot::Field(5, field(2, &[]), union));
    s.bind("row", Slot::Row(6, 0));
    let file = s.keyed(key, |s| {
        let name = s.var("u");
        let select = s.select("x", name);
        let row = s.var("row");
        let inner = s.int(7);
        let fact = s.fact(0, inner);
        s.hoist(fact, "row");
        s.record(&[("a", select), ("b", row), ("c", fact)])
    });
    // 0 the name, 1 the select, 2 the row's name, 3 the Fact's key, 4 the Fact.
    assert_eq!(nodes(&file), [1, 2, 4]);
}

/// `whole_key`: register fields have the level's own node, a Const's fields their
/// own.
#[test]
fn whole_keys() {
    let keyed = |slot: fn(&mut Sketch, u16) -> Slot| {
        let mut s = Sketch::default();
        let int = s.ty(Type::Int);
        let key = s.record_ty(&[("a", int), ("b", int)]);
        let slot = slot(&mut s, key);
        s.bind("k", slot);
        s.keyed(key, |s| s.var("k"))
    };
    let register = keyed(|_, key| Slot::Key(5, key));
    assert_eq!(nodes(&register), [0, 0]);
    let constant = keyed(|s, _| {
        let (b, a) = (s.int(1), s.int(2));
        Slot::Const(s.record(&[("a", a), ("b", b)]))
    });
    // 0 is b's, 1 is a's, 2 the record, 3 the level's own.
    assert_eq!(nodes(&constant), [1, 0]);
}

/// A Const that gives bytes has the node that stands for it; one that is opened has
/// its fields' own.
#[test]
fn opened_constants_carry_their_own() {
    let of_const = |whole: bool| {
        let mut s = Sketch::default();
        let int = s.ty(Type::Int);
        let inner = s.record_ty(&[("m", int), ("n", int)]);
        let key = s.record_ty(&[("a", inner)]);
        let (n, m) = (s.int(1), s.int(2));
        let fields = [("m", m), ("n", n)];
        let value = s.record(&fields[usize::from(!whole)..]);
        s.bind("c", Slot::Const(value));
        s.keyed(key, |s| {
            let name = s.var("c");
            s.record(&[("a", name)])
        })
    };
    // 0 is n's, 1 is m's, 2 the record, 3 the name.
    assert_eq!(nodes(&of_const(true)), [3]);
    assert_eq!(nodes(&of_const(false)), [0]);
}

/// Without its nodes each plan is the original bodies', data and bytes, but where these
/// report code 4 (tests/own_rows.rs); a file that 19 refuses has none.
#[test]
fn the_noting_copy_walks_as_the_original() {
    let entries = on_large_stack(|| {
        let mut entries = 0;
        for file in draw::files(25, 6_000) {
            let Some(with) = answer(&file) else {
                continue;
            };
            let reference = reference(&file, &with);
            if let Some(Reference::Rust(base)) = &reference {
                let without = with.map(|plan| dropped(&plan).expect("a plan"));
                assert_eq!(without, *base);
            }
            let Some((mut plan, _)) = planned(&file) else {
                continue;
            };
            let tables = front(&file, MIN_WORK).expect("it has a plan");
            for level in &mut plan.levels {
                assert_eq!(level.nodes.len(), level.entries());
                let known = |node: &u16| usize::from(*node) < tables.nodes.len();
                assert!(level.nodes.iter().all(known));
                entries += std::mem::take(&mut level.nodes).len();
            }
            if matches!(reference, Some(Reference::Rust(_))) {
                assert_eq!(plan, original(&tables, u64::MAX));
            }
        }
        entries
    });
    assert!(entries > 10_000, "{entries}");
}
