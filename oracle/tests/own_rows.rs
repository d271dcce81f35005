//! Equal fields of one row: the written rule beside what the original bodies report.

#![cfg(fjord_bodies)]

use oracle::compile::{noted, original};
use oracle::file::{MIN_WORK, RuleFile, Slot, Type};
use oracle::fixed::sketch::{field, two, union_then_int};
use oracle::plan::{Level, Plan, ResidualOp, Seek};
use oracle::run::{own_rows, planned};
use oracle::write::write;
use oracle::{draw, front, on_large_stack};

/// The one level of a file's plan, which reports nothing.
fn level(file: &RuleFile) -> Level {
    let (mut plan, _) = planned(&write(file)).expect("it has a plan");
    assert_eq!(
        (plan.levels.len(), plan.diagnostics.as_slice()),
        (1, &[][..])
    );
    plan.levels.remove(0)
}

/// "A door whose lock equals its key."
#[test]
fn a_name_in_two_fields() {
    let file = two(Type::Str, Type::Str, |s| (s.var("v"), s.var("v")));
    let level = level(&file);
    let equal = (field(1, &[]), ResidualOp::OwnField(field(0, &[])));
    assert_eq!(level.residuals, [equal]);
    assert_eq!((level.narrowings, level.parts), (1, 0));
    assert_eq!(level.nodes, [1]);
}

/// Always a residual, also while building; then building falls.
#[test]
fn while_building() {
    let file = two(Type::Int, Type::Int, |s| {
        s.bind("o", Slot::Field(0, field(1, &[]), 0));
        (s.var("o"), s.int(7))
    });
    let level = level(&file);
    assert_eq!(level.seek, Seek::Prefix(vec![]));
    let seven = vec![2, 0x80, 0, 0, 0, 0, 0, 0, 7];
    let residuals = [
        (field(0, &[]), ResidualOp::OwnField(field(1, &[]))),
        (field(1, &[]), ResidualOp::Bytes(seven)),
    ];
    assert_eq!(level.residuals, residuals);
    assert_eq!((level.narrowings, level.parts), (2, 0));
}

#[test]
fn a_payload_has_no_closer() {
    let file = union_then_int(Type::Int, |s| {
        s.bind("o", Slot::Field(0, field(1, &[]), 0));
        let payload = s.var("o");
        s.record(&[("x", payload)])
    });
    let level = level(&file);
    assert_eq!(level.seek, Seek::Prefix(vec![5, 0, 0, 0, 1]));
    let equal = (field(0, &[1]), ResidualOp::OwnField(field(1, &[])));
    assert_eq!(level.residuals[0], equal);
    assert_eq!((level.narrowings, level.closers, level.parts), (3, 0, 1));
}

fn equal_fields(level: &Level) -> usize {
    let ops = level.residuals.iter();
    ops.filter(|(_, op)| matches!(op, ResidualOp::OwnField(_)))
        .count()
}

/// Where the original reports code 4 there is a narrowing of the new kind, and nothing
/// else of the walk has changed: lists, narrowings and closers that are met. A level's
/// parts before the first such narrowing are the original's too.
#[test]
fn the_walk_is_the_originals_but_for_code_4() {
    let met = on_large_stack(|| {
        let mut met = [0; 3];
        for file in draw::files(26, 12_000) {
            let Ok(tables) = front(&file, MIN_WORK) else {
                continue;
            };
            let (by_rule, by_rust) = (noted(&tables, u64::MAX), original(&tables, u64::MAX));
            let equal: usize = by_rule.levels.iter().map(equal_fields).sum();
            assert_eq!(equal, own_rows(&by_rust));
            assert_eq!(own_rows(&by_rule), 0);
            assert_eq!(narrowings(&by_rule), narrowings(&by_rust) + equal);
            assert_eq!(lists(by_rule.clone()), lists(by_rust.clone()));
            for (rule, rust) in by_rule.levels.iter().zip(&by_rust.levels) {
                compared(rule, rust);
                met[0] += usize::from(equal_fields(rule) > 0);
                met[1] += usize::from(equal_fields(rule) > 0 && rule.parts > 0);
                met[2] += usize::from(rule.parts < rust.parts);
            }
        }
        met
    });
    assert!(met.iter().all(|&count| count > 50), "{met:?}");
}

fn narrowings(plan: &Plan) -> usize {
    plan.levels.iter().map(|level| level.narrowings).sum()
}

/// The four lists, without code 4.
fn lists(mut plan: Plan) -> Plan {
    plan.levels.clear();
    plan.diagnostics.retain(|(_, code)| *code != 4);
    plan
}

/// A level without equal fields is the original's but for its nodes; one with them has
/// no part, range, edge or guide that the original has not.
fn compared(rule: &Level, rust: &Level) {
    if equal_fields(rule) == 0 {
        let nodes = rule.nodes.clone();
        assert_eq!(
            *rule,
            Level {
                nodes,
                ..rust.clone()
            }
        );
        return;
    }
    assert!(rule.parts <= rust.parts);
    assert!(rule.folded.len() <= rust.folded.len());
    assert!(rule.residuals.len() >= rust.residuals.len() + equal_fields(rule));
}
