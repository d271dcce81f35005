//! The walk by the cut bodies, where the build found them.

#![cfg(fjord_bodies)]

use oracle::compile::{base_within, original};
use oracle::coverage::{self, SITES, counted, events};
use oracle::draw::boundary::plan_of_length;
use oracle::file::{MAX_PLAN, MIN_WORK};
use oracle::nodes::line_dropped;
use oracle::rng::Rng;
use oracle::run::{ByRule, FUEL, Reference, Why, answer, reference};
use oracle::survey::Survey;
use oracle::write::write;
use oracle::{compile, draw, fixed, front, line, on_large_stack};

const LIST: &str = include_str!("../fixed/pairs.txt");

#[test]
fn d1_to_the_byte() {
    let paper = "0100 0200 0000 0100 02 00 0900 028000000000000007 0000 0200 036b 010000 0100 00 \
                 0000 0000 0000 0000 0000 0000";
    let file = write(&fixed::door::d1());
    let outcome = compile(&file, MAX_PLAN, MIN_WORK);
    assert_eq!(line(&outcome), paper.replace(' ', ""));
    let base = "0100 0200 0000 0100 02 00 0900 028000000000000007 0200 036b 010000 00 \
                0000 0000 0000 0000 0000 0000";
    let outcome = base_within(original, FUEL, &file, MAX_PLAN, MIN_WORK);
    assert_eq!(
        outcome.map(|outcome| line(&outcome)),
        Some(base.replace(' ', ""))
    );
}

#[test]
fn the_list_is_reproduced() {
    let made = on_large_stack(fixed::list);
    assert!(
        made == LIST,
        "run `oracle fixed > fixed/pairs.txt` and look at what changed"
    );
}

/// The list's nodes come from a copy of the bodies. What else stands in its lines is
/// what the original bodies answer, but where these report code 4 or 19 is given.
#[test]
fn the_list_without_its_nodes_is_the_originals() {
    let (longer, by_rule) = on_large_stack(|| {
        let (mut longer, mut by_rule) = (0, ByRule::default());
        for (file, listed) in fixed::parse(LIST).expect("the list has its form") {
            let answer = answer(&file).expect("the list's files are cheap");
            let original = reference(&file, &answer).expect("the list's files are cheap");
            by_rule.add(&original);
            let Reference::Rust(original) = original else {
                continue;
            };
            assert_eq!(line_dropped(listed), line(&original), "{file:02x?}");
            longer += usize::from(line(&original) != listed);
        }
        (longer, by_rule)
    });
    assert!(longer > 100, "{longer} plans of the list have nodes");
    for why in [Why::OwnRow, Why::Literal] {
        assert!((20..60).contains(&by_rule.count(why)), "{by_rule}");
    }
}

/// Every code, seek, residual op, slot kind and kind of edge.
const FEATURES: [&str; 48] = [
    "accepted",
    "constrained name",
    "diagnostic 01",
    "diagnostic 02",
    "diagnostic 03",
    "diagnostic 05",
    "diagnostic 06",
    "diagnostic 07",
    "diagnostic 08",
    "diagnostic 09",
    "diagnostic 10",
    "diagnostic 11",
    "edge hi exclusive",
    "edge hi inclusive",
    "edge lo exclusive",
    "edge lo inclusive",
    "folded Ge, Var on the left",
    "folded Ge, Var on the right",
    "folded Gt, Var on the left",
    "folded Gt, Var on the right",
    "folded Le, Var on the left",
    "folded Le, Var on the right",
    "folded Lt, Var on the left",
    "folded Lt, Var on the right",
    "level with closers",
    "new binding 1 Key",
    "new binding 3 Field",
    "residual op 0",
    "residual op 1",
    "residual op 2",
    "residual op 3",
    "residual op 4",
    "residual op 5",
    "residual op 6",
    "seek 0",
    "seek 0 guided",
    "seek 1",
    "seek 1 guided",
    "seek 2",
    "seek 2 guided",
    "seek 3",
    "select",
    "starting slot 0 Row",
    "starting slot 1 Key",
    "starting slot 2 Derived",
    "starting slot 3 Field",
    "starting slot 4 Value",
    "starting slot 5 Const",
];

#[test]
fn the_list_reaches_every_feature() {
    let survey = on_large_stack(|| {
        let mut survey = Survey::default();
        for (file, _) in fixed::parse(LIST).expect("the list has its form") {
            survey.outcome(&file, &compile(&file, MAX_PLAN, MIN_WORK));
        }
        survey
    });
    for feature in FEATURES {
        assert!(survey.count(feature) > 0, "{feature}");
    }
}

#[test]
fn drawn_files_reach_every_feature() {
    let survey = on_large_stack(|| {
        let mut survey = Survey::default();
        for (file, outcome) in oracle::run::answered(21, usize::MAX).take(4_000) {
            survey.outcome(&file, &outcome);
        }
        survey
    });
    for feature in FEATURES {
        assert!(survey.count(feature) > 0, "{feature}");
    }
}

/// The functions whose remaining branches no accepted file can take; the
/// reasons stand in docs/ORACLE.md.
const UNREACHED: [(&str, usize); 7] = [
    ("source", 3),
    ("seek_key", 1),
    ("whole_key", 1),
    ("inject", 1),
    ("constant", 4),
    ("resolve", 1),
    ("field_slot", 1),
];

#[test]
fn drawn_files_reach_every_branch_that_can_be() {
    let report = on_large_stack(|| coverage::measure(draw::files(22, 20_000)));
    let expected: usize = UNREACHED.iter().map(|(_, count)| count).sum();
    for (function, count) in UNREACHED {
        let of = |site: &&coverage::Site| site.1 == function;
        assert_eq!(
            report.unreached.iter().filter(of).count(),
            count,
            "{function}"
        );
    }
    assert_eq!(report.unreached.len(), expected);
    assert_eq!(report.reached + expected, SITES.len());
    assert_eq!(report.out_of_fuel, 0);
}

/// The plan's counts are taken from what was placed; the text's own events,
/// counted where they happen, must give the same.
#[test]
fn narrowings_and_closers_are_the_walks() {
    on_large_stack(|| {
        for file in draw::files(23, 6_000) {
            let Ok(tables) = front(&file, MIN_WORK) else {
                continue;
            };
            let before = events();
            let plan = counted(&tables, u64::MAX);
            let after = events();
            let narrowings: usize = plan.levels.iter().map(|level| level.narrowings).sum();
            let closers: usize = plan.levels.iter().map(|level| level.closers).sum();
            assert_eq!(narrowings as u64, after.0 - before.0);
            assert_eq!(closers as u64, after.1 - before.1);
            assert_eq!(plan, original(&tables, u64::MAX));
        }
    });
}

#[test]
fn a_plan_buffer_is_too_short_or_long_enough() {
    on_large_stack(|| {
        for file in draw::files(24, 3_000) {
            let Ok(plan) = compile(&file, MAX_PLAN, MIN_WORK) else {
                continue;
            };
            let with = |length: usize| compile(&file, length, MIN_WORK);
            assert_eq!(with(plan.len()).as_ref(), Ok(&plan));
            assert_eq!(with(plan.len() + 1).as_ref(), Ok(&plan));
            assert_eq!(with(plan.len() - 1), Err(15));
            let length = draw::plan_buffer(&mut Rng::new(24, plan.len() as u64), plan.len());
            assert_eq!(with(length).is_ok(), plan.len() <= length);
        }
    });
}

#[test]
fn a_plan_has_the_length_it_was_drawn_for() {
    for length in (MAX_PLAN - 300..=MAX_PLAN + 300).step_by(7) {
        let file = plan_of_length(length, &mut Rng::new(5, length as u64));
        let outcome = compile(&write(&file), MAX_PLAN, MIN_WORK);
        if length <= MAX_PLAN {
            assert_eq!(outcome.map(|plan| plan.len()), Ok(length));
        } else {
            assert_eq!(outcome, Err(15));
        }
    }
}

#[test]
fn the_longest_chain_of_reads() {
    for fetched in [false, true] {
        let file = write(&draw::shape::chain_of(2_046, fetched));
        let outcome = on_large_stack(move || compile(&file, MAX_PLAN, MIN_WORK));
        assert!(outcome.is_ok());
    }
}

#[test]
fn a_walk_without_fuel_gives_nothing() {
    let file = write(&fixed::door::d1());
    assert_eq!(base_within(original, 3, &file, MAX_PLAN, MIN_WORK), None);
    assert!(base_within(original, FUEL, &file, MAX_PLAN, MIN_WORK).is_some());
}
