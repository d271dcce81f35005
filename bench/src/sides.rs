//! The two that are measured: the exported functions, and the oracle.

use std::hint::black_box;
use std::time::Duration;

use oracle::nodes::dropped;
use oracle::plan::write_plan;
use oracle::reread::reread;
use sinalvento::{MAX_PLAN, MIN_WORK};

use crate::apart::{self, Side};
use crate::clock::timed;
use crate::files::{Case, Part};
use crate::timing::Times;

/// The memory that the exported function is lent, the same for all calls.
pub struct Lent {
    plan: Vec<u8>,
    work: Vec<u8>,
}

impl Lent {
    pub fn new() -> Self {
        Self {
            plan: vec![0; MAX_PLAN],
            work: vec![0; MIN_WORK],
        }
    }

    /// What every call owes by its contract, where its plan has this length.
    pub fn zero_behind(&mut self, plan: usize) {
        black_box(&mut self.plan)[plan..].fill(0);
        black_box(&mut self.work).fill(0);
    }
}

/// Each file once, by the exported function. The plan reader is lent no work
/// area: it uses none.
pub fn exported(case: &Case, lent: &mut Lent) {
    for file in &case.files {
        let file = black_box(file);
        black_box(match case.part {
            Part::Plan => sinalvento::call_read(file, &mut lent.plan, &mut []),
            _ => sinalvento::call(file, &mut lent.plan, &mut lent.work),
        });
    }
}

/// Each file once, by the oracle: its whole path, or its front half. It needs no lent
/// memory, and writes to it only where it zeroes what a call owes.
pub fn rust(case: &Case, lent: &mut Lent) {
    for file in &case.files {
        let file = black_box(file);
        match case.part {
            Part::Whole => drop(black_box(oracle::compile_base(file, MAX_PLAN, MIN_WORK))),
            Part::Zeroed => {
                let answer = black_box(oracle::compile_base(file, MAX_PLAN, MIN_WORK));
                lent.zero_behind(answer.map_or(0, |plan| plan.len()));
            }
            Part::Front => drop(black_box(oracle::front(file, MIN_WORK))),
            Part::Plan => drop(black_box(read_back(file))),
        }
    }
}

/// A plan, or a refusal's number.
pub type Answer = Result<Vec<u8>, u8>;

/// The exported function's answer.
pub fn given(file: &[u8], part: Part, lent: &mut Lent) -> Answer {
    let answer = match part {
        Part::Plan => sinalvento::read_into(file, &mut lent.plan, &mut []),
        _ => sinalvento::compile_into(file, &mut lent.plan, &mut lent.work),
    };
    answer
        .map(<[u8]>::to_vec)
        .map_err(|refusal| refusal.number())
}

/// The oracle's answer; of a compile it is the original bodies', which have no nodes.
pub fn expected(file: &[u8], part: Part) -> Answer {
    match part {
        Part::Plan => read_back(file),
        _ => oracle::compile_base(file, MAX_PLAN, MIN_WORK),
    }
}

/// Whether the two answers are the same, the nodes of a compile left aside.
fn agree(given: &Answer, expected: &Answer, part: Part) -> bool {
    match (part, given) {
        (Part::Plan, _) | (_, Err(_)) => given == expected,
        (_, Ok(plan)) => dropped(plan) == *expected,
    }
}

/// A plan by the reader that is written from the papers: as data, and written.
fn read_back(plan: &[u8]) -> Answer {
    reread(plan, MAX_PLAN).map(|data| write_plan(&data))
}

/// The answers to a case's files and how long they took; none where the two
/// sides differ.
pub fn agreed(case: &Case, lent: &mut Lent) -> Option<(Vec<Answer>, Times)> {
    let mut answers = vec![];
    let (mut by_exported, mut by_rust) = (Duration::ZERO, Duration::ZERO);
    for file in &case.files {
        let (given, exported) = timed(|| given(file, case.part, lent));
        let (expected, rust) = timed(|| expected(file, case.part));
        if !agree(&given, &expected, case.part) {
            return None;
        }
        answers.push(given);
        by_exported += exported;
        by_rust += rust;
    }
    let times = Times {
        exported: Some(by_exported),
        rust: Some(by_rust),
    };
    Some((answers, times))
}

/// The same where a side may take longer than `limit`: then it has no time, and where both
/// do no answer is known. Each side is asked in a process of its own.
pub fn agreed_within(case: &Case, limit: Duration) -> Option<(Vec<Answer>, Times)> {
    let exported = apart::answer(case, Side::Exported, limit);
    let rust = apart::answer(case, Side::Rust, limit);
    if let (Some((given, _)), Some((expected, _))) = (&exported, &rust)
        && !agree(given, expected, case.part)
    {
        return None;
    }
    let times = Times {
        exported: exported.as_ref().map(|(_, time)| *time),
        rust: rust.as_ref().map(|(_, time)| *time),
    };
    let known = exported.or(rust).into_iter();
    Some((known.map(|(answer, _)| answer).collect(), times))
}

#[cfg(test)]
mod tests {
    use super::*;

    #[test]
    fn what_a_call_owes_is_zeroed() {
        let mut lent = Lent {
            plan: vec![1; 5],
            work: vec![1; 3],
        };
        lent.zero_behind(2);
        assert_eq!(lent.plan, [1, 1, 0, 0, 0]);
        assert_eq!(lent.work, [0; 3]);
    }
}
