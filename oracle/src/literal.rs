//! Refusal 19, request [7] of document 02: whether a walk brought a constant to a key,
//! field or payload whose type gives it no bytes. The copy of the bodies says so where it
//! happens (build/later.rs); the original bodies never do.

use std::cell::Cell;

use crate::compile::Walk;
use crate::file::RuleFile;
use crate::plan::Plan;

/// The refusal's number.
pub const LITERAL: u8 = 19;

thread_local! {
    static MET: Cell<bool> = const { Cell::new(false) };
}

/// A walk has met such a constant.
pub fn meet() {
    MET.set(true);
}

/// The plan of a walk over all levels of a checked file, or 19.
pub fn walked(walk: Walk, file: &RuleFile, fuel: u64) -> Result<Plan, u8> {
    // A walk that ran out of fuel may have left it set.
    MET.set(false);
    let plan = walk(file, fuel);
    if MET.get() { Err(LITERAL) } else { Ok(plan) }
}
