//! The bodies with one mistake each, made by the build, and how many files tell
//! them from the text without it.

use crate::compile::{Walk, base_within, noted};
use crate::file::{MAX_PLAN, MIN_WORK};
use crate::run::FUEL;

pub struct Mutant {
    pub name: &'static str,
    pub what: &'static str,
    pub walk: Walk,
}

macro_rules! mutant_module {
    ($name:ident, $file:literal) => {
        #[allow(dead_code, unused, clippy::all)]
        mod $name {
            use crate::standin::*;
            use std::sync::Arc;

            use self::Compare as CompareOp;

            include!(concat!(env!("OUT_DIR"), $file));
        }
    };
}

include!(concat!(env!("OUT_DIR"), "/mutants.rs"));

/// For each mutant, on how many of the files its line differs.
pub fn different(files: impl Iterator<Item = Vec<u8>>) -> Vec<usize> {
    let mut counts = vec![0; MUTANTS.len()];
    for file in files {
        // In the base's form, as a mutant's: it notes no nodes.
        let Some(expected) = base_within(noted, FUEL, &file, MAX_PLAN, MIN_WORK) else {
            continue;
        };
        for (mutant, count) in MUTANTS.iter().zip(&mut counts) {
            let given = run(mutant, &file);
            *count += usize::from(given.as_ref() != Some(&expected));
        }
    }
    counts
}

/// A mutant may panic or run away; either is a difference.
fn run(mutant: &Mutant, file: &[u8]) -> Option<Result<Vec<u8>, u8>> {
    let work = || base_within(mutant.walk, 2 * FUEL, file, MAX_PLAN, MIN_WORK);
    std::panic::catch_unwind(work).ok().flatten()
}
