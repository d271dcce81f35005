//! Rule files drawn by seed: mostly whole ones, with shapes that chance alone
//! would not meet, and damaged ones.

pub mod boundary;
mod damage;
mod fault;
mod literal;
pub mod names;
mod own_row;
mod pattern;
mod place;
mod plain;
mod plain_pattern;
pub mod plans;
mod query;
mod schema;
pub mod shape;
mod shift;
pub mod worst;

use crate::file::RuleFile;
use crate::rng::Rng;
use crate::write::write;

/// Every so many files one is a truncation, taken in order, until there were
/// that many: finding a truncation takes longer the later it comes.
const SWEEP: u64 = 50;
const TRUNCATIONS: u64 = 4_000;
/// Keeps the draws of plain files apart from those of all.
const PLAIN: u64 = 0x0070_6C61_696E;

/// The bytes of file `index` of a seed.
pub fn file(seed: u64, index: u64) -> Vec<u8> {
    if index % SWEEP == SWEEP - 1 && index / SWEEP < TRUNCATIONS {
        return damage::truncation(seed, index / SWEEP);
    }
    let mut rng = Rng::new(seed, index);
    match rng.weighted(&[50, 25, 3, 2, 12, 8]) {
        0 => write(&query::query(&mut rng)),
        1 => write(&shape::shape(&mut rng)),
        2 => write(&shift::shifted(&mut rng)),
        3 => write(&boundary::boundary(&mut rng)),
        4 => fault_file(&mut rng),
        _ => damage::damaged(&mut rng),
    }
}

/// The bytes of file `index` of a seed, of those drawn so that their plans have no
/// diagnostics and no selects; some have them all the same.
pub fn plain_file(seed: u64, index: u64) -> Vec<u8> {
    let mut rng = Rng::new(seed ^ PLAIN, index);
    write(&plain::plain(&mut rng))
}

/// All files of a seed, in order.
pub fn files(seed: u64, count: u64) -> impl Iterator<Item = Vec<u8>> {
    (0..count).map(move |index| file(seed, index))
}

/// A plan buffer's length, drawn around the length of the plan: none, too
/// short by one, exact, one more, or any.
pub fn plan_buffer(rng: &mut Rng, plan: usize) -> usize {
    match rng.weighted(&[10, 25, 25, 15, 15, 10]) {
        0 => 0,
        1 => plan.saturating_sub(1),
        2 => plan,
        3 => plan + 1,
        4 => rng.below(plan + 2),
        _ => rng.below(2 * crate::file::MAX_PLAN),
    }
}

fn whole(rng: &mut Rng) -> RuleFile {
    match rng.weighted(&[75, 20, 5]) {
        0 => query::query(rng),
        1 => shape::shape(rng),
        _ => shift::shifted(rng),
    }
}

fn fault_file(rng: &mut Rng) -> Vec<u8> {
    let mut file = whole(rng);
    fault::faults(rng, &mut file);
    write(&file)
}
