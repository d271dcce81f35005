//! Which branches of the cut text a run reached, counted by its second copy.

use std::cell::Cell;

use crate::compile::base_within;
use crate::file::{MAX_PLAN, MIN_WORK};
use crate::run::FUEL;

/// Source line, function, branch.
pub type Site = (usize, &'static str, &'static str);

#[cfg(fjord_bodies)]
pub const SITES: &[Site] = include!(concat!(env!("OUT_DIR"), "/sites.rs"));
#[cfg(not(fjord_bodies))]
pub const SITES: &[Site] = &[];

const MOST_SITES: usize = 512;

thread_local! {
    static HITS: [Cell<u64>; MOST_SITES] = const { [const { Cell::new(0) }; MOST_SITES] };
}

pub fn hit(site: usize) {
    HITS.with(|hits| hits[site].set(hits[site].get() + 1));
}

/// How often this thread was at a site.
pub fn hits(site: usize) -> u64 {
    HITS.with(|hits| hits[site].get())
}

/// Counts the two ways of a `?`: its site where it returns, the next where not.
pub trait Seen {
    fn seen(self, site: usize) -> Self;
}

impl<T> Seen for Option<T> {
    fn seen(self, site: usize) -> Self {
        hit(site + usize::from(self.is_some()));
        self
    }
}

pub struct Report {
    pub files: usize,
    pub out_of_fuel: usize,
    pub reached: usize,
    pub unreached: Vec<Site>,
}

/// Runs the counting copy on these files.
pub fn measure(files: impl Iterator<Item = Vec<u8>>) -> Report {
    let (mut count, mut out_of_fuel) = (0, 0);
    for file in files {
        count += 1;
        let done = base_within(counted, FUEL, &file, MAX_PLAN, MIN_WORK);
        out_of_fuel += usize::from(done.is_none());
    }
    let unreached: Vec<Site> = (0..SITES.len())
        .filter(|&site| hits(site) == 0)
        .map(|site| SITES[site])
        .collect();
    Report {
        files: count,
        out_of_fuel,
        reached: SITES.len() - unreached.len(),
        unreached,
    }
}

/// The sites that one file reaches.
pub fn reached_by(file: &[u8]) -> Vec<usize> {
    let before: Vec<u64> = (0..SITES.len()).map(hits).collect();
    base_within(counted, FUEL, file, MAX_PLAN, MIN_WORK);
    let reached = |site: &usize| hits(*site) > before[*site];
    (0..SITES.len()).filter(reached).collect()
}

/// Narrowings and closers that became parts, as this thread met them in the
/// text itself: a narrowing is each entry to `narrow_by` and `narrow_by_tag`,
/// and each splice of a register in `matched`, whichever side of its `if` it
/// takes; a closer is what the last `if` of `inject` pushes.
pub fn events() -> (u64, u64) {
    let (mut narrowings, mut closer) = (0, 0);
    for (site, (_, function, what)) in SITES.iter().enumerate() {
        match (*function, *what) {
            ("narrow_by" | "narrow_by_tag", "entered") => narrowings += hits(site),
            ("matched", "`else`") => narrowings += hits(site) + hits(site - 1),
            ("inject", "`if` holds") => closer = hits(site),
            _ => {}
        }
    }
    (narrowings, closer)
}

#[cfg(fjord_bodies)]
pub fn counted(file: &crate::file::RuleFile, fuel: u64) -> crate::plan::Plan {
    crate::bodies::counted::walk(file, fuel)
}

#[cfg(not(fjord_bodies))]
pub use crate::compile::original as counted;
