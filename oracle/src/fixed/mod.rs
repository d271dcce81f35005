//! The fixed list: files made by hand and by seed, each with its line.

pub mod door;
mod literal;
mod own_row;
pub mod plans;
mod refusal;
pub mod sketch;
mod slots;
mod walk;

use std::collections::BTreeSet;

use crate::compile::{hex, line, unhex};
use crate::coverage::reached_by;
use crate::run::{answer, answered};
use sketch::Entry;

/// Seed of the drawn files, how many there are, and their longest.
const SEED: u64 = 3;
const DRAWN: usize = 50;
const LONGEST: usize = 150;

const HEAD: &str = "\
# Rule files and the line that program `plan` prints for each: FILE = LINE.
# FILE is hex; LINE is hex, or `refused` and the number. A line that begins
# with `#` says what the next pairs show; a `##` line begins a group.
# Made by `oracle fixed` (docs/ORACLE.md): the lines are the answers of the copy of
# the Rust bodies that does what document 02 adds and notes the nodes; less their
# nodes they are the Rust bodies' own, which a test compares, but for files in which
# these report code 4 and those that are refused by 19. The group of drawn files
# comes from seed 3.
";

/// The whole list as text.
pub fn list() -> String {
    let mut out = String::from(HEAD);
    for (title, entries) in groups() {
        out.push_str(&format!("## {title}\n"));
        for entry in entries {
            let outcome = answer(&entry.bytes).expect("the list's files are cheap");
            out.push_str(&format!("# {}\n", entry.shows));
            out.push_str(&format!("{} = {}\n", hex(&entry.bytes), line(&outcome)));
        }
    }
    out
}

fn groups() -> Vec<(&'static str, Vec<Entry>)> {
    vec![
        ("the door table", door::rows()),
        ("constants", door::constants()),
        ("patterns", walk::patterns()),
        ("unions", walk::unions()),
        ("constraints", walk::constraints()),
        ("comparisons", walk::comparisons()),
        ("starting slots", slots::slot_entries()),
        ("reads", slots::read_entries()),
        ("lists of levels", walk::levels()),
        ("equal fields of one row", own_row::entries()),
        ("literals of the wrong kind", literal::entries()),
        ("truncations", refusal::truncations()),
        ("reading", refusal::reading()),
        ("whole-file checks", refusal::checks()),
        (
            "drawn files, each with branches not met together before",
            drawn(),
        ),
        ("full sections", refusal::full_sections()),
        ("the plan's limit", refusal::long_plans()),
        ("the file's limit", refusal::long_files()),
    ]
}

/// Drawn files that are accepted and take the bodies by a new set of branches.
fn drawn() -> Vec<Entry> {
    let mut known = BTreeSet::new();
    answered(SEED, LONGEST)
        .filter(|(_, outcome)| outcome.is_ok())
        .map(|(file, _)| (reached_by(&file), file))
        .filter(|(sites, _)| sites.len() > 45 && known.insert(sites.clone()))
        .take(DRAWN)
        .map(|(sites, bytes)| Entry {
            shows: format!("{} branches", sites.len()),
            bytes,
        })
        .collect()
}

/// The pairs of a list: the file, and the line.
pub fn parse(list: &str) -> Result<Vec<(Vec<u8>, &str)>, String> {
    let pairs = list.lines().filter(|line| !line.starts_with('#'));
    pairs.map(parse_pair).collect()
}

fn parse_pair(pair: &str) -> Result<(Vec<u8>, &str), String> {
    let (file, line) = pair
        .split_once(" = ")
        .ok_or(format!("no ` = ` in {pair}"))?;
    let file = unhex(file).ok_or(format!("no hex: {file}"))?;
    Ok((file, line))
}
