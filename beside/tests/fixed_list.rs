//! The fixed list of files with their answers (docs/ORACLE.md), nodes and all.

use oracle::compile::line;
use oracle::fixed::parse;
use sinalvento::{Buffers, compile};

const LIST: &str = include_str!("../../oracle/fixed/pairs.txt");

#[test]
fn every_pair_of_the_list() {
    let mut buffers = Buffers::new();
    let pairs = parse(LIST).expect("FILE = LINE");
    for (file, expected) in &pairs {
        let outcome = match compile(file, &mut buffers) {
            Ok(plan) => Ok(plan.to_vec()),
            Err(refusal) => Err(refusal.number()),
        };
        assert_eq!(line(&outcome), *expected, "{file:02x?}");
    }
    assert!(pairs.len() > 400, "{}", pairs.len());
}
