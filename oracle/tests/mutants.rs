//! Mistakes put into the bodies are found. Run with `--features mutants`.

#![cfg(all(fjord_bodies, feature = "mutants"))]

use oracle::mutants::{MUTANTS, different};
use oracle::{draw, fixed, on_large_stack};

const LIST: &str = include_str!("../fixed/pairs.txt");

fn all_found(files: impl Iterator<Item = Vec<u8>> + Send + 'static) {
    std::panic::set_hook(Box::new(|_| {}));
    let counts = on_large_stack(move || different(files));
    let _ = std::panic::take_hook();
    let missed = MUTANTS.iter().zip(counts).filter(|(_, count)| *count == 0);
    let missed: Vec<&str> = missed.map(|(mutant, _)| mutant.name).collect();
    assert!(missed.is_empty(), "{missed:?}");
}

#[test]
fn drawn_files_find_every_mutant() {
    all_found(draw::files(31, 20_000));
}

#[test]
fn the_list_finds_every_mutant() {
    let pairs = fixed::parse(LIST).expect("the list has its form");
    let files: Vec<Vec<u8>> = pairs.into_iter().map(|(file, _)| file).collect();
    all_found(files.into_iter());
}
