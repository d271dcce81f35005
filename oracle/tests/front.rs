//! Reading, the checks and the list's form: what needs no bodies.

use oracle::file::{MAX_FILE, MIN_WORK, RuleFile};
use oracle::read::read;
use oracle::write::write;
use oracle::{draw, fixed, front};

const LIST: &str = include_str!("../fixed/pairs.txt");

fn pairs() -> Vec<(Vec<u8>, &'static str)> {
    fixed::parse(LIST).expect("the list has its form")
}

/// The number of a line `refused N`.
fn refusal(line: &str) -> Option<u8> {
    let number = line.strip_prefix("refused ")?;
    Some(number.parse().expect("a refusal has a number"))
}

#[test]
fn d1_is_the_papers_file() {
    let spaced = "0300 04726f6f6d 03746167 016b 0300 00 01 04020000000001000100 0100 0200ffff \
                  0300 000700000000000000 060200 08020000000001000100 \
                  0000 0000 0000 0000 0000 0100 000002000000";
    let paper = oracle::compile::unhex(&spaced.replace(' ', "")).expect("it is hex");
    assert_eq!(write(&fixed::door::d1()), paper);
    assert_eq!(pairs()[0].0, paper);
}

#[test]
fn the_list_is_lines_of_lower_hex_or_refusals() {
    for (_, line) in pairs() {
        let hex = line.bytes().all(|b| matches!(b, b'0'..=b'9' | b'a'..=b'f'));
        let plan = hex && !line.is_empty() && line.len() % 2 == 0;
        let known = |number: &u8| (1..=15).contains(number) || *number == 19;
        let refused = refusal(line).as_ref().is_some_and(known);
        assert!(plan || refused, "{line}");
    }
}

/// Refusals 1 and 3 to 14 are settled before any level is walked.
#[test]
fn the_front_agrees_with_the_list() {
    for (file, line) in pairs() {
        let expected = match refusal(line) {
            Some(number) if number < 15 => Err(number),
            _ => Ok(()),
        };
        assert_eq!(front(&file, MIN_WORK).map(|_| ()), expected, "{line}");
    }
}

#[test]
fn the_list_has_every_refusal() {
    let found: Vec<u8> = pairs().iter().filter_map(|(_, l)| refusal(l)).collect();
    for number in (1..=15).chain([19]).filter(|number| *number != 2) {
        assert!(found.contains(&number), "refusal {number}");
    }
}

#[test]
fn lent_memory_comes_first() {
    let long = vec![0xFF; MAX_FILE + 1];
    assert_eq!(front(&long, 0).map(|_| ()), Err(1));
    assert_eq!(front(&long[1..], MIN_WORK - 1).map(|_| ()), Err(2));
    assert_eq!(front(&long[1..], MIN_WORK).map(|_| ()), Err(4));
    assert_eq!(front(&[], MIN_WORK - 1).map(|_| ()), Err(2));
}

/// But for the file of no bytes, which is written as ten counts of 0.
#[test]
fn what_is_read_is_written_again() {
    let mut whole = 0;
    for file in draw::files(11, 4_000).filter(|file| !file.is_empty()) {
        if let Ok(tables) = read(&file) {
            assert_eq!(write(&tables), file);
            whole += 1;
        }
    }
    assert!(whole > 3_000);
    assert_eq!(read(&[]).map(|tables| write(&tables)), Ok(vec![0; 20]));
}

#[test]
fn only_no_bytes_and_ten_counts_are_ten_empty_sections() {
    for length in 0..=21 {
        let expected = match length {
            0 | 20 => Ok(RuleFile::default()),
            21 => Err(7),
            _ => Err(3),
        };
        assert_eq!(read(&vec![0; length]), expected, "{length}");
    }
}

#[test]
fn every_truncation_of_an_accepted_file_is_refused_by_3() {
    let accepted = draw::files(12, 400).filter(|file| front(file, MIN_WORK).is_ok());
    for file in accepted.filter(|file| file.len() < 300) {
        for length in 1..file.len() {
            assert_eq!(front(&file[..length], MIN_WORK).map(|_| ()), Err(3));
        }
        assert!(front(&[], MIN_WORK).is_ok());
    }
}

#[test]
fn a_seed_always_draws_the_same_files() {
    let one: Vec<Vec<u8>> = draw::files(13, 500).collect();
    let other: Vec<Vec<u8>> = draw::files(13, 500).collect();
    assert!(one == other);
    assert_eq!(one[499], draw::file(13, 499));
}

#[test]
fn drawn_files_reach_every_refusal_of_the_front() {
    let mut found = [0; 16];
    for file in draw::files(14, 20_000) {
        if let Err(number) = front(&file, MIN_WORK) {
            found[number as usize] += 1;
        }
    }
    for number in (1..=14).filter(|number| *number != 2) {
        assert!(found[number] > 0, "refusal {number}");
    }
}

#[test]
fn the_costly_files_pass_the_checks() {
    for file in [draw::worst::opened(), draw::worst::unions()] {
        assert!(front(&write(&file), MIN_WORK).is_ok());
    }
}

/// The programs `replay` and `reread` are run on the two lists.
#[test]
fn the_programs_read_the_same_lists() {
    assert!(
        LIST == include_str!("../../crates/replay/stdin"),
        "copy fixed/pairs.txt to crates/replay/stdin"
    );
    assert!(
        include_str!("../fixed/plans.txt") == include_str!("../../crates/reread/stdin"),
        "copy fixed/plans.txt to crates/reread/stdin"
    );
}
