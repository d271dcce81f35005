//! The plan reader that is written from the papers: its list, and what it refuses.

use oracle::compile::unhex;
use oracle::file::MAX_PLAN;
use oracle::line;
use oracle::plan::write_plan;
use oracle::reread::{RULES, reread};

const LIST: &str = include_str!("../fixed/plans.txt");

/// PLAN, ROOM and LINE of each line that is compared.
fn lines() -> Vec<(Vec<u8>, usize, &'static str)> {
    let lines = LIST.lines().filter(|line| !line.starts_with('#'));
    let words = lines.map(|line| {
        let (plan, rest) = line.split_once(' ').expect("PLAN ROOM LINE");
        let (room, line) = rest.split_once(' ').expect("PLAN ROOM LINE");
        assert_eq!(room.len(), 4);
        let room = usize::from_str_radix(room, 16).expect("a length in hex");
        (unhex(plan).expect("a plan in hex"), room, line)
    });
    words.collect()
}

#[test]
fn the_list_has_the_readers_answers() {
    for (plan, room, told) in lines() {
        assert!(room <= MAX_PLAN);
        let outcome = reread(&plan, room).map(|plan| write_plan(&plan));
        if let Ok(written) = &outcome {
            assert_eq!(written, &plan);
        }
        assert_eq!(line(&outcome), told);
    }
}

#[test]
fn the_list_has_every_refusal_and_every_rule() {
    let lines = lines();
    for number in 15..=18 {
        let told = format!("refused {number}");
        assert!(lines.iter().any(|(_, _, line)| *line == told), "{told}");
    }
    let accepted = lines
        .iter()
        .filter(|(_, _, line)| !line.starts_with("refused"));
    assert!(accepted.count() > 100);
    for (words, _) in RULES {
        assert!(LIST.contains(&format!("# not so: {words}\n")), "{words}");
    }
}

/// "Every plan the compiler writes is accepted", as the data that it was made of.
#[cfg(fjord_bodies)]
#[test]
fn drawn_files_plans_are_read_as_their_data() {
    let count = oracle::on_large_stack(|| {
        let files = oracle::draw::files(17, 4_000);
        let planned = files.filter_map(|file| oracle::run::planned(&file));
        planned
            .map(|(plan, bytes)| {
                assert!(
                    plan.levels
                        .iter()
                        .all(|level| oracle::reread::broken(level).is_empty())
                );
                assert_eq!(reread(&bytes, bytes.len()), Ok(plan));
                assert_eq!(reread(&bytes[..bytes.len() - 1], MAX_PLAN), Err(16));
                assert_eq!(reread(&bytes, bytes.len() - 1), Err(15));
            })
            .count()
    });
    assert!(count > 2_000, "{count}");
}

#[cfg(fjord_bodies)]
#[test]
fn the_list_is_reproduced() {
    let made = oracle::on_large_stack(oracle::fixed::plans::list);
    assert!(
        made == LIST,
        "run `oracle plans > fixed/plans.txt` and look at what changed"
    );
}
