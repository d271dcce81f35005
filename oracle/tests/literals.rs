//! Refusal 19: literals of the wrong kind.

#![cfg(fjord_bodies)]

use oracle::compile::original;
use oracle::file::{MAX_PLAN, MIN_WORK, RuleFile};
use oracle::literal::LITERAL;
use oracle::plan::base_bytes;
use oracle::write::write;
use oracle::{compile, draw, front, on_large_stack};

fn refused(file: &RuleFile, plan: usize) -> Option<u8> {
    compile(&write(file), plan, MIN_WORK).err()
}

/// It hangs on the tables alone: a file is refused where one of its levels is, by itself,
/// wherever that stands and whatever the others bind.
#[test]
fn each_level_is_refused_by_itself() {
    let met = on_large_stack(|| {
        let mut met = [0; 3];
        for file in draw::files(27, 8_000) {
            let Ok(tables) = front(&file, MIN_WORK) else {
                continue;
            };
            let alone = |at: usize| {
                let mut one = tables.clone();
                one.levels = vec![tables.levels[at]];
                refused(&one, MAX_PLAN) == Some(LITERAL)
            };
            let levels: Vec<bool> = (0..tables.levels.len()).map(alone).collect();
            let any = levels.contains(&true);
            assert_eq!(refused(&tables, MAX_PLAN) == Some(LITERAL), any);
            let mut backwards = tables.clone();
            backwards.levels.reverse();
            assert_eq!(refused(&backwards, MAX_PLAN) == Some(LITERAL), any);
            met[0] += usize::from(any);
            met[1] += usize::from(any && !levels[0]);
            met[2] += usize::from(any && levels.contains(&false));
        }
        met
    });
    assert!(met.iter().all(|&count| count > 50), "{met:?}");
}

/// It comes before 15, however short the plan buffer is and however long the plan would
/// be: the original bodies have one, or one that is too long.
#[test]
fn it_comes_before_15() {
    let met = on_large_stack(|| {
        let mut met = [0; 2];
        for file in draw::files(28, 20_000) {
            if compile(&file, MAX_PLAN, MIN_WORK) != Err(LITERAL) {
                continue;
            }
            for plan in [0, 9, 10, 4 * MAX_PLAN] {
                assert_eq!(compile(&file, plan, MIN_WORK), Err(LITERAL));
            }
            assert_eq!(compile(&file, MAX_PLAN, MIN_WORK - 1), Err(2));
            let tables = front(&file, MIN_WORK).expect("the checks come first");
            match base_bytes(&original(&tables, u64::MAX), MAX_PLAN) {
                Ok(_) => met[0] += 1,
                Err(number) => {
                    assert_eq!(number, 15);
                    met[1] += 1;
                }
            }
        }
        met
    });
    assert!(met[0] > 500 && met[1] > 5, "{met:?}");
}
