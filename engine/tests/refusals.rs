//! The refusals: their numbers, their words, and a file or a plan for each.

mod files;

use sinalvento::{Buffers, MAX_PLAN, MIN_WORK, Place, Refusal, compile, compile_into};

const WORDS: [(u8, &str, &str); 19] = [
    (1, "lent memory", "file above 32,768 bytes"),
    (2, "lent memory", "work area below 65,536 bytes"),
    (3, "reading", "bytes end inside a count or record"),
    (4, "reading", "count above its section's limit"),
    (5, "reading", "unknown kind, anchor or op"),
    (6, "reading", "name that is not well-formed UTF-8"),
    (7, "reading", "bytes follow the last section"),
    (
        8,
        "whole file",
        "number at or past its section's count (FFFF for none excepted)",
    ),
    (
        9,
        "whole file",
        "type's or node's child not lower than its parent",
    ),
    (10, "whole file", "type repeats a name, or a Union a disc"),
    (11, "whole file", "type deeper than 32"),
    (12, "whole file", "node is a child more than once"),
    (
        13,
        "whole file",
        "Const binding of a node that isn't constant",
    ),
    (
        14,
        "whole file",
        "Field binding with steps + depth of its type above 32, or fetched path above 31 steps",
    ),
    (
        15,
        "writing",
        "plan longer than 16,384 bytes or than the plan buffer",
    ),
    (16, "reading the plan", "plan ends early"),
    (
        17,
        "reading the plan",
        "byte of the plan without a meaning, path with more steps than a path holds, or bytes left over",
    ),
    (
        18,
        "the plan's levels",
        "level of the plan breaks a rule of every level",
    ),
    (
        19,
        "whole file",
        "constant of the wrong kind for its key, field or payload",
    ),
];

#[test]
fn words_and_places() {
    assert_eq!(Refusal::ALL.len(), WORDS.len());
    for (refusal, (number, place, words)) in Refusal::ALL.into_iter().zip(WORDS) {
        assert_eq!(refusal.number(), number);
        assert_eq!(refusal.to_string(), words);
        assert_eq!(refusal.place().to_string(), place);
    }
    assert_eq!(Refusal::PlanTooLong.place(), Place::Writing);
}

#[test]
fn every_number_is_converted() {
    for refusal in Refusal::ALL {
        let number = u64::from(refusal.number());
        assert_eq!(Refusal::from_number(number), Some(refusal));
    }
    for number in [0, 20, 255, 65_536, 1 << 40, u64::MAX] {
        assert_eq!(Refusal::from_number(number), None);
    }
}

#[test]
fn a_file_for_each() {
    let mut buffers = Buffers::new();
    for (number, file) in files::refused() {
        let refusal = compile(&file, &mut buffers).expect_err("it is refused");
        assert_eq!(refusal.number(), number);
    }
}

#[test]
fn a_work_area_that_is_too_short() {
    let mut plan = [0; MAX_PLAN];
    for length in [0, 1, MIN_WORK - 1] {
        let outcome = compile_into(&files::d1(), &mut plan, &mut vec![0; length]);
        assert_eq!(outcome, Err(Refusal::WorkTooShort));
    }
    let outcome = compile_into(&files::d1(), &mut plan, &mut [0; MIN_WORK]);
    assert_eq!(outcome, Ok(files::d1_plan().as_slice()));
}

/// Too long a file is told first, a bad file only with a work area.
#[test]
fn lent_memory_is_looked_at_in_order() {
    let mut plan = [0; MAX_PLAN];
    let too_long = vec![0; sinalvento::MAX_FILE + 1];
    let outcome = compile_into(&too_long, &mut plan, &mut []);
    assert_eq!(outcome, Err(Refusal::FileTooLong));
    let outcome = compile_into(&[], &mut plan, &mut []);
    assert_eq!(outcome, Err(Refusal::WorkTooShort));
}

/// Ten empty sections, as ten counts of 0 are; a single byte is cut short.
#[test]
fn a_file_of_no_bytes() {
    let mut buffers = Buffers::new();
    let mut short = [0; 9];
    for file in [&[][..], &[0; 20]] {
        assert_eq!(compile(file, &mut buffers), Ok(&[0; 10][..]));
        let outcome = compile_into(file, &mut short, &mut [0; MIN_WORK]);
        assert_eq!(outcome, Err(Refusal::PlanTooLong));
    }
    for byte in 0..=255 {
        assert_eq!(compile(&[byte], &mut buffers), Err(Refusal::Ends));
    }
}

#[test]
fn a_plan_buffer_that_is_too_short() {
    let length = files::d1_plan().len();
    for (room, fits) in [
        (0, false),
        (1, false),
        (length - 1, false),
        (length, true),
        (length + 1, true),
    ] {
        let mut plan = vec![0; room];
        let outcome = compile_into(&files::d1(), &mut plan, &mut [0; MIN_WORK]);
        let expected = files::d1_plan();
        let expected = if fits {
            Ok(expected.as_slice())
        } else {
            Err(Refusal::PlanTooLong)
        };
        assert_eq!(outcome, expected);
    }
}
