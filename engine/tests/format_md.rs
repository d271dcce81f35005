//! docs/FORMAT.md: every block of hex in it is tried by the exported functions,
//! and so are the limits that it tells.

mod files;

use std::collections::BTreeSet;

use sinalvento::plan::PlanFault;
use sinalvento::{MAX_PLAN, MIN_WORK, call, call_read};

const PAGE: &str = include_str!("../../docs/FORMAT.md");

/// A fenced block: the words behind its fence, and its bytes.
struct Block {
    words: Vec<&'static str>,
    bytes: Vec<u8>,
}

impl Block {
    /// What stands behind `NAME=` in the fence's words.
    fn word(&self, name: &str) -> Option<&'static str> {
        let mut found = self.words.iter().filter_map(|word| word.split_once('='));
        found.find_map(|(key, value)| (key == name).then_some(value))
    }

    fn number(&self, name: &str) -> Option<usize> {
        let digits = self.word(name)?;
        Some(digits.parse().expect("a number"))
    }

    /// The file that a block tells of: its bytes, or so many zero bytes.
    fn file(&self) -> Vec<u8> {
        match self.number("zeros") {
            Some(length) => vec![0; length],
            None => self.bytes.clone(),
        }
    }
}

/// Every fenced block of the page. A `#` begins a remark.
fn blocks() -> Vec<Block> {
    let mut pieces = PAGE.split("```");
    let mut found = vec![];
    pieces.next();
    while let Some(piece) = pieces.next() {
        let (fence, lines) = piece.split_once('\n').expect("a fence is a line");
        let hex = lines
            .lines()
            .map(|line| line.split('#').next().unwrap_or(""));
        found.push(Block {
            words: fence.split_whitespace().collect(),
            bytes: files::unhex(&hex.collect::<Vec<_>>().join(" ")),
        });
        pieces.next().expect("a fence is closed");
    }
    found
}

fn is_file(block: &Block) -> bool {
    block.words[0] == "file"
}

fn is_plan(block: &Block) -> bool {
    block.words[0] == "plan"
}

/// The answer: a plan, or a refusal's number.
fn answer(file: &[u8], plan: usize, work: usize) -> Result<Vec<u8>, u64> {
    let (mut plan, mut work) = (vec![0; plan], vec![0; work]);
    let result = call(file, &mut plan, &mut work);
    written(result, &plan)
}

fn written(result: u64, output: &[u8]) -> Result<Vec<u8>, u64> {
    match result >> 16 {
        0 => Ok(output[..result as usize].to_vec()),
        number => Err(number),
    }
}

/// The plan reader's answer, without a work area.
fn read_back(plan: &[u8], room: usize) -> Result<Vec<u8>, u64> {
    let mut out = vec![0; room];
    let result = call_read(plan, &mut out, &mut []);
    written(result, &out)
}

fn refusal(file: &[u8]) -> Option<u64> {
    answer(file, MAX_PLAN, MIN_WORK).err()
}

#[test]
fn every_block_is_of_a_known_kind() {
    for block in blocks() {
        match block.words.as_slice() {
            ["file" | "plan", rest @ ..] => {
                let kinds = ["refused", "diagnostics"].map(|kind| block.word(kind).is_some());
                let named = matches!(rest, [name] if !name.contains('='));
                assert_eq!(
                    kinds.iter().filter(|&&is| is).count() + usize::from(named),
                    1
                );
            }
            words => panic!("a block that nothing tries: {words:?}"),
        }
    }
}

#[test]
fn worked_files_have_their_plans() {
    let all = blocks();
    let named = |kind: &str| {
        let of_kind = |block: &&Block| block.words[0] == kind && block.words.len() == 2;
        all.iter()
            .filter(of_kind)
            .filter(|block| !block.words[1].contains('='))
            .collect::<Vec<_>>()
    };
    let (given, plans) = (named("file"), named("plan"));
    assert!(given.len() >= 3 && given.len() == plans.len());
    for file in given {
        let name = file.words[1];
        let plan = plans.iter().find(|plan| plan.words[1] == name);
        let plan = plan.unwrap_or_else(|| panic!("{name} has no plan"));
        assert_eq!(
            answer(&file.bytes, MAX_PLAN, MIN_WORK),
            Ok(plan.bytes.clone()),
            "{name}"
        );
    }
    assert_eq!(
        all.iter().find(|block| is_file(block)).map(Block::file),
        Some(files::d1())
    );
}

/// "A file that is cut short ends so", unless nothing is left of it.
#[test]
fn a_worked_file_that_is_cut_short_is_refused_by_3() {
    for block in blocks()
        .iter()
        .filter(|block| is_file(block) && block.word("refused").is_none())
    {
        for length in 1..block.bytes.len() {
            assert_eq!(
                refusal(&block.bytes[..length]),
                Some(3),
                "{:?}, {length}",
                block.words
            );
        }
    }
}

#[test]
fn every_refusal_has_a_file_that_meets_it() {
    let mut met = vec![];
    for block in blocks().iter().filter(|block| is_file(block)) {
        let Some(number) = block.number("refused") else {
            continue;
        };
        let plan = block.number("plan").unwrap_or(MAX_PLAN);
        let work = block.number("work").unwrap_or(MIN_WORK);
        let file = block.file();
        assert_eq!(answer(&file, plan, work), Err(number as u64), "{number}");
        met.push(number);
    }
    assert_eq!(met, (1..=14).chain([19, 15]).collect::<Vec<_>>());
}

/// Plans of the page are read back, and one that is cut short ends early.
#[test]
fn worked_plans_are_read_back() {
    let all = blocks();
    let named = all
        .iter()
        .filter(|block| is_plan(block) && block.word("refused").is_none());
    for Block { words, bytes } in named {
        assert_eq!(
            read_back(bytes, bytes.len()),
            Ok(bytes.clone()),
            "{words:?}"
        );
        for length in 0..bytes.len() {
            assert_eq!(
                read_back(&bytes[..length], MAX_PLAN),
                Err(16),
                "{words:?}, {length}"
            );
        }
    }
}

#[test]
fn every_refusal_of_the_reader_has_a_plan_that_meets_it() {
    let (mut met, mut rules) = (vec![], BTreeSet::new());
    for block in blocks().iter().filter(|block| is_plan(block)) {
        let Some(number) = block.number("refused") else {
            continue;
        };
        let room = block.number("room").unwrap_or(MAX_PLAN);
        assert_eq!(
            read_back(&block.bytes, room),
            Err(number as u64),
            "{:02x?}",
            block.bytes
        );
        met.push(number);
        if let Some(PlanFault::Level { rule, .. }) = PlanFault::of(&block.bytes) {
            rules.insert(rule);
        }
    }
    met.dedup();
    assert_eq!(met, [15, 16, 17, 18]);
    // One for each rule of 18.
    assert_eq!(rules.len(), sinalvento::plan::LevelRule::ALL.len());
}

/// One unit more of what was lent, or one byte less of the file, and the
/// refusals 1, 2 and 15 are gone.
#[test]
fn refusals_by_length_are_at_their_boundary() {
    for block in blocks().iter().filter(|block| is_file(block)) {
        let file = block.file();
        match block.number("refused") {
            Some(1) => assert_ne!(refusal(&file[1..]), Some(1)),
            Some(2) => assert_ne!(
                answer(&file, MAX_PLAN, block.number("work").unwrap() + 1),
                Err(2)
            ),
            Some(15) => assert!(answer(&file, block.number("plan").unwrap() + 1, MIN_WORK).is_ok()),
            _ => {}
        }
    }
}

/// "60 levels that each search for a text of 255 letters are enough" for 15,
/// however long the buffer is.
#[test]
fn a_plan_that_no_buffer_holds() {
    let levels = |count: u8| {
        let mut file = files::unhex("0100 ff");
        file.extend([b'a'; 255]);
        file.extend(files::unhex(
            "0100 01 0100 0000ffff 0100 010000 0000 0000 0000 0000 0000",
        ));
        file.extend([count, 0]);
        file.extend(vec![0; 6 * usize::from(count)]);
        file
    };
    assert!(answer(&levels(59), 4 * MAX_PLAN, MIN_WORK).is_ok());
    assert_eq!(answer(&levels(60), 4 * MAX_PLAN, MIN_WORK), Err(15));
}

/// The file without the bytes from `start` to `end`.
fn without(file: &[u8], start: usize, end: usize) -> Vec<u8> {
    [&file[..start], &file[end..]].concat()
}

/// Taking a run of bytes out of a smallest file or plan never leaves one that is
/// refused for the same reason.
#[test]
fn smallest_blocks_cannot_be_shortened() {
    let all = blocks();
    let smallest = all.iter().filter(|block| block.words.contains(&"smallest"));
    let mut count = 0;
    for block in smallest {
        let number = block.number("refused").expect("it is refused") as u64;
        let bytes = &block.bytes;
        for start in 0..bytes.len() {
            for end in start + 1..=bytes.len() {
                let shorter = without(bytes, start, end);
                let found = match is_plan(block) {
                    true => read_back(&shorter, MAX_PLAN).err(),
                    false => refusal(&shorter),
                };
                assert_ne!(found, Some(number), "{number}: {start} to {end}");
            }
        }
        count += 1;
    }
    assert_eq!(count, 16);
}

/// All files of up to four bytes over an alphabet with every kind of byte that
/// matters there: the shortest has a plan, the others meet 3, 4 and 6, none of them
/// sooner than the page says.
#[test]
fn the_shortest_of_all_short_files() {
    const ALPHABET: [u8; 14] = [0, 1, 2, 3, 4, 5, 6, 8, 10, 16, 17, 0x7F, 0x80, 0xFF];
    let mut shortest = std::collections::BTreeMap::new();
    let mut length_files = vec![vec![]];
    for length in 0..=4 {
        for file in &length_files {
            shortest.entry(refusal(file)).or_insert(length);
        }
        let longer = |file: &Vec<u8>| ALPHABET.map(|byte| [file.as_slice(), &[byte]].concat());
        length_files = length_files.iter().flat_map(longer).collect();
    }
    assert_eq!(
        shortest.into_iter().collect::<Vec<_>>(),
        [(None, 0), (Some(3), 1), (Some(4), 2), (Some(6), 4)]
    );
}

/// But for code 4, which is no longer made: it has a plan that is read.
#[test]
fn every_diagnostic_has_a_file_that_makes_it() {
    let (mut made, mut read) = (vec![], vec![]);
    for block in &blocks() {
        let Some(told) = block.word("diagnostics") else {
            continue;
        };
        let (node, code) = told.split_once(':').expect("NODE:CODE");
        let (node, code): (u16, u8) = (node.parse().unwrap(), code.parse().unwrap());
        let plan = if is_plan(block) {
            read.push(code);
            read_back(&block.bytes, MAX_PLAN).expect("it is read")
        } else {
            made.push(code);
            answer(&block.bytes, MAX_PLAN, MIN_WORK).expect("it has a plan")
        };
        // A plan ends in its diagnostics, counted.
        let last = [&[1, 0][..], &node.to_le_bytes(), &[code]].concat();
        assert!(plan.ends_with(&last), "{told}: {plan:02x?}");
    }
    assert_eq!(made, [1, 2, 3, 5, 6, 7, 8, 9, 10, 11]);
    assert_eq!(read, [4]);
}

/// The table of sections: a count at the limit is none above it, the next is.
#[test]
fn the_limits_are_as_told() {
    const SECTIONS: [&str; 10] = [
        "names",
        "types",
        "predicates",
        "nodes",
        "bindings",
        "hoisted",
        "fetched",
        "constraints",
        "comparisons",
        "levels",
    ];
    for (at, section) in SECTIONS.iter().enumerate() {
        let start = format!("| {section} | ");
        let row = PAGE.lines().find_map(|line| line.strip_prefix(&start));
        let limit = row
            .and_then(|row| row.split(' ').next())
            .expect("a row with a limit");
        let limit: u16 = limit.replace(',', "").parse().expect("a number");
        let with_count = |count: u16| [vec![0; 2 * at], count.to_le_bytes().to_vec()].concat();
        assert_eq!(refusal(&with_count(limit)), Some(3), "{section}");
        assert_eq!(refusal(&with_count(limit + 1)), Some(4), "{section}");
    }
}

/// Every refusal and every code is told under its number.
#[test]
fn refusals_are_told_in_order() {
    let mut rest = PAGE;
    for number in (1..=14).chain([19]).chain(15..=18) {
        let head = format!("\n**{number}: ");
        let at = rest
            .find(&head)
            .unwrap_or_else(|| panic!("refusal {number}"));
        rest = &rest[at + 1..];
    }
    for code in 1..=11 {
        let at = rest
            .find(&format!("\n**{code} "))
            .unwrap_or_else(|| panic!("code {code}"));
        rest = &rest[at + 1..];
    }
}
