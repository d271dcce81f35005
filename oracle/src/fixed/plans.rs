//! The fixed list of plans, for the plan reader: accepted ones, each refusal at
//! each kind of place, and each rule of a level.

use std::collections::BTreeSet;

use crate::compile::{hex, line, unhex};
use crate::draw::boundary::plan_of_length;
use crate::draw::plans::{made, spoiled};
use crate::file::{MAX_PLAN, MAX_STEPS};
use crate::fixed::door::d1;
use crate::plan::{Edge, Level, Plan, Seek, write_plan};
use crate::reread::{RULES, broken, reread};
use crate::rng::Rng;
use crate::run::planned;
use crate::write::write;

const HEAD: &str = "\
# Plans, the length of the output buffer, and what the plan reader comes to:
# PLAN ROOM LINE. PLAN is hex; ROOM is four digits of hex; LINE is the plan
# written back in hex, or `refused` and the number. A line that begins with `#`
# says what the next ones show; a `##` line begins a group.
# Made by `oracle plans` (docs/ORACLE.md): the lines are the answers of a reader
# that was written from the papers alone.
";

/// Seed of the drawn plans, how many of each kind there are, and their longest.
const SEED: u64 = 5;
const MADE: usize = 30;
const COMPILED: usize = 80;
const LONGEST: usize = 90;

/// A plan of the list, with its output buffer's length, and what it shows.
struct Entry {
    shows: String,
    bytes: Vec<u8>,
    room: usize,
}

fn entry(shows: impl Into<String>, bytes: Vec<u8>) -> Entry {
    Entry {
        shows: shows.into(),
        bytes,
        room: MAX_PLAN,
    }
}

/// The whole list as text.
pub fn list() -> String {
    let mut out = String::from(HEAD);
    for (title, entries) in groups() {
        out.push_str(&format!("## {title}\n"));
        let mut shown = String::new();
        for Entry { shows, bytes, room } in entries {
            if shows != shown {
                out.push_str(&format!("# {shows}\n"));
                shown = shows;
            }
            let outcome = reread(&bytes, room).map(|plan| write_plan(&plan));
            out.push_str(&format!("{} {room:04x} {}\n", hex(&bytes), line(&outcome)));
        }
    }
    out
}

fn groups() -> Vec<(&'static str, Vec<Entry>)> {
    vec![
        ("output buffers", rooms()),
        ("a plan with every kind of item", every_item()),
        ("truncations", truncations()),
        ("bytes without a meaning", meaningless()),
        ("bytes left over", left_over()),
        ("the rules of a level", rules()),
        ("which refusal comes first", orders()),
        ("plans of the fixed list's files", compiled()),
        ("plans that no file has", drawn()),
        ("the longest plan", vec![entry("16,384 bytes", longest())]),
    ]
}

fn d1_plan() -> Vec<u8> {
    planned(&write(&d1())).expect("D1 has a plan").1
}

fn rooms() -> Vec<Entry> {
    let mut found = vec![];
    for (what, bytes) in [("D1", d1_plan()), ("an empty file", vec![0; 10])] {
        let length = bytes.len();
        for room in [0, 1, length - 1, length, length + 1, MAX_PLAN] {
            found.push(Entry {
                room,
                ..entry(format!("the plan of {what}"), bytes.clone())
            });
        }
    }
    let empty = [0, 1].map(|room| Entry {
        room,
        ..entry("no bytes", vec![])
    });
    found.extend(empty);
    found
}

/// A plan, item by item. The items with a list of meanings have their own names
/// (below).
#[rustfmt::skip]
const EVERY_ITEM: &[(&str, &str)] = &[
    ("levels", "0400"),
    ("counts", "0a00 0000 0300"), ("seek", "03"),
        ("part", "00"), ("text", "0200 0107"), ("node", "0a00"),
        ("part", "01"), ("register", "0500"), ("field", "0100"), ("step count", "01"), ("step", "07000000"), ("node", "0b00"),
        ("part", "02"), ("register", "0600"), ("node", "0c00"),
        ("edge", "02"), ("text", "0100 03"), ("edge", "01"), ("text", "0100 09"),
        ("guide", "00"),
        ("residuals", "0700"),
            ("field", "0000"), ("step count", "00"), ("op", "00"), ("text", "0100 ff"), ("node", "0000"),
            ("field", "0100"), ("step count", "02"), ("steps", "0000000001000000"), ("op", "01"), ("text", "0000"), ("node", "0001"),
            ("field", "0200"), ("step count", "00"), ("op", "02"), ("register", "0700"), ("field", "0300"), ("step count", "00"),
                ("node", "fffe"),
            ("field", "0300"), ("step count", "00"), ("op", "03"), ("register", "ffff"), ("node", "ffff"),
            ("field", "0400"), ("step count", "00"), ("op", "04"), ("disc", "ffffffff"), ("node", "0d00"),
            ("field", "0500"), ("step count", "00"), ("op", "05"), ("name, distance", "0300 ff"), ("anchor", "00"), ("node", "0e00"),
            ("field", "0600"), ("step count", "00"), ("op", "06"), ("field", "0700"), ("step count", "01"), ("step", "ffffffff"),
                ("node", "1500"),
        ("folded", "0200 0000 0100"),
    ("counts", "0200 0100 0100"), ("seek", "02"),
        ("part", "00"), ("text", "0100 00"), ("node", "0f00"),
        ("text", "0100 03"), ("field", "0100"), ("step count", "01"), ("step", "02000000"), ("node", "1000"),
        ("guide", "01"), ("field", "0100"), ("step count", "01"), ("step", "02000000"), ("name, distance", "0000 02"), ("anchor", "01"),
            ("node", "1100"),
        ("residuals, folded", "0000 0000"),
    ("counts", "0100 0000 0100"), ("seek", "01"), ("part", "02"), ("register", "0000"), ("node", "1200"), ("guide", "00"),
        ("residuals, folded", "0000 0000"),
    ("counts", "0100 0100 0200"), ("seek", "00"), ("text", "0200 0300"), ("node", "1300"), ("node", "1400"),
        ("guide", "00"), ("residuals, folded", "0000 0000"),
    ("bindings", "0600"),
        ("name", "0000"), ("slot", "00"), ("row", "0100 ffff"),
        ("name", "0100"), ("slot", "01"), ("key", "0100 0000"),
        ("name", "0200"), ("slot", "02"), ("derived", "0100"),
        ("name", "0300"), ("slot", "03"), ("register", "0100"),
            ("field", "0000"), ("step count", "01"), ("step", "09000000"), ("type", "0000"),
        ("name", "0400"), ("slot", "04"), ("value", "0100 0000"),
        ("name", "0500"), ("slot", "05"), ("const", "0100"),
    ("constrained", "0200 0000 ffff"),
    ("selects", "0100"), ("register", "0500"), ("field", "0200"), ("step count", "00"), ("disc", "07000000"),
    ("diagnostics", "0300"), ("node", "0000"), ("code", "01"), ("node", "0100"), ("code", "04"), ("node", "ffff"), ("code", "0b"),
];

/// The last meaning of each item that has a list of them.
const LAST: [(&str, u8); 9] = [
    ("seek", 3),
    ("part", 2),
    ("edge", 2),
    ("guide", 1),
    ("op", 6),
    ("anchor", 1),
    ("slot", 5),
    ("step count", MAX_STEPS as u8),
    ("code", 11),
];

fn bytes_of(items: &[(&str, &str)]) -> Vec<u8> {
    let digits: String = items.iter().map(|(_, hex)| hex.replace(' ', "")).collect();
    unhex(&digits).expect("the items are hex")
}

fn every_item() -> Vec<Entry> {
    vec![entry(
        "four levels, each list, all slots",
        bytes_of(EVERY_ITEM),
    )]
}

fn truncations() -> Vec<Entry> {
    let d1 = d1_plan();
    let mut found: Vec<Entry> = (0..d1.len())
        .map(|length| entry("D1's plan, at each byte", d1[..length].to_vec()))
        .collect();
    let before = |at: usize| {
        entry(
            "before each item of the one above",
            bytes_of(&EVERY_ITEM[..at]),
        )
    };
    found.extend((1..EVERY_ITEM.len()).map(before));
    found
}

/// Each item with a list of meanings, with the first byte behind that list: as
/// the last byte of all, so that nothing that follows decides. Once for each
/// kind also FF in the whole plan.
fn meaningless() -> Vec<Entry> {
    let mut found = vec![];
    for (kind, last) in LAST {
        let of_kind = |(at, (name, _)): (usize, &(&str, &str))| (*name == kind).then_some(at);
        let places = EVERY_ITEM.iter().enumerate().filter_map(of_kind);
        for (count, at) in places.enumerate() {
            let mut front = bytes_of(&EVERY_ITEM[..at]);
            let rest = bytes_of(&EVERY_ITEM[at + 1..]);
            if count == 0 {
                let whole = [front.as_slice(), &[0xFF], &rest].concat();
                found.push(entry(format!("{kind} ff"), whole));
            }
            front.push(last + 1);
            found.push(entry(
                format!("{kind} {:02x}, and the end", last + 1),
                front,
            ));
        }
    }
    let mut zero = vec![0; 8];
    zero.extend([1, 0, 0, 0, 0]);
    found.push(entry("code 00", zero));
    found.extend(full_path());
    found
}

/// As many steps as a path holds pass, one more does not.
fn full_path() -> Vec<Entry> {
    let select = |steps: usize| {
        let mut bytes = vec![0, 0, 0, 0, 0, 0, 1, 0, 5, 0, 2, 0, steps as u8];
        bytes.extend(vec![1; 4 * steps + 4]);
        bytes.extend([0, 0]);
        bytes
    };
    [MAX_STEPS, MAX_STEPS + 1]
        .map(|steps| entry(format!("{steps} steps"), select(steps)))
        .into()
}

fn left_over() -> Vec<Entry> {
    let d1 = d1_plan();
    vec![
        entry("one byte", [d1.as_slice(), &[0]].concat()),
        entry("one byte", vec![0; 11]),
        entry("D1's plan twice", [d1.as_slice(), &d1].concat()),
        entry(
            "bytes that would be a fault elsewhere",
            [d1.as_slice(), &[0xFF, 0xFF]].concat(),
        ),
    ]
}

fn of_levels(levels: Vec<Level>) -> Vec<u8> {
    let plan = Plan {
        levels,
        ..Plan::default()
    };
    write_plan(&plan)
}

/// Each rule broken alone, in a few ways.
fn rules() -> Vec<Entry> {
    let mut rng = Rng::new(SEED, 0);
    let mut found = vec![];
    for (rule, (words, _)) in RULES.iter().enumerate() {
        let mut short = vec![];
        while short.len() < 5 {
            let level = spoiled(&mut rng, rule);
            let bytes = of_levels(vec![level.clone()]);
            if broken(&level) == [rule] && bytes.len() <= LONGEST {
                short.push(entry(format!("not so: {words}"), bytes));
            }
        }
        found.extend(short);
    }
    found.extend(counts());
    found
}

/// A plan of one Prefix without text has 24 bytes, and two for each part's node.
const MOST_PARTS: usize = (MAX_PLAN - 24) / 2;

/// Levels of numbers alone: narrowings, closers, parts of a Prefix with their nodes;
/// and lists that are a level's only item.
fn counts() -> Vec<Entry> {
    let level = |[narrowings, closers, parts]: [usize; 3]| Level {
        narrowings,
        closers,
        parts,
        seek: Seek::Prefix(vec![]),
        guide: None,
        residuals: vec![],
        folded: vec![],
        nodes: vec![0x0102; parts],
    };
    let of_counts = |shows: &str, counts| entry(shows, of_levels(vec![level(counts)]));
    // The parts are counted, and all but the last of their nodes are there.
    let mut short = of_levels(vec![level([3, 0, 3])]);
    short.drain(15..17);
    let edge = Edge {
        inclusive: true,
        bytes: vec![3],
    };
    let edges = |folded: usize| {
        let level = Level {
            seek: Seek::Bounded(vec![], Some(edge.clone()), None),
            folded: vec![0; folded],
            ..level([0, 0, 0])
        };
        entry(format!("one edge, {folded} folded"), of_levels(vec![level]))
    };
    vec![
        of_counts("closers above parts, and the sum cut off at 0", [0, 1, 0]),
        of_counts("closers above parts, and the sum cut off at 0", [0, 4, 3]),
        of_counts(
            "closers above parts, and the sum in two bytes",
            [0xFFFF, 1, 0],
        ),
        of_counts(
            "closers above parts, and the sum in two bytes",
            [0xFFFE, 4, 2],
        ),
        of_counts("256 narrowings too many", [256, 0, 0]),
        of_counts("256 narrowings too few", [0, 0, 256]),
        of_counts("closers alone", [0, 3, 3]),
        of_counts(
            "as many parts as there can be",
            [MOST_PARTS - 1, 1, MOST_PARTS],
        ),
        entry("more parts than nodes", short),
        entry(
            "more parts than bytes",
            vec![1, 0, 0xFF, 0xFF, 0, 0, 0xFF, 0xFF, 0, 0, 0, 1, 0],
        ),
        edges(0),
        edges(1),
        edges(2),
    ]
}

/// 15 before 16, 16 and 17 by which is met first, 18 last, in whichever level.
fn orders() -> Vec<Entry> {
    let whole = planned(&write(&d1())).expect("D1 has a plan").0;
    let good = whole.levels[0].clone();
    let mut bad = good.clone();
    bad.narrowings += 1;
    let broken = of_levels(vec![bad.clone()]);
    let short = Entry {
        room: 8,
        ..entry("15 and 16", vec![1, 0, 0, 0, 0, 0, 0, 0, 4])
    };
    vec![
        short,
        entry("17, then the end", vec![1, 0, 0, 0, 0, 0, 0, 0, 4]),
        entry(
            "the end where a byte would have no meaning",
            vec![1, 0, 0, 0, 0, 0, 0, 0],
        ),
        entry("18 and 17", [broken.as_slice(), &[0]].concat()),
        entry("18 and 16", broken[..broken.len() - 1].to_vec()),
        entry(
            "18 in the first of two levels",
            of_levels(vec![bad.clone(), good.clone()]),
        ),
        entry("18 in the last of two levels", of_levels(vec![good, bad])),
    ]
}

/// Plans of the fixed list of files, each once; the shorter ones.
fn compiled() -> Vec<Entry> {
    let mut known = BTreeSet::new();
    let files = super::groups().into_iter().flat_map(|(_, entries)| entries);
    files
        .filter_map(|file| Some((file.shows, planned(&file.bytes)?.1)))
        .filter(|(_, plan)| plan.len() <= LONGEST && known.insert(plan.clone()))
        .map(|(shows, plan)| entry(shows, plan))
        .take(COMPILED)
        .collect()
}

fn drawn() -> Vec<Entry> {
    let mut rng = Rng::new(SEED, 1);
    let plans = std::iter::repeat_with(|| write_plan(&made(&mut rng)));
    let short = plans.filter(|plan| (30..=LONGEST).contains(&plan.len()));
    short
        .take(MADE)
        .map(|plan| entry("data drawn at random", plan))
        .collect()
}

fn longest() -> Vec<u8> {
    let file = write(&plan_of_length(MAX_PLAN, &mut Rng::new(SEED, 2)));
    planned(&file).expect("it has a plan").1
}
