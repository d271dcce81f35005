//! The files and plans that are timed, and those whose stack is measured.

mod deep;
mod fields;
mod large;
mod stalls;
mod typical;
mod worst;

use oracle::draw::boundary::plan_of_length;
use oracle::draw::plans::around;
use oracle::file::{MAX_PLAN, Node, RuleFile};
use oracle::fixed::door::d1;
use oracle::reread::form;
use oracle::rng::Rng;
use oracle::run::{Reference, answer, reference};
use oracle::write::write;
use oracle::{draw, on_large_stack};
use sinalvento::Buffers;

use deep::{MOST_READS, READS, Read};
use fields::Given;

/// What the two sides do on a case's files. But for plans, the exported function
/// always compiles.
#[derive(Clone, Copy, PartialEq, Eq)]
pub enum Part {
    Whole,
    /// The Rust's side also zeroes what the contract has a call zero.
    Zeroed,
    /// Reading and checking. The exported function does no more either where
    /// there is no level, or where 14 refuses.
    Front,
    /// The files are plans, and are read.
    Plan,
}

#[derive(Clone)]
pub struct Case {
    pub name: &'static str,
    pub files: Vec<Vec<u8>>,
    pub part: Part,
}

fn case(name: &'static str, file: &RuleFile) -> Case {
    Case {
        name,
        files: vec![write(file)],
        part: Part::Whole,
    }
}

fn zeroed(name: &'static str, file: &RuleFile) -> Case {
    Case {
        part: Part::Zeroed,
        ..case(name, file)
    }
}

fn front(name: &'static str, file: &RuleFile) -> Case {
    Case {
        part: Part::Front,
        ..case(name, file)
    }
}

/// The plan of a file, to be read.
fn read(name: &'static str, file: &RuleFile) -> Case {
    Case {
        name,
        files: plan_bytes(&write(file)).into_iter().collect(),
        part: Part::Plan,
    }
}

/// The plan that the exported function writes; none of a refused file.
fn plan_bytes(file: &[u8]) -> Option<Vec<u8>> {
    let mut buffers = Buffers::new();
    let plan = sinalvento::compile(file, &mut buffers).ok()?;
    Some(plan.to_vec())
}

/// Plans of drawn files, each followed by bytes that are drawn around it.
fn drawn_plans() -> Vec<Vec<u8>> {
    let plans = draw::files(MIX_SEED, PLANS).filter_map(|file| plan_bytes(&file));
    let pairs = plans.enumerate().map(|(index, plan)| {
        let mut rng = Rng::new(MIX_SEED, index as u64);
        let data = form(&plan).expect("a compiled plan has its form");
        [plan, around(&mut rng, &data).1]
    });
    pairs.flatten().collect()
}

const MIX_SEED: u64 = 7;
const MIX: usize = 1_000;
/// Drawn files whose stack is measured.
const MANY: u64 = 20_000;
/// Drawn files whose plans are read for it.
const PLANS: u64 = 5_000;

/// Whether the original bodies are a file's reference. They are not where they take too
/// long for it, where it has equal fields of one row, or where 19 is given.
fn by_rust(file: &[u8]) -> bool {
    let reference = answer(file).and_then(|answer| reference(file, &answer));
    matches!(reference, Some(Reference::Rust(_)))
}

/// Drawn files of which the original bodies are the reference.
fn drawn(count: usize) -> Vec<Vec<u8>> {
    on_large_stack(move || {
        draw::files(MIX_SEED, u64::MAX)
            .filter(|file| by_rust(file))
            .take(count)
            .collect()
    })
}

pub fn everyday() -> Vec<Case> {
    let mix = Case {
        name: "mix of drawn files",
        files: drawn(MIX),
        part: Part::Whole,
    };
    let mut cases = vec![
        case("D1", &d1()),
        zeroed("D1, zeroes on both sides", &d1()),
        case("typical", &typical::typical()),
        case("largest file", &large::largest()),
        case("longest plan", &longest_plan()),
        mix,
        case("chain of 7 reads", &deep::chain(Read::Key, 7)),
        case("chain of 2,046 reads", &deep::chain(Read::Key, MOST_READS)),
        front("read and check, no level", &large::without_levels()),
        front("read and check, refused", &large::refused_by_14()),
        front("read and check, wide types", &large::wide_types()),
        read("read a typical plan", &typical::typical()),
        read("read a plan of 64 levels", &large::largest()),
        read("read the longest plan", &longest_plan()),
    ];
    cases.extend(EACH_FIELD.map(|(name, given)| case(name, &fields::levels(given))));
    cases
}

/// 64 levels of 8 fields, all given in one way.
const EACH_FIELD: [(&str, Given); 12] = [
    ("each field an Int", Given::Int),
    ("each field a text", Given::Text),
    ("each field a new Var", Given::NewVar),
    ("each field a Var of the first level", Given::FoundVar),
    ("each field a register field", Given::RegisterField),
    ("each field a row", Given::Row),
    ("each field a Var for a Const", Given::Constant),
    ("each field a Prefix", Given::Prefix),
    ("each field a Fuzzy", Given::Fuzzy),
    ("each field a read", Given::Read),
    ("each field a Wildcard", Given::Wildcard),
    ("each field missing", Given::Missing),
];

pub fn worst() -> Vec<Case> {
    vec![
        case("opened", &draw::worst::opened()),
        case("opened, harsher", &worst::opened()),
        case("unions", &draw::worst::unions()),
        case("unions, harsher", &worst::unions()),
        case(
            "constraints and comparisons",
            &stalls::constraints_and_comparisons(),
        ),
        case(
            "lacking their last leaf",
            &stalls::lacking_their_last_leaf(),
        ),
        case("union values", &stalls::union_values()),
        case("no name in common", &stalls::no_name_in_common()),
        case("accesses", &stalls::accesses()),
        case("reports", &stalls::reports()),
        case("rows used up", &stalls::rows_used_up()),
        case("many types", &stalls::many_types()),
        case("measured", &stalls::measured()),
        case("reported from inside", &stalls::reported_from_inside()),
        case("reported among others", &stalls::reported_among_others()),
        case("made bindings", &stalls::made_bindings()),
        case("chains of reads", &stalls::chains()),
        case("chains of one step", &stalls::chains_of_one_step()),
        case("whole key", &stalls::whole_key()),
        case("falling discs", &stalls::falling_discs()),
    ]
}

/// Files of one kind, whose stack is measured.
#[derive(Clone, Copy)]
pub struct Kind {
    pub name: &'static str,
    make: fn() -> Vec<RuleFile>,
}

/// The drawn files' kind and that of their plans; the other ones are made by hand.
const DRAWN: &str = "drawn";
const DRAWN_PLANS: &str = "plans, drawn, read";

impl Kind {
    pub fn case(self) -> Case {
        let (files, part) = match self.name {
            DRAWN => (draw::files(MIX_SEED, MANY).collect(), Part::Whole),
            DRAWN_PLANS => (drawn_plans(), Part::Plan),
            _ => ((self.make)().iter().map(write).collect(), Part::Whole),
        };
        Case {
            name: self.name,
            files,
            part,
        }
    }
}

/// Everyday files, drawn files, their plans, and those that go deepest.
pub const STACKED: [Kind; 30] = [
    kind("D1", || vec![d1()]),
    kind("typical", || vec![typical::typical()]),
    kind("largest file", || vec![large::largest()]),
    kind("longest plan", || vec![longest_plan()]),
    kind(DRAWN, Vec::new),
    kind(DRAWN_PLANS, Vec::new),
    kind("opened, one level", || vec![one_level(worst::opened())]),
    kind("unions, one level", || vec![one_level(worst::unions())]),
    kind("depth limit, constants inside", deep::constants_inside),
    kind("depth limit, new Vars inside", deep::new_vars_inside),
    kind("depth limit, reads inside", deep::reads_inside),
    kind(
        "depth limit, other patterns inside",
        deep::other_patterns_inside,
    ),
    kind(
        "depth limit, Vars for constants inside",
        deep::vars_for_constants_inside,
    ),
    kind("depth limit, mixed", deep::mixed),
    kind("depth limit, chains of reads inside", deep::chains_inside),
    kind("constant 2,046 deep", || vec![deep::deep_constant()]),
    kind("300 accesses", || chains(&[Read::Key], 300)),
    kind("1,000 accesses", || chains(&[Read::Key], 1_000)),
    kind("2,046 accesses", || chains(&[Read::Key], MOST_READS)),
    kind("2,046 accesses, not fetched", || {
        chains(&[Read::Unfetched], MOST_READS)
    }),
    kind("300 value accesses", || chains(&[Read::Value], 300)),
    kind("1,000 value accesses", || chains(&[Read::Value], 1_000)),
    kind("2,046 value accesses", || {
        chains(&[Read::Value], MOST_READS)
    }),
    kind("300 selects", || chains(&[Read::Select], 300)),
    kind("1,000 selects", || chains(&[Read::Select], 1_000)),
    kind("2,046 selects", || chains(&[Read::Select], MOST_READS)),
    kind("300 accesses and selects in turns", || {
        chains(&[Read::KeyAndSelect], 300)
    }),
    kind("1,000 accesses and selects in turns", || {
        chains(&[Read::KeyAndSelect], 1_000)
    }),
    kind("2,046 accesses and selects in turns", || {
        chains(&[Read::KeyAndSelect], MOST_READS)
    }),
    kind("chains of every length to 200", || {
        (1..=200).flat_map(|count| chains(&READS, count)).collect()
    }),
];

const fn kind(name: &'static str, make: fn() -> Vec<RuleFile>) -> Kind {
    Kind { name, make }
}

fn chains(reads: &[Read], count: usize) -> Vec<RuleFile> {
    reads.iter().map(|&read| deep::chain(read, count)).collect()
}

/// The first one in which no name stands twice, and so none for its own row.
fn longest_plan() -> RuleFile {
    let drawn = |index| plan_of_length(MAX_PLAN, &mut Rng::new(MIX_SEED, index));
    let names = |file: &RuleFile| {
        let nodes = file.levels.iter().map(|level| level.node as usize);
        nodes
            .filter(|&node| matches!(file.nodes[node], Node::Var(_)))
            .count()
    };
    let mut all = (0..).map(drawn);
    all.find(|file| names(file) < 2).expect("there is one")
}

fn one_level(mut file: RuleFile) -> RuleFile {
    file.levels.truncate(1);
    file
}

#[cfg(test)]
mod tests {
    use super::*;
    use crate::table::kebab;
    use deep::deep_constant;
    use oracle::file::{LIMITS, MAX_FILE, MIN_WORK};
    use oracle::{HAS_BODIES, front as read_and_check};

    fn plan_length(file: &RuleFile) -> Result<usize, u8> {
        let bytes = write(file);
        on_large_stack(move || oracle::compile(&bytes, MAX_PLAN, MIN_WORK)).map(|plan| plan.len())
    }

    #[test]
    fn sizes_are_what_they_are_called() {
        let typical = typical::typical();
        assert!((450..=550).contains(&write(&typical).len()));
        assert_eq!(typical.levels.len(), 6);
        for file in [
            large::largest(),
            large::without_levels(),
            large::refused_by_14(),
            large::wide_types(),
        ] {
            assert_eq!(write(&file).len(), MAX_FILE);
        }
        assert_eq!(large::largest().levels.len(), LIMITS[9]);
        assert!((15_000..17_000).contains(&write(&worst::opened()).len()));
    }

    #[test]
    fn files_pass_the_checks_but_one() {
        let outcome = |file: &RuleFile| read_and_check(&write(file), MIN_WORK).err();
        for file in [
            typical::typical(),
            large::largest(),
            large::without_levels(),
            large::wide_types(),
            worst::opened(),
            worst::unions(),
            deep_constant(),
        ] {
            assert_eq!(outcome(&file), None);
        }
        assert_eq!(outcome(&large::refused_by_14()), Some(14));
    }

    #[test]
    fn accepted_files_have_plans() {
        if !HAS_BODIES {
            return;
        }
        for file in [typical::typical(), large::largest(), deep_constant()] {
            assert!(plan_length(&file).is_ok(), "{:?}", plan_length(&file));
        }
        assert_eq!(plan_length(&longest_plan()), Ok(MAX_PLAN));
    }

    /// The exported function's answers are held against theirs.
    #[test]
    fn the_original_bodies_are_the_reference() {
        if !HAS_BODIES {
            return;
        }
        let compiled = |case: &Case| case.part == Part::Whole && case.files.len() == 1;
        for case in everyday().into_iter().filter(compiled) {
            let file = case.files[0].clone();
            assert!(on_large_stack(move || by_rust(&file)), "{}", case.name);
        }
    }

    #[test]
    fn plans_that_are_read() {
        let plans = |file: &RuleFile| read("a plan", file).files;
        assert_eq!(plans(&longest_plan())[0].len(), MAX_PLAN);
        let many = form(&plans(&large::largest())[0]).expect("a plan");
        assert_eq!(many.levels.len(), LIMITS[9]);
        assert!(drawn_plans().len() > 5_000);
    }

    #[test]
    fn cases_have_files_of_their_own() {
        if !HAS_BODIES {
            return;
        }
        let cases = [everyday(), worst()].concat();
        let names: Vec<String> = cases.iter().map(|case| kebab(case.name)).collect();
        for (at, name) in names.iter().enumerate() {
            let found = names.iter().position(|other| other == name);
            assert_eq!(found, Some(at), "{name}");
        }
        assert!(worst().iter().all(|case| case.files.len() == 1));
    }

    #[test]
    fn kinds_have_names_of_their_own() {
        for (at, kind) in STACKED.iter().enumerate() {
            let found = STACKED.iter().position(|other| other.name == kind.name);
            assert_eq!(found, Some(at));
            assert!(!kind.case().files.is_empty());
        }
    }
}
