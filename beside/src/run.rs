//! All files of a seed, each with memory of several lengths.

use std::collections::BTreeMap;

use oracle::compile::hex;
use oracle::draw;
use oracle::file::{MAX_PLAN, MIN_WORK};
use oracle::nodes::dropped;
use oracle::rng::Rng;
use oracle::run::{ByRule, Reference, answer, reference};
use oracle::shrink::shrink;

use crate::call::{Answer, Call, Difference, Expected, Lengths, difference, expected};

/// How often a file that shows a difference is tried smaller.
pub const TRIES: usize = 400;
/// So many differences are shown; the others are counted.
pub const SHOWN: usize = 20;
/// Keeps the memory's draws apart from the file's.
const MEMORY: u64 = 0x6D65_6D6F_7279;

#[derive(Default)]
pub struct Outcome {
    pub compared: usize,
    /// With the nodes of a compile left aside.
    pub different: usize,
    /// Compiled plans whose nodes were looked at, and those that differ in their
    /// nodes alone.
    pub noded: usize,
    pub nodes_different: usize,
    /// Files that the bodies take too long for.
    pub left_out: usize,
    /// Files that are left out beside the original Rust, and compared with the written
    /// rule alone.
    pub by_rule: Option<ByRule>,
    /// Calls by what was lent and by what is expected.
    pub calls: BTreeMap<String, usize>,
}

/// What the bodies answer to a file: the copy that does what document 02 adds and notes
/// the nodes, and the original ones, whose plans have none. Where these are no reference,
/// it is the copy's answer without its nodes.
struct Answers {
    with_nodes: Answer,
    base: Answer,
    reference: Reference,
}

impl Answers {
    /// None where the file costs them too much.
    fn to(file: &[u8]) -> Option<Self> {
        let with_nodes = answer(file)?;
        let reference = reference(file, &with_nodes)?;
        let base = match &reference {
            Reference::Rust(base) => base.clone(),
            Reference::Rule(_) => with_nodes.as_deref().map_or_else(|&e| Err(e), dropped),
        };
        Some(Self {
            with_nodes,
            base,
            reference,
        })
    }
}

pub struct Run {
    pub compile: Call,
    pub seed: u64,
}

impl Run {
    pub fn files(&self, count: u64, mut report: impl FnMut(String)) -> Outcome {
        let (mut outcome, mut by_rule) = (Outcome::default(), ByRule::default());
        for index in 0..count {
            let file = draw::file(self.seed, index);
            let Some(answers) = Answers::to(&file) else {
                outcome.left_out += 1;
                continue;
            };
            outcome.compared += 1;
            by_rule.add(&answers.reference);
            outcome.noded += usize::from(answers.with_nodes.is_ok());
            let rng = self.memory(index);
            count_calls(
                &mut outcome.calls,
                &file,
                &answers.with_nodes,
                &mut rng.clone(),
            );
            match self.difference(&file, &answers, rng) {
                None => continue,
                Some(found) if found.is_of_nodes_alone() => outcome.nodes_different += 1,
                Some(_) => outcome.different += 1,
            }
            if outcome.different + outcome.nodes_different <= SHOWN {
                report(self.shown(&file, index));
            }
        }
        outcome.by_rule = Some(by_rule);
        outcome
    }

    fn memory(&self, index: u64) -> Rng {
        Rng::new(self.seed ^ MEMORY, index)
    }

    /// The first difference, but one of the nodes alone only if there is no other.
    fn difference(&self, file: &[u8], answers: &Answers, mut rng: Rng) -> Option<Difference> {
        let with_nodes = &answers.with_nodes;
        let found = lengths(with_nodes, &mut rng)
            .into_iter()
            .filter_map(|lengths| {
                let answer = expected(file, with_nodes, lengths);
                let expected = Expected::beside(&answer, &answers.base);
                difference(self.compile, file, &expected, lengths, &mut rng)
            });
        found.min_by_key(Difference::is_of_nodes_alone)
    }

    /// The difference on the file, and on the smallest file found.
    fn shown(&self, file: &[u8], index: u64) -> String {
        let on = |file: &[u8]| self.difference(file, &Answers::to(file)?, self.memory(index));
        let small = shrink(file, TRIES, |file| on(file).is_some());
        let told = |what: &str, file: &[u8]| {
            let found = on(file).map_or(String::new(), |found| found.to_string());
            format!("{what} {}\n{found}", hex(file))
        };
        let mut text = told("file    ", file);
        if small != file {
            text.push_str(&told("\nsmaller ", &small));
        }
        text
    }
}

/// What a file's calls are lent: just enough for every plan; a plan buffer
/// around the plan's length; and a work area that is too short.
fn lengths(answer: &Answer, rng: &mut Rng) -> [Lengths; 3] {
    let plan = answer.as_ref().map_or(0, Vec::len);
    let more = [0, 1, rng.below(MIN_WORK)][rng.below(3)];
    let less = [1, rng.within(1, MIN_WORK), MIN_WORK][rng.weighted(&[80, 15, 5])];
    [
        Lengths {
            output: MAX_PLAN,
            work: MIN_WORK,
        },
        Lengths {
            output: draw::plan_buffer(rng, plan),
            work: MIN_WORK + more,
        },
        Lengths {
            output: draw::plan_buffer(rng, plan),
            work: MIN_WORK - less,
        },
    ]
}

fn count_calls(calls: &mut BTreeMap<String, usize>, file: &[u8], answer: &Answer, rng: &mut Rng) {
    for lengths in lengths(answer, rng) {
        let outcome = match expected(file, answer, lengths) {
            Ok(_) => String::from("accepted"),
            Err(number) => format!("refused {number:02}"),
        };
        let mut add = |what: String| *calls.entry(what).or_default() += 1;
        add(outcome);
        add(format!("work area {}", work_kind(lengths.work)));
        if let Ok(plan) = answer {
            add(format!(
                "plan buffer {}",
                plan_kind(lengths.output, plan.len())
            ));
        }
    }
}

fn work_kind(work: usize) -> &'static str {
    match work {
        MIN_WORK => "of 65,536 bytes",
        _ if work == MIN_WORK - 1 => "of 65,535 bytes",
        _ if work < MIN_WORK => "of fewer",
        _ => "of more",
    }
}

pub fn plan_kind(buffer: usize, plan: usize) -> &'static str {
    match buffer {
        0 => "of 0 bytes",
        _ if buffer == plan => "exact",
        _ if buffer + 1 == plan => "one too short",
        _ if buffer < plan => "shorter",
        _ => "longer",
    }
}

#[cfg(test)]
pub mod tests {
    use super::*;
    use oracle::run::Why;
    use oracle::{HAS_BODIES, on_large_stack};

    /// The bodies behind the exported function's form.
    pub fn bodies(file: &[u8], plan: &mut [u8], work: &mut [u8]) -> u64 {
        plan.fill(0);
        work.fill(0);
        match oracle::compile(file, plan.len(), work.len()) {
            Ok(made) => {
                plan[..made.len()].copy_from_slice(&made);
                made.len() as u64
            }
            Err(number) => u64::from(number) << 16,
        }
    }

    /// The nodes of a plan are changed, and nothing else.
    fn misled(file: &[u8], plan: &mut [u8], work: &mut [u8]) -> u64 {
        let result = bodies(file, plan, work);
        if result >> 16 == 0 {
            let places = oracle::reread::node_places(&plan[..result as usize]);
            for at in places.expect("a plan") {
                plan[at] ^= 1;
            }
        }
        result
    }

    /// 15 with space to spare.
    fn hasty(file: &[u8], plan: &mut [u8], work: &mut [u8]) -> u64 {
        let result = bodies(file, plan, work);
        if result == plan.len() as u64 {
            plan.fill(0);
            return 15 << 16;
        }
        result
    }

    fn run(compile: Call) -> (Outcome, Vec<String>) {
        on_large_stack(move || {
            let mut shown = vec![];
            let run = Run { compile, seed: 32 };
            let outcome = run.files(400, |text| shown.push(text));
            (outcome, shown)
        })
    }

    #[test]
    fn the_bodies_agree_with_themselves() {
        if !HAS_BODIES {
            return;
        }
        let (outcome, shown) = run(bodies);
        assert_eq!((outcome.compared, outcome.different), (400, 0));
        assert_eq!(outcome.nodes_different, 0);
        assert!(outcome.noded > 200, "{}", outcome.noded);
        let by_rule = outcome.by_rule.expect("they were counted");
        for why in [Why::OwnRow, Why::Literal] {
            assert!((10..100).contains(&by_rule.count(why)), "{by_rule}");
        }
        assert!(shown.is_empty());
        for kind in ["exact", "one too short", "of 0 bytes", "longer"] {
            assert!(outcome.calls[&format!("plan buffer {kind}")] > 20, "{kind}");
        }
    }

    /// Runs beside the Rust leave the nodes aside, and count them apart.
    #[test]
    fn nodes_are_counted_apart() {
        if !HAS_BODIES {
            return;
        }
        let (outcome, shown) = run(misled);
        assert_eq!((outcome.compared, outcome.different), (400, 0));
        assert!(outcome.nodes_different > 100, "{}", outcome.nodes_different);
        assert!(shown[0].contains("wrong    nodes"), "{}", shown[0]);
    }

    #[test]
    fn a_difference_is_counted_and_shown() {
        if !HAS_BODIES {
            return;
        }
        let (outcome, shown) = run(hasty);
        assert!(outcome.different > SHOWN);
        assert_eq!(shown.len(), SHOWN);
        for part in ["file ", "expected ", "given    refused 15"] {
            assert!(shown[0].contains(part), "{part} in {}", shown[0]);
        }
        // A file of no bytes has none that is smaller.
        assert!(shown.iter().any(|text| text.contains("smaller ")));
    }
}
