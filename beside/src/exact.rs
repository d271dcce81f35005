//! Levels of compiled plans, each with drawn keys: what passes, beside a matcher that
//! reads the key against the pattern (request [10] of document 02).

use std::collections::BTreeMap;
use std::fmt;

use oracle::compile::{front, hex};
use oracle::draw;
use oracle::exact::pairs::{Answers, Pair, Passes, Trial, asks};
use oracle::file::{MAX_PLAN, MIN_WORK, RuleFile};
use oracle::plan::{Level, Plan, ResidualOp, Seek};
use oracle::reread::form;
use oracle::rng::Rng;
use oracle::shrink::shrink;

use crate::call::Call;
use crate::run::{SHOWN, TRIES};

/// Of so many files one is drawn like those of the other runs, the others so that they
/// mostly meet the conditions.
const OF_ALL: u64 = 4;
/// Keeps these draws apart from the files'.
const KEYS: u64 = 0x6B65_7973;
/// How often keys are drawn anew in search of the smallest pair.
const ROUNDS: u64 = 20;

pub struct Exact<'a> {
    pub compile: Call,
    /// What a level lets through.
    pub passes: &'a Passes,
    pub seed: u64,
}

/// Pairs, and how many of them match.
#[derive(Default, Clone, Copy, PartialEq, Eq, Debug)]
pub struct Counted {
    pub pairs: usize,
    pub accepted: usize,
}

#[derive(Default)]
pub struct Outcome {
    pub files: usize,
    /// Files that meet the conditions.
    pub met: usize,
    pub zero_free: Counted,
    pub with_zeros: Counted,
    /// Pairs whose key has a zero byte, and which pass without matching: of these
    /// nothing is claimed.
    pub beyond: usize,
    pub different: usize,
    /// Files whose bindings by the matcher are not the plan's.
    pub misbound: usize,
    /// Pairs of keys without zero bytes, by what the level asks and by the key's origin.
    pub kinds: BTreeMap<String, Counted>,
}

impl Counted {
    fn add(&mut self, accepted: bool) {
        self.pairs += 1;
        self.accepted += usize::from(accepted);
    }
}

impl Outcome {
    pub fn is_good(&self) -> bool {
        self.different + self.misbound == 0
    }

    fn add(&mut self, level: &Level, pair: &Pair, answers: Answers) {
        self.different += usize::from(answers.differ());
        if !answers.zero_free {
            self.with_zeros.add(answers.matches);
            self.beyond += usize::from(answers.passes && !answers.matches);
            return;
        }
        self.zero_free.add(answers.matches);
        let origin = format!("key {:?}", pair.origin);
        for kind in kinds(level).into_iter().chain([origin]) {
            self.kinds.entry(kind).or_default().add(answers.matches);
        }
    }
}

impl fmt::Display for Outcome {
    fn fmt(&self, f: &mut fmt::Formatter<'_>) -> fmt::Result {
        for (kind, Counted { pairs, accepted }) in &self.kinds {
            writeln!(f, "{pairs:9} pairs, {accepted:9} accepted: {kind}")?;
        }
        let Self { files, met, .. } = self;
        writeln!(f, "{met} of {files} files meet the conditions")?;
        let Counted { pairs, accepted } = self.with_zeros;
        let beyond = self.beyond;
        writeln!(
            f,
            "keys with zero bytes: {pairs} pairs, {accepted} accepted, {beyond} that pass without matching"
        )?;
        writeln!(f, "{} files with other bindings", self.misbound)?;
        let Counted { pairs, accepted } = self.zero_free;
        let different = self.different;
        write!(
            f,
            "{pairs} pairs, {accepted} accepted, {different} different"
        )
    }
}

/// What a level asks of a key.
fn kinds(level: &Level) -> Vec<String> {
    let seek = match &level.seek {
        Seek::Prefix(_) => "Prefix",
        Seek::Composite(_) => "Composite",
        Seek::PrefixRange(..) => "PrefixRange",
        Seek::Bounded(..) => "Bounded",
    };
    let mut found = vec![format!("seek {seek}")];
    let mut add = |kind: &str, holds: bool| {
        if holds {
            found.push(kind.to_string());
        }
    };
    add("nothing asked", !asks(level));
    add("a closer", level.closers > 0);
    add("a guide", level.guide.is_some());
    for number in 0..=6 {
        let mut ops = level.residuals.iter().map(|(_, op)| op_number(op));
        add(&format!("residual op {number}"), ops.any(|op| op == number));
    }
    found
}

fn op_number(op: &ResidualOp) -> u8 {
    match op {
        ResidualOp::Bytes(_) => 0,
        ResidualOp::Prefix(_) => 1,
        ResidualOp::RegisterField(..) => 2,
        ResidualOp::RegisterFactId(_) => 3,
        ResidualOp::Disc(_) => 4,
        ResidualOp::Fuzzy(_) => 5,
        ResidualOp::OwnField(_) => 6,
    }
}

impl Exact<'_> {
    pub fn run(&self, count: u64, mut report: impl FnMut(String)) -> Outcome {
        let mut outcome = Outcome::default();
        let mut shown = 0;
        for index in 0..count {
            outcome.files += 1;
            let bytes = self.file(index);
            let Some((file, plan)) = self.compiled(&bytes) else {
                continue;
            };
            let trial = Trial::new(&file, &plan);
            if !trial.meets_conditions() {
                continue;
            }
            outcome.met += 1;
            let before = outcome.different + outcome.misbound;
            outcome.misbound += usize::from(!trial.bindings_agree());
            trial.pairs(&mut self.keys(index), |pair| {
                let answers = trial.answers(&pair, self.passes);
                outcome.add(&plan.levels[pair.level], &pair, answers);
            });
            if outcome.different + outcome.misbound > before && shown < SHOWN {
                shown += 1;
                report(self.shown(&bytes, index));
            }
        }
        outcome
    }

    fn file(&self, index: u64) -> Vec<u8> {
        if index.is_multiple_of(OF_ALL) {
            return draw::file(self.seed, index);
        }
        draw::plain_file(self.seed, index)
    }

    fn keys(&self, index: u64) -> Rng {
        Rng::new(self.seed ^ KEYS, index)
    }

    /// An accepted file's tables, and the plan by the bytes that the call wrote.
    fn compiled(&self, bytes: &[u8]) -> Option<(RuleFile, Plan)> {
        let file = front(bytes, MIN_WORK).ok()?;
        let mut plan = vec![0; MAX_PLAN];
        let result = (self.compile)(bytes, &mut plan, &mut vec![0; MIN_WORK]);
        let length = usize::try_from(result).ok().filter(|it| *it <= MAX_PLAN)?;
        let plan = form(&plan[..length]).expect("a plan");
        Some((file, plan))
    }

    /// The smallest pair that differs, of a file that meets the conditions; none where
    /// no drawn one does.
    fn smallest(&self, bytes: &[u8], index: u64, rounds: u64) -> Option<(Pair, Answers)> {
        let (file, plan) = self.compiled(bytes)?;
        let trial = Trial::new(&file, &plan);
        if !trial.meets_conditions() {
            return None;
        }
        let mut least: Option<(Pair, Answers)> = None;
        let mut rng = self.keys(index);
        for _ in 0..rounds {
            trial.pairs(&mut rng, |pair| {
                let answers = trial.answers(&pair, self.passes);
                let size = |pair: &Pair| pair.key.stored().len() + 8 * pair.given.fields.len();
                let smaller = least.as_ref().is_none_or(|(it, _)| size(&pair) < size(it));
                if answers.differ() && smaller {
                    least = Some((pair, answers));
                }
            });
        }
        least
    }

    fn shown(&self, bytes: &[u8], index: u64) -> String {
        let small = shrink(bytes, TRIES, |bytes| {
            self.smallest(bytes, index, 1).is_some()
        });
        let Some((pair, answers)) = self.smallest(&small, index, ROUNDS) else {
            return format!("file {}: other bindings than the plan's", hex(bytes));
        };
        let stored = hex(&pair.key.stored());
        format!(
            "file {}\n{pair:?}, stored as {stored}\n{answers:?}",
            hex(&small)
        )
    }
}

#[cfg(test)]
pub mod tests {
    use super::*;
    use crate::run::tests::bodies;
    use oracle::exact::given::Given;
    use oracle::exact::passes::passes;
    use oracle::exact::value::Value;
    use oracle::plan::write_plan;
    use oracle::{HAS_BODIES, on_large_stack};

    const FILES: u64 = 6_000;

    /// The outcome, and what was shown.
    pub fn run(
        compile: Call,
        passes: impl Fn(&Level, &Value, &Given) -> bool + Send + 'static,
    ) -> (Outcome, Vec<String>) {
        on_large_stack(move || {
            let mut shown = vec![];
            let exact = Exact {
                compile,
                passes: &passes,
                seed: 37,
            };
            let outcome = exact.run(FILES, |text| shown.push(text));
            (outcome, shown)
        })
    }

    /// Nothing differs, and both answers are common for all that a level can ask.
    fn assert_good(compile: Call) {
        let (outcome, shown) = run(compile, passes);
        assert!(outcome.is_good(), "{}\n{outcome}", shown[0]);
        assert!(outcome.met > FILES as usize / 2, "{outcome}");
        let ops = (0..=6).map(|op| format!("residual op {op}"));
        let seeks = ["Prefix", "Composite", "PrefixRange", "Bounded"];
        let seeks = seeks.map(|seek| format!("seek {seek}"));
        let rest = ["a closer", "a guide"].map(String::from);
        for kind in ops.chain(seeks).chain(rest) {
            let Counted { pairs, accepted } = outcome.kinds[&kind];
            let refused = pairs - accepted;
            assert!(accepted > 50 && refused > 50, "{kind}\n{outcome}");
        }
        let Counted { pairs, accepted } = outcome.with_zeros;
        assert!(accepted > 500 && pairs - accepted > 500, "{outcome}");
        assert!(outcome.beyond > 5, "{outcome}");
    }

    #[test]
    fn the_exported_function_keeps_what_matches() {
        assert_good(sinalvento::call);
    }

    #[test]
    fn the_bodies_keep_what_matches() {
        if HAS_BODIES {
            assert_good(bodies);
        }
    }

    /// A compile that forgets the last new name.
    fn forgetful(file: &[u8], plan: &mut [u8], work: &mut [u8]) -> u64 {
        let result = bodies(file, plan, work);
        let Ok(mut data) = form(&plan[..(result & 0xFFFF) as usize]) else {
            return result;
        };
        data.bindings.pop();
        let bytes = write_plan(&data);
        plan[..bytes.len()].copy_from_slice(&bytes);
        bytes.len() as u64
    }

    #[test]
    fn other_bindings_are_found() {
        if !HAS_BODIES {
            return;
        }
        let (outcome, shown) = run(forgetful, passes);
        assert!(outcome.misbound > 100 && !outcome.is_good(), "{outcome}");
        assert!(shown[0].contains("other bindings"), "{}", shown[0]);
    }
}
