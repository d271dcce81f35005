//! Pairs of a level and a key, with both answers.

use crate::file::{Binding, RuleFile};
use crate::plan::{Level, Plan};
use crate::rng::Rng;

use super::conditions;
use super::given::{Given, Rule};
use super::keys::{Keys, rule, sizes};
use super::matcher::Matcher;
use super::slots::Tables;
use super::value::Value;

/// The form of [`super::passes::passes`].
pub type Passes = dyn Fn(&Level, &Value, &Given) -> bool;

/// How often a level that asks something is given registers and a rule.
const GIVEN: usize = 3;
/// Keys of each origin for each of these.
const BUILT: usize = 3;
const CHANGED: usize = 3;
const RANDOM: usize = 1;
/// Levels whose keys may be larger are left out.
const LARGEST: usize = 300;

/// How a key was drawn.
#[derive(Debug, Clone, Copy, PartialEq, Eq)]
pub enum Origin {
    /// After the level's pattern.
    Built,
    /// Such a key, changed in one place.
    Changed,
    Random,
}

/// A level, a key, and what both are tried with.
#[derive(Debug, Clone)]
pub struct Pair {
    pub level: usize,
    pub origin: Origin,
    pub key: Value,
    pub given: Given,
}

#[derive(Debug, Clone, Copy, PartialEq, Eq)]
pub struct Answers {
    pub passes: bool,
    pub matches: bool,
    pub zero_free: bool,
}

impl Answers {
    /// Where the key has a zero byte, only that what matches passes.
    pub fn differ(self) -> bool {
        match self.zero_free {
            true => self.passes != self.matches,
            false => self.matches && !self.passes,
        }
    }
}

/// An accepted file with its plan.
pub struct Trial<'a> {
    pub tables: Tables<'a>,
    pub plan: &'a Plan,
    /// The bindings before each level, and those after the last one.
    before: Vec<Vec<Binding>>,
}

impl<'a> Trial<'a> {
    pub fn new(file: &'a RuleFile, plan: &'a Plan) -> Self {
        let tables = Tables::new(file);
        let given = Given::new(Rule::Never);
        let mut before = vec![file.bindings.clone()];
        for level in &file.levels {
            let mut bindings = before[before.len() - 1].clone();
            let matcher = Matcher {
                tables: &tables,
                level,
                folded: &[],
                given: &given,
            };
            matcher.accepts(None, &mut bindings);
            before.push(bindings);
        }
        Self {
            tables,
            plan,
            before,
        }
    }

    /// Whether request [10] speaks of this file.
    pub fn meets_conditions(&self) -> bool {
        conditions::met(&self.tables, self.plan, &self.before)
    }

    /// The matcher's bindings are the walk's.
    pub fn bindings_agree(&self) -> bool {
        let starting = &self.tables.file.bindings;
        let walked: Vec<Binding> = starting
            .iter()
            .chain(&self.plan.bindings)
            .cloned()
            .collect();
        self.before.last() == Some(&walked)
    }

    pub fn answers(&self, pair: &Pair, passes: &Passes) -> Answers {
        let level = &self.plan.levels[pair.level];
        let matcher = Matcher {
            tables: &self.tables,
            level: &self.tables.file.levels[pair.level],
            folded: &level.folded,
            given: &pair.given,
        };
        let mut bindings = self.before[pair.level].clone();
        let answers = Answers {
            passes: passes(level, &pair.key, &pair.given),
            matches: matcher.accepts(Some(&pair.key), &mut bindings),
            zero_free: pair.key.is_zero_free(),
        };
        assert_eq!(
            bindings,
            self.before[pair.level + 1],
            "by the pattern alone"
        );
        answers
    }

    /// Pairs drawn for each level that has keys.
    pub fn pairs(&self, rng: &mut Rng, mut visit: impl FnMut(Pair)) {
        let sizes = sizes(&self.tables.file.types);
        let levels = self.tables.file.levels.iter().zip(&self.plan.levels);
        for (at, (level, planned)) in levels.enumerate() {
            let ty = self.tables.key_type(level);
            if sizes[usize::from(ty)].is_none_or(|size| size > LARGEST) {
                continue;
            }
            for _ in 0..if asks(planned) { GIVEN } else { 1 } {
                let mut keys = Keys {
                    tables: &self.tables,
                    level,
                    folded: &planned.folded,
                    sizes: &sizes,
                    given: Given::new(rule(rng)),
                    rng,
                };
                for (origin, key) in drawn(&mut keys, &self.before[at], ty) {
                    visit(Pair {
                        level: at,
                        origin,
                        key,
                        given: keys.given.clone(),
                    });
                }
            }
        }
    }
}

/// Whether a level asks anything of its keys.
pub fn asks(level: &Level) -> bool {
    level.narrowings > 0 || !level.folded.is_empty()
}

fn drawn(keys: &mut Keys, before: &[Binding], ty: u16) -> Vec<(Origin, Value)> {
    let built: Vec<Value> = (0..BUILT).map(|_| keys.built(before)).collect();
    let mut found = vec![];
    for at in 0..CHANGED {
        found.push((Origin::Changed, keys.changed(&built[at % BUILT], ty)));
    }
    found.extend((0..RANDOM).map(|_| (Origin::Random, keys.random())));
    found.extend(built.into_iter().map(|key| (Origin::Built, key)));
    found
}
