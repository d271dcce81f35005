//! Plans drawn by seed for the plan reader: such as no compile writes, and cut,
//! damaged, joined and spoiled ones.

use crate::file::*;
use crate::plan::{Edge, Fuzzy, Level, Part, Plan, ResidualOp, Seek, write_plan};
use crate::reread::marked;
use crate::rng::Rng;

/// How bytes were come by.
#[derive(Debug, Clone, Copy, PartialEq, Eq, PartialOrd, Ord)]
pub enum Kind {
    Whole,
    Made,
    Cut,
    Damaged,
    Marred,
    Joined,
    Spoiled,
    Stretched,
    Noise,
}

/// Bytes drawn around a plan.
pub fn around(rng: &mut Rng, plan: &Plan) -> (Kind, Vec<u8>) {
    match rng.weighted(&[15, 8, 30, 12, 7, 20, 3, 5]) {
        0 => (Kind::Made, write_plan(&made(rng))),
        1 => (Kind::Cut, cut(rng, plan)),
        2 => (Kind::Damaged, damaged(rng, plan)),
        3 => (Kind::Marred, marred(rng, plan)),
        4 => (Kind::Joined, joined(rng, plan)),
        5 => (Kind::Spoiled, write_plan(&spoiled_plan(rng, plan))),
        6 => (Kind::Stretched, stretched(rng, plan)),
        _ => (Kind::Noise, noise(rng)),
    }
}

/// A plan of any data that keeps the rules of every level.
pub fn made(rng: &mut Rng) -> Plan {
    Plan {
        levels: some(rng, 4, level),
        bindings: some(rng, 3, binding),
        constrained: some(rng, 3, number),
        selects: some(rng, 2, |rng| (number(rng), path(rng), wide(rng))),
        diagnostics: some(rng, 3, |rng| (number(rng), rng.within(1, 11) as u8)),
    }
}

fn some<T>(rng: &mut Rng, most: usize, one: impl Fn(&mut Rng) -> T) -> Vec<T> {
    let count = rng.below(most + 1);
    (0..count).map(|_| one(rng)).collect()
}

/// Small, of two bytes, or any.
fn number(rng: &mut Rng) -> u16 {
    [rng.below(4) as u16, 0xFFFF, rng.bits() as u16][rng.weighted(&[70, 10, 20])]
}

fn wide(rng: &mut Rng) -> u32 {
    [rng.below(4) as u32, u32::MAX, rng.bits() as u32][rng.weighted(&[70, 10, 20])]
}

fn text(rng: &mut Rng) -> Vec<u8> {
    let length = [rng.below(4), rng.below(300)][rng.weighted(&[90, 10])];
    (0..length).map(|_| rng.bits() as u8).collect()
}

fn path(rng: &mut Rng) -> Path {
    let count = [rng.below(4), MAX_STEPS][rng.weighted(&[90, 10])];
    Path {
        field: number(rng),
        steps: (0..count).map(|_| wide(rng)).collect(),
    }
}

fn fuzzy(rng: &mut Rng) -> Fuzzy {
    Fuzzy {
        name: number(rng),
        distance: rng.bits() as u8,
        anchor: [Anchor::Prefix, Anchor::Whole][rng.below(2)],
    }
}

fn part(rng: &mut Rng) -> Part {
    match rng.below(3) {
        0 => Part::Bytes(text(rng)),
        1 => Part::RegisterField(number(rng), path(rng)),
        _ => Part::RegisterFactId(number(rng)),
    }
}

fn edge(rng: &mut Rng) -> Edge {
    Edge {
        inclusive: rng.chance(50),
        bytes: text(rng),
    }
}

fn residual(rng: &mut Rng) -> (Path, ResidualOp) {
    let op = match rng.below(7) {
        0 => ResidualOp::Bytes(text(rng)),
        1 => ResidualOp::Prefix(text(rng)),
        2 => ResidualOp::RegisterField(number(rng), path(rng)),
        3 => ResidualOp::RegisterFactId(number(rng)),
        4 => ResidualOp::Disc(wide(rng)),
        5 => ResidualOp::Fuzzy(fuzzy(rng)),
        _ => ResidualOp::OwnField(path(rng)),
    };
    (path(rng), op)
}

fn binding(rng: &mut Rng) -> Binding {
    let slot = match rng.below(6) {
        0 => Slot::Row(number(rng), number(rng)),
        1 => Slot::Key(number(rng), number(rng)),
        2 => Slot::Derived(number(rng)),
        3 => Slot::Field(number(rng), path(rng), number(rng)),
        4 => Slot::Value(number(rng), number(rng)),
        _ => Slot::Const(number(rng)),
    };
    let name = number(rng);
    Binding { name, slot }
}

fn level(rng: &mut Rng) -> Level {
    let parts = some(rng, 3, part);
    // A Prefix's parts are their nodes alone, and may be many.
    let many_closers = usize::from(number(rng));
    let many_parts = [rng.below(4), rng.below(MANY)][rng.weighted(&[80, 20])];
    let mut level = Level {
        narrowings: 0,
        closers: [rng.below(4), many_closers][rng.below(2)],
        parts: [parts.len(), many_parts][rng.below(2)],
        seek: match rng.below(4) {
            0 => Seek::Prefix(text(rng)),
            1 => Seek::Composite([parts, vec![Part::RegisterFactId(number(rng))]].concat()),
            2 => Seek::PrefixRange(parts, text(rng), path(rng)),
            _ => bounded(rng, parts),
        },
        guide: rng.chance(40).then(|| (path(rng), fuzzy(rng))),
        residuals: some(rng, 3, residual),
        folded: vec![],
        nodes: vec![],
    };
    match (&level.seek, &mut level.guide) {
        (Seek::PrefixRange(_, _, range), Some((path, _))) => *path = range.clone(),
        (Seek::Bounded(..), guide) => *guide = None,
        _ => {}
    }
    counted(&mut level);
    noded(rng, level)
}

/// The level with a node for each entry.
fn noded(rng: &mut Rng, mut level: Level) -> Level {
    level.nodes = (0..level.entries()).map(|_| number(rng)).collect();
    level
}

fn bounded(rng: &mut Rng, parts: Vec<Part>) -> Seek {
    let (lo, hi) = (edge(rng), edge(rng));
    match rng.below(3) {
        0 => Seek::Bounded(parts, Some(lo), None),
        1 => Seek::Bounded(parts, None, Some(hi)),
        _ => Seek::Bounded(parts, Some(lo), Some(hi)),
    }
}

/// Makes a level's numbers and its folded comparisons fit its other items.
fn counted(level: &mut Level) {
    let (mut ranges, mut edges) = (0, 0);
    match &level.seek {
        Seek::Prefix(_) => {}
        Seek::Composite(parts) => level.parts = parts.len(),
        Seek::PrefixRange(parts, ..) => (level.parts, ranges) = (parts.len(), 1),
        Seek::Bounded(parts, lo, hi) => {
            (level.parts, edges) = (parts.len(), lo.iter().count() + hi.iter().count());
        }
    }
    level.closers = level.closers.min(level.parts);
    level.folded.resize(edges, 1);
    let guides = usize::from(level.guide.is_some());
    level.narrowings = level.parts - level.closers + level.residuals.len() + ranges + guides;
}

/// The most that a number of a level can be.
const MOST: usize = 0xFFFF;
/// A Prefix has fewer parts: each of them has a node.
const MANY: usize = 600;

/// A level that breaks the rule of this place in `reread::RULES`, and keeps the
/// others; but too many closers may stand beside a sum that is cut off at 0.
pub fn spoiled(rng: &mut Rng, rule: usize) -> Level {
    let mut level = level(rng);
    match rule {
        0 => too_many_closers(rng, &mut level),
        1 => {
            let change = [1, rng.within(1, 4), 256, MOST][rng.below(4)];
            level.narrowings = (level.narrowings + change) & MOST;
        }
        2 if level.folded.is_empty() || rng.chance(50) => level.folded.push(number(rng).into()),
        2 => drop(level.folded.pop()),
        3 => {
            let bytes = |rng: &mut Rng| Part::Bytes(text(rng));
            level.seek = Seek::Composite(some(rng, 3, bytes));
            counted(&mut level);
        }
        4 => {
            let (range, fuzzy) = (path(rng), fuzzy(rng));
            level.guide = Some((another(rng, &range), fuzzy));
            level.seek = Seek::PrefixRange(some(rng, 2, part), text(rng), range);
            counted(&mut level);
        }
        5 => {
            level.guide = None;
            level.seek = Seek::Bounded(some(rng, 3, part), None, None);
            counted(&mut level);
        }
        _ => {
            level.guide = Some((path(rng), fuzzy(rng)));
            let parts = some(rng, 3, part);
            level.seek = bounded(rng, parts);
            counted(&mut level);
        }
    }
    noded(rng, level)
}

fn too_many_closers(rng: &mut Rng, level: &mut Level) {
    let more = rng.within(1, 3);
    (level.parts, level.closers) = (rng.below(4), 0);
    if rng.chance(50) {
        level.residuals.extend((0..more).map(|_| residual(rng)));
        counted(level);
        level.narrowings -= level.parts + more;
    } else {
        counted(level);
        level.narrowings -= level.parts;
    }
    level.closers = level.parts + more;
}

/// A path that isn't this one.
fn another(rng: &mut Rng, path: &Path) -> Path {
    let mut other = path.clone();
    match rng.below(4) {
        0 => other.field ^= 1 << rng.below(16),
        1 if other.steps.len() < MAX_STEPS => other.steps.push(0),
        2 if !other.steps.is_empty() => drop(other.steps.pop()),
        3 if !other.steps.is_empty() => {
            let at = rng.below(other.steps.len());
            other.steps[at] ^= 1 << rng.below(32);
        }
        _ => other.field = other.field.wrapping_add(1),
    }
    other
}

/// The plan with a level that breaks a rule, anywhere among its own.
fn spoiled_plan(rng: &mut Rng, plan: &Plan) -> Plan {
    let mut plan = plan.clone();
    let rule = rng.below(crate::reread::RULES.len());
    let at = rng.below(plan.levels.len() + 1);
    plan.levels.insert(at, spoiled(rng, rule));
    plan
}

fn cut(rng: &mut Rng, plan: &Plan) -> Vec<u8> {
    let mut bytes = write_plan(plan);
    bytes.truncate(rng.below(bytes.len()));
    bytes
}

fn damaged(rng: &mut Rng, plan: &Plan) -> Vec<u8> {
    let mut bytes = write_plan(plan);
    for _ in 0..1 + rng.weighted(&[70, 20, 10]) {
        let at = rng.below(bytes.len());
        match rng.below(8) {
            0 => bytes[at] ^= 1 << rng.below(8),
            1 => bytes[at] = rng.bits() as u8,
            2 => bytes[at] = bytes[at].wrapping_add(1),
            3 => bytes[at] = bytes[at].wrapping_sub(1),
            4 => bytes.insert(at, rng.below(4) as u8),
            5 if bytes.len() > 1 => drop(bytes.remove(at)),
            6 => bytes.push(rng.below(4) as u8),
            _ => bytes[at] = rng.below(20) as u8,
        }
    }
    bytes
}

/// A plan in which a byte with a list of meanings has another value, most often
/// the first one behind that list, and perhaps is the last byte of all.
fn marred(rng: &mut Rng, plan: &Plan) -> Vec<u8> {
    let mut bytes = match rng.chance(50) {
        true => write_plan(&made(rng)),
        false => write_plan(plan),
    };
    let marked = marked(&bytes);
    let Some(&(at, last)) = rng.pick(&marked) else {
        return bytes;
    };
    bytes[at] = [last + 1, last, 0, 0xFF, rng.bits() as u8][rng.weighted(&[60, 10, 10, 10, 10])];
    if rng.chance(50) {
        bytes.truncate(at + 1);
    }
    bytes
}

/// Two plans one behind the other, or as one.
fn joined(rng: &mut Rng, plan: &Plan) -> Vec<u8> {
    let other = made(rng);
    if rng.chance(50) {
        return [write_plan(plan), write_plan(&other)].concat();
    }
    let mut both = plan.clone();
    both.levels.extend(other.levels);
    both.bindings.extend(other.bindings);
    both.constrained.extend(other.constrained);
    both.selects.extend(other.selects);
    both.diagnostics.extend(other.diagnostics);
    write_plan(&both)
}

/// A plan as long as a plan may be, or a byte more or less.
fn stretched(rng: &mut Rng, plan: &Plan) -> Vec<u8> {
    let mut plan = plan.clone();
    let mut last = level(rng);
    last.seek = Seek::Prefix(vec![]);
    counted(&mut last);
    plan.levels.push(noded(rng, last));
    let rest = MAX_PLAN.saturating_sub(write_plan(&plan).len());
    let filler = (rest + rng.below(3)).saturating_sub(1);
    if let Some(last) = plan.levels.last_mut() {
        last.seek = Seek::Prefix(vec![7; filler]);
    }
    write_plan(&plan)
}

fn noise(rng: &mut Rng) -> Vec<u8> {
    let length = [rng.below(64), MAX_PLAN + rng.below(3) - 1][rng.weighted(&[95, 5])];
    let most = [2, 4, 256][rng.below(3)];
    (0..length).map(|_| rng.below(most) as u8).collect()
}

#[cfg(test)]
mod tests {
    use super::*;
    use crate::reread::{BROKEN, RULES, broken, reread};

    #[test]
    fn made_plans_are_read_back() {
        let mut rng = Rng::new(61, 0);
        for _ in 0..2_000 {
            let plan = made(&mut rng);
            assert_eq!(reread(&write_plan(&plan), MAX_PLAN), Ok(plan));
        }
    }

    #[test]
    fn spoiled_levels_break_their_rule_alone() {
        let mut rng = Rng::new(62, 0);
        for (rule, (words, _)) in RULES.iter().enumerate() {
            let mut alone = 0;
            for _ in 0..500 {
                let level = spoiled(&mut rng, rule);
                let found = broken(&level);
                assert!(found.contains(&rule), "{words}: {level:?}");
                alone += usize::from(found == [rule]);
                let levels = vec![level];
                let plan = Plan {
                    levels,
                    ..Plan::default()
                };
                assert_eq!(reread(&write_plan(&plan), MAX_PLAN), Err(BROKEN));
            }
            assert!(
                if rule == 0 { alone > 100 } else { alone == 500 },
                "{words}"
            );
        }
    }
}
