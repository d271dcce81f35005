//! The plan reader on drawn plans: compiled ones and such as no compile writes,
//! whole, cut, damaged, joined and spoiled.

use std::collections::BTreeMap;

use oracle::HAS_BODIES;
use oracle::compile::hex;
use oracle::draw;
use oracle::draw::plans::{Kind, around, made};
use oracle::file::{MAX_PLAN, MIN_WORK};
use oracle::plan::{Plan, write_plan};
use oracle::reread::{BROKEN, RULES, broken, form, reread};
use oracle::rng::Rng;
use oracle::run::planned;
use oracle::shrink::shrink;

use crate::call::{Answer, Call, Expected, Lengths, difference};
use crate::run::{Outcome, SHOWN, TRIES, plan_kind};

/// Drawn bytes for each plan, beside the plan itself.
const DRAWN: usize = 8;
/// Every so many plans, all truncations of one that is not longer than this.
const SWEEP: u64 = 50;
const SWEPT: usize = 400;
/// Keeps these draws apart from the files'.
const PLANS: u64 = 0x0070_6C61_6E73;

/// A plan's bytes as data, with the bytes that this is written to, or the
/// refusal's number.
pub type Open = fn(&[u8]) -> Result<(Plan, Vec<u8>), u8>;

pub struct Plans {
    /// The exported reader.
    pub read: Call,
    /// The way by which the crate's callers have a plan as data.
    pub open: Open,
    pub seed: u64,
}

/// Bytes, how they were come by, and the data that they were written from.
struct Input<'a> {
    kind: Kind,
    bytes: Vec<u8>,
    data: Option<&'a Plan>,
}

impl Plans {
    /// The plans of so many drawn files, or made ones where a file has none.
    pub fn run(&self, count: u64, mut report: impl FnMut(String)) -> Outcome {
        let mut outcome = Outcome::default();
        for index in 0..count {
            let mut rng = Rng::new(self.seed ^ PLANS, index);
            let plan = base(self.seed, index, &mut rng);
            for input in inputs(index, &plan, &mut rng) {
                outcome.compared += 1;
                count_calls(&mut outcome.calls, &input, rng.clone());
                if self
                    .differs(&input.bytes, input.data, rng.clone())
                    .is_some()
                {
                    outcome.different += 1;
                    if outcome.different <= SHOWN {
                        report(self.shown(&input, rng.clone()));
                    }
                }
                rng.bits();
            }
        }
        outcome
    }

    /// What differs: in a call, or in the data.
    fn differs(&self, bytes: &[u8], data: Option<&Plan>, mut rng: Rng) -> Option<String> {
        let calls = lengths(bytes.len(), &mut rng)
            .into_iter()
            .find_map(|lengths| {
                let expected = expected(bytes, lengths.output);
                let exact = Expected::exactly(&expected);
                let found = difference(self.read, bytes, &exact, lengths, &mut rng);
                found.map(|found| found.to_string())
            });
        calls.or_else(|| self.data_differs(bytes, data))
    }

    fn data_differs(&self, bytes: &[u8], data: Option<&Plan>) -> Option<String> {
        let read = reread(bytes, MAX_PLAN);
        let as_written = data.is_none_or(|data| read.as_ref() == Ok(data));
        let expected = read.map(|plan| (plan, bytes.to_vec()));
        let opened = (self.open)(bytes);
        let differs = opened != expected || !as_written;
        differs.then(|| format!("written  {data:?}\nexpected {expected:?}\nopened   {opened:?}"))
    }

    /// The difference on the bytes, and on the fewest found.
    fn shown(&self, input: &Input, rng: Rng) -> String {
        let on = |bytes: &[u8]| self.differs(bytes, None, rng.clone());
        let found = self
            .differs(&input.bytes, input.data, rng.clone())
            .unwrap_or_default();
        let mut text = format!("{:?} {}\n{found}", input.kind, hex(&input.bytes));
        let small = shrink(&input.bytes, TRIES, |bytes| on(bytes).is_some());
        if small != input.bytes {
            text.push_str(&format!(
                "\nsmaller {}\n{}",
                hex(&small),
                on(&small).unwrap_or_default()
            ));
        }
        text
    }
}

/// The plan of a drawn file, or one that no file has.
fn base(seed: u64, index: u64, rng: &mut Rng) -> Plan {
    let of_file = || planned(&draw::file(seed, index)).map(|(plan, _)| plan);
    let found = if HAS_BODIES { of_file() } else { None };
    found.unwrap_or_else(|| made(rng))
}

fn inputs<'a>(index: u64, plan: &'a Plan, rng: &mut Rng) -> Vec<Input<'a>> {
    let bytes = write_plan(plan);
    let mut found = vec![];
    if index.is_multiple_of(SWEEP) && bytes.len() <= SWEPT {
        found.extend((0..bytes.len()).map(|length| (Kind::Cut, bytes[..length].to_vec())));
    }
    found.extend((0..DRAWN).map(|_| around(rng, plan)));
    let drawn = found.into_iter().map(|(kind, bytes)| Input {
        kind,
        bytes,
        data: None,
    });
    let whole = Input {
        kind: Kind::Whole,
        bytes,
        data: Some(plan),
    };
    std::iter::once(whole).chain(drawn).collect()
}

/// What the reader comes to with an output buffer of so many bytes.
fn expected(bytes: &[u8], room: usize) -> Answer {
    reread(bytes, room).map(|plan| write_plan(&plan))
}

/// What a plan's calls are lent: an output buffer for every plan, and one around
/// its length; work areas of any length.
fn lengths(plan: usize, rng: &mut Rng) -> [Lengths; 2] {
    let rooms = [MAX_PLAN, draw::plan_buffer(rng, plan)];
    rooms.map(|output| Lengths {
        output,
        work: [0, 1, MIN_WORK, rng.below(2 * MIN_WORK)][rng.weighted(&[40, 30, 10, 20])],
    })
}

fn count_calls(calls: &mut BTreeMap<String, usize>, input: &Input, mut rng: Rng) {
    let Input { kind, bytes, .. } = input;
    let alone = broken_alone(bytes);
    let mut add = |what: String| *calls.entry(what).or_default() += 1;
    for Lengths { output, work } in lengths(bytes.len(), &mut rng) {
        add(format!("bytes {kind:?}"));
        add(format!("output buffer {}", plan_kind(output, bytes.len())));
        add(format!("work area of {}", work_kind(work)));
        match (reread(bytes, output), alone) {
            (Ok(_), _) => add(String::from("accepted")),
            (Err(BROKEN), Some(rule)) => add(not_so(rule)),
            (Err(number), _) => add(format!("refused {number}")),
        }
    }
}

fn work_kind(work: usize) -> &'static str {
    match work {
        0 => "no byte",
        1 => "1 byte",
        MIN_WORK => "65,536 bytes",
        _ => "any length",
    }
}

/// How the run counts calls on plans that break a rule and no other one.
pub fn not_so(rule: usize) -> String {
    format!("refused 18, for this alone: {}", RULES[rule].0)
}

/// The one rule that a plan's levels break, if it is one.
fn broken_alone(bytes: &[u8]) -> Option<usize> {
    let plan = form(bytes).ok()?;
    let mut rules: Vec<usize> = plan.levels.iter().flat_map(broken).collect();
    rules.dedup();
    match rules.as_slice() {
        [rule] => Some(*rule),
        _ => None,
    }
}

#[cfg(test)]
mod tests {
    use super::*;
    use crate::opened::opened;
    use oracle::on_large_stack;

    /// The reader that is written from the papers, in the exported one's form.
    fn good(plan: &[u8], out: &mut [u8], work: &mut [u8]) -> u64 {
        out.fill(0);
        work.fill(0);
        match expected(plan, out.len()) {
            Ok(bytes) => {
                out[..bytes.len()].copy_from_slice(&bytes);
                bytes.len() as u64
            }
            Err(number) => u64::from(number) << 16,
        }
    }

    /// It looks at the form alone.
    fn trusting(plan: &[u8], out: &mut [u8], work: &mut [u8]) -> u64 {
        let result = good(plan, out, work);
        if result == 18 << 16 {
            out[..plan.len()].copy_from_slice(plan);
            return plan.len() as u64;
        }
        result
    }

    /// Another plan for each accepted one.
    fn forgetful(bytes: &[u8]) -> Result<(Plan, Vec<u8>), u8> {
        let (mut plan, bytes) = opened(bytes)?;
        plan.constrained.pop();
        Ok((plan, bytes))
    }

    fn run(read: Call, open: Open, count: u64) -> (Outcome, Vec<String>) {
        on_large_stack(move || {
            let mut shown = vec![];
            let plans = Plans {
                read,
                open,
                seed: 33,
            };
            let outcome = plans.run(count, |text| shown.push(text));
            (outcome, shown)
        })
    }

    /// Every refusal, every kind of bytes and of memory, and each rule of a level
    /// broken alone.
    #[test]
    fn all_kinds_are_met() {
        let (outcome, shown) = run(good, opened, 200);
        assert_eq!((outcome.different, shown.first()), (0, None));
        let rules = (0..RULES.len()).map(not_so);
        let rest = [
            "accepted",
            "refused 15",
            "refused 16",
            "refused 17",
            "refused 18",
            "bytes Whole",
            "bytes Made",
            "bytes Cut",
            "bytes Damaged",
            "bytes Marred",
            "bytes Joined",
            "bytes Spoiled",
            "bytes Stretched",
            "bytes Noise",
            "output buffer exact",
            "output buffer one too short",
            "output buffer of 0 bytes",
            "work area of no byte",
            "work area of 1 byte",
            "work area of 65,536 bytes",
        ];
        for what in rules.chain(rest.map(String::from)) {
            let count = outcome.calls.get(&what).copied().unwrap_or(0);
            assert!(count >= 5, "{what}: {count} of {:?}", outcome.calls);
        }
    }

    #[test]
    fn a_difference_is_counted_and_shown() {
        let (outcome, shown) = run(trusting, opened, 8);
        assert!(outcome.different > 0);
        assert_eq!(shown.len(), outcome.different.min(SHOWN));
        assert!(shown[0].contains("expected refused 18"), "{}", shown[0]);
        let (outcome, shown) = run(good, forgetful, 8);
        assert!(outcome.different > 0);
        assert!(shown[0].contains("opened "), "{}", shown[0]);
    }
}
