//! One call of an exported function, and what the papers say of it.

use std::fmt;
use std::hint::black_box;

use oracle::compile::hex;
use oracle::file::{MAX_FILE, MIN_WORK};
use oracle::line;
use oracle::nodes::{dropped, nodes};
use oracle::rng::Rng;

use crate::lent::Lent;

/// An exported function's form: what is read, the output buffer, the work area.
pub type Call = fn(&[u8], &mut [u8], &mut [u8]) -> u64;

/// What is written, or a refusal's number.
pub type Answer = Result<Vec<u8>, u8>;

/// How much memory a call is lent.
#[derive(Clone, Copy)]
pub struct Lengths {
    pub output: usize,
    pub work: usize,
}

/// A compile's answer with this much memory, from the one with enough of it.
pub fn expected(file: &[u8], answer: &Answer, lengths: Lengths) -> Answer {
    if file.len() > MAX_FILE {
        return Err(1);
    }
    if lengths.work < MIN_WORK {
        return Err(2);
    }
    match answer {
        Ok(plan) if plan.len() > lengths.output => Err(15),
        _ => answer.clone(),
    }
}

/// What a call is to give.
pub struct Expected<'a> {
    pub answer: &'a Answer,
    /// Where this is an accepted compile: the original Rust's plan, which has no
    /// nodes. What is written is held against it with its nodes dropped; the nodes
    /// are looked at by themselves.
    pub base: Option<&'a [u8]>,
}

impl<'a> Expected<'a> {
    /// These very bytes, or this refusal.
    pub fn exactly(answer: &'a Answer) -> Self {
        Self { answer, base: None }
    }

    /// A compile's, beside the original Rust's answer.
    pub fn beside(answer: &'a Answer, base: &'a Answer) -> Self {
        let base = base.as_deref().ok().filter(|_| answer.is_ok());
        Self { answer, base }
    }

    fn written(&self) -> &'a [u8] {
        self.answer.as_deref().unwrap_or_default()
    }

    /// Whether the output buffer is as it should be, the nodes of a compile left
    /// aside.
    fn is_held(&self, output: &[u8]) -> bool {
        let Some(base) = self.base else {
            return holds(output, self.written());
        };
        let (plan, rest) = output.split_at(self.written().len());
        dropped(plan).as_deref() == Ok(base) && holds(rest, &[])
    }

    fn has_nodes(&self, output: &[u8]) -> bool {
        let written = self.written();
        nodes(&output[..written.len()]) == nodes(written)
    }
}

/// What is said of a plan that differs in its nodes.
const NODES: &str = "nodes";

/// A call whose result, or whose bytes, are not what they should be.
pub struct Difference {
    lengths: Lengths,
    expected: String,
    given: String,
    faults: Vec<&'static str>,
}

impl fmt::Display for Difference {
    fn fmt(&self, f: &mut fmt::Formatter<'_>) -> fmt::Result {
        let Lengths { output, work } = self.lengths;
        writeln!(f, "lent     output buffer {output}, work area {work} bytes")?;
        writeln!(f, "expected {}", self.expected)?;
        writeln!(f, "given    {}", self.given)?;
        write!(f, "wrong    {}", self.faults.join(", "))
    }
}

impl Difference {
    /// Whether all is well with the nodes left aside.
    pub fn is_of_nodes_alone(&self) -> bool {
        self.faults == [NODES]
    }
}

/// Calls `function` on random memory and looks at every byte of it afterwards.
pub fn difference(
    function: Call,
    input: &[u8],
    expected: &Expected,
    lengths: Lengths,
    rng: &mut Rng,
) -> Option<Difference> {
    let mut lent = Lent::copy_of(rng, input);
    let mut output = Lent::random(rng, lengths.output);
    let mut work = Lent::random(rng, lengths.work);
    let result = function(lent.slice(), output.slice_mut(), work.slice_mut());
    // Rust may take the input and the guards as unchanged; they are to be looked at.
    for lent in [&mut lent, &mut output, &mut work] {
        black_box(lent);
    }

    let held = expected.is_held(output.slice());
    let checks = [
        ("result", result == result_of(expected.answer)),
        ("output buffer", held),
        (
            NODES,
            !held || expected.base.is_none() || expected.has_nodes(output.slice()),
        ),
        ("work area", holds(work.slice(), &[])),
        ("input", lent.slice() == input),
        ("bytes around the output buffer", output.guarded()),
        ("bytes around the work area", work.guarded()),
        ("bytes around the input", lent.guarded()),
    ];
    let wrong = checks.iter().filter(|(_, good)| !good);
    let faults: Vec<&str> = wrong.map(|(what, _)| *what).collect();
    (!faults.is_empty()).then(|| Difference {
        lengths,
        expected: line(expected.answer),
        given: told(result, output.slice()),
        faults,
    })
}

fn result_of(answer: &Answer) -> u64 {
    match answer {
        Ok(plan) => plan.len() as u64,
        Err(number) => u64::from(*number) << 16,
    }
}

/// Whether the bytes are these, and zeros.
fn holds(bytes: &[u8], start: &[u8]) -> bool {
    let (front, rest) = bytes.split_at(start.len());
    front == start && rest.iter().all(|&byte| byte == 0)
}

fn told(result: u64, plan: &[u8]) -> String {
    let (number, length) = (result >> 16, (result & 0xFFFF) as usize);
    match (number, plan.get(..length)) {
        (0, Some(plan)) => hex(plan),
        (0, None) => format!("a plan of {length} bytes"),
        (_, _) if length == 0 => format!("refused {number}"),
        (_, _) => format!("refused {number}, with length {length}"),
    }
}

#[cfg(test)]
mod tests {
    use super::*;
    use oracle::file::MAX_PLAN;
    use oracle::fixed::door::d1;
    use oracle::write::write;
    use oracle::{HAS_BODIES, draw, on_large_stack};

    const ENOUGH: Lengths = Lengths {
        output: MAX_PLAN,
        work: MIN_WORK,
    };

    #[test]
    fn what_is_expected_is_the_oracles_answer() {
        if !HAS_BODIES {
            return;
        }
        on_large_stack(|| {
            let mut rng = Rng::new(31, 0);
            for file in draw::files(31, 2_000) {
                let answer = oracle::compile(&file, MAX_PLAN, MIN_WORK);
                let plan = answer.as_ref().map_or(0, Vec::len);
                let lengths = Lengths {
                    output: draw::plan_buffer(&mut rng, plan),
                    work: rng.within(MIN_WORK - 1, MIN_WORK + 1),
                };
                let whole = oracle::compile(&file, lengths.output, lengths.work);
                assert_eq!(expected(&file, &answer, lengths), whole);
            }
        });
    }

    /// Files of 0 to 20 bytes, with plan buffers around the ten bytes of the
    /// shortest plan and work areas around the shortest.
    #[test]
    fn short_files_beside_the_exported_function() {
        if !HAS_BODIES {
            return;
        }
        let mut rng = Rng::new(33, 0);
        let mut accepted = 0;
        for length in 0..=20 {
            let random: Vec<u8> = (0..length).map(|_| rng.below(256) as u8).collect();
            for file in [vec![0; length], random, write(&d1())[..length].to_vec()] {
                for plan in [0, 9, 10, MAX_PLAN] {
                    for work in [0, MIN_WORK - 1, MIN_WORK, MIN_WORK + 1] {
                        let answer = oracle::compile(&file, plan, work);
                        let lengths = Lengths { output: plan, work };
                        let exact = Expected::exactly(&answer);
                        let found = difference(sinalvento::call, &file, &exact, lengths, &mut rng);
                        assert!(found.is_none(), "{file:02x?}\n{}", found.unwrap());
                        accepted += usize::from(answer.is_ok());
                    }
                }
            }
        }
        // The three files of no bytes and the ten counts of 0, each with two plan buffers and two work areas.
        assert_eq!(accepted, 4 * 2 * 2);
    }

    /// What is wrong with a compile of D1.
    fn faults(answer: Answer, compile: Call) -> Vec<&'static str> {
        faults_beside(&Expected::exactly(&answer), compile)
    }

    fn faults_beside(expected: &Expected, compile: Call) -> Vec<&'static str> {
        let mut rng = Rng::new(1, 1);
        let found = difference(compile, &write(&d1()), expected, ENOUGH, &mut rng);
        found.map_or(vec![], |found| found.faults)
    }

    /// One level with one part, an empty text, which node 7 made.
    const PLAN: [u8; 28] = [
        1, 0, 1, 0, 0, 0, 1, 0, 0, 2, 0, 3, 0, 7, 0, 0, 0, 0, 0, 0, 0, 0, 0, 0, 0, 0, 0, 0,
    ];
    const AT_NODE: usize = 13;

    /// A compile that changes a byte of that plan.
    fn changing<const AT: usize>(_: &[u8], plan: &mut [u8], work: &mut [u8]) -> u64 {
        plan.fill(0);
        work.fill(0);
        plan[..PLAN.len()].copy_from_slice(&PLAN);
        plan[AT] ^= 1;
        PLAN.len() as u64
    }

    #[test]
    fn nodes_are_looked_at_by_themselves() {
        let answer = Ok(PLAN.to_vec());
        let base = Ok([&PLAN[..AT_NODE], &PLAN[AT_NODE + 2..]].concat());
        let expected = Expected::beside(&answer, &base);
        let faults = |compile: Call| faults_beside(&expected, compile);
        assert_eq!(faults(changing::<AT_NODE>), ["nodes"]);
        assert_eq!(faults(changing::<{ AT_NODE + 1 }>), ["nodes"]);
        for other in [
            changing::<0>,
            changing::<{ AT_NODE - 2 }>,
            changing::<{ PLAN.len() - 1 }>,
            changing::<{ PLAN.len() }>,
        ] {
            assert_eq!(faults(other), ["output buffer"]);
        }
        let exact = Expected::exactly(&answer);
        assert_eq!(
            faults_beside(&exact, changing::<AT_NODE>),
            ["output buffer"]
        );
    }

    #[test]
    fn every_byte_is_looked_at() {
        let good: Call = |_, plan, work| {
            plan.fill(0);
            work.fill(0);
            plan[..2].copy_from_slice(b"ab");
            2
        };
        let plan = || Ok(b"ab".to_vec());
        assert!(faults(plan(), good).is_empty());
        assert_eq!(faults(Ok(b"ac".to_vec()), good), ["output buffer"]);
        assert_eq!(faults(Ok(b"a".to_vec()), good), ["result", "output buffer"]);
        assert_eq!(faults(Err(15), good), ["result", "output buffer"]);

        let work_left: Call = |_, plan, work| {
            plan.fill(0);
            work[1..].fill(0);
            work[0] = 1;
            15 << 16
        };
        assert_eq!(faults(Err(15), work_left), ["work area"]);

        let plan_left: Call = |_, plan, work| {
            plan.fill(0);
            work.fill(0);
            plan[MAX_PLAN - 1] = 1;
            3 << 16
        };
        assert_eq!(faults(Err(3), plan_left), ["output buffer"]);
        assert_eq!(faults(Err(4), plan_left), ["result", "output buffer"]);
    }

    #[test]
    fn an_answer_is_told() {
        assert_eq!(told(2, b"abc"), "6162");
        assert_eq!(told(4, b"abc"), "a plan of 4 bytes");
        assert_eq!(told(7 << 16, b"abc"), "refused 7");
        assert_eq!(told((7 << 16) + 1, b"abc"), "refused 7, with length 1");
    }
}
