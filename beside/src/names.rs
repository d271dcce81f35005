//! Names of every form: the exported function beside Rust's own judge of UTF-8.

use oracle::compile::hex;
use oracle::draw::names::{ill_formed, name, text};
use oracle::file::MIN_WORK;
use oracle::rng::Rng;

use crate::call::Call;
use crate::run::{Outcome, SHOWN};

/// The plan of a file without levels.
const PLAN: u64 = 10;
const REFUSED: u64 = 6 << 16;
/// Keeps these draws apart from the files'.
const NAMES: u64 = 0x006E_616D_6573;

pub struct Names {
    pub compile: Call,
    pub seed: u64,
}

/// What one thread has to itself.
struct Bench {
    compile: Call,
    file: Vec<u8>,
    plan: Vec<u8>,
    work: Vec<u8>,
    outcome: Outcome,
    shown: Vec<String>,
}

impl Names {
    /// Every sequence of up to `longest` bytes, and so many longer names.
    pub fn run(&self, longest: usize, count: u64, mut report: impl FnMut(String)) -> Outcome {
        let mut parts = vec![];
        std::thread::scope(|scope| {
            let threads: Vec<_> = (0..4u8)
                .map(|part| scope.spawn(move || self.part(part, longest, count)))
                .collect();
            parts.extend(
                threads
                    .into_iter()
                    .map(|thread| thread.join().expect("it ends")),
            );
        });
        let mut whole = Outcome::default();
        let mut shown = vec![];
        for part in parts {
            whole.compared += part.outcome.compared;
            whole.different += part.outcome.different;
            for (what, calls) in part.outcome.calls {
                *whole.calls.entry(what).or_default() += calls;
            }
            shown.extend(part.shown);
        }
        shown.into_iter().take(SHOWN).for_each(&mut report);
        whole
    }

    /// A quarter of the sequences, by their first byte, and of the longer names.
    fn part(&self, part: u8, longest: usize, count: u64) -> Bench {
        let mut bench = Bench::new(self.compile);
        if part == 0 {
            bench.compare(&[]);
        }
        for first in (part..=255).step_by(4) {
            bench.sequences(&mut vec![first], longest);
        }
        for index in (u64::from(part)..count).step_by(4) {
            let mut rng = Rng::new(self.seed ^ NAMES, index);
            bench.compare(&longer(&mut rng));
        }
        bench
    }
}

/// A good name, a bad one, or a good one with a byte changed.
fn longer(rng: &mut Rng) -> Vec<u8> {
    match rng.weighted(&[20, 30, 50]) {
        0 => name(rng),
        1 => ill_formed(rng),
        _ => {
            let length = rng.within(2, 60);
            let mut bytes = text(rng, length);
            let at = rng.below(bytes.len());
            bytes[at] = rng.bits() as u8;
            bytes
        }
    }
}

impl Bench {
    fn new(compile: Call) -> Self {
        Self {
            compile,
            file: vec![],
            plan: vec![0; PLAN as usize],
            work: vec![0; MIN_WORK],
            outcome: Outcome::default(),
            shown: vec![],
        }
    }

    /// The bytes, and all that begin with them.
    fn sequences(&mut self, bytes: &mut Vec<u8>, longest: usize) {
        self.compare(bytes);
        if bytes.len() == longest {
            return;
        }
        for next in 0..=255 {
            bytes.push(next);
            self.sequences(bytes, longest);
            bytes.pop();
        }
    }

    /// A file of one name: accepted where Rust finds UTF-8, else refused by 6.
    fn compare(&mut self, name: &[u8]) {
        self.file.clear();
        self.file.extend([1, 0, name.len() as u8]);
        self.file.extend(name);
        self.file.extend([0; 18]);
        let result = (self.compile)(&self.file, &mut self.plan, &mut self.work);
        let good = std::str::from_utf8(name).is_ok();
        let expected = if good { PLAN } else { REFUSED };
        let what = if good { "accepted" } else { "refused 06" };
        *self.outcome.calls.entry(what.to_string()).or_default() += 1;
        self.outcome.compared += 1;
        if result != expected {
            self.outcome.different += 1;
            if self.shown.len() < SHOWN {
                let name = hex(name);
                self.shown.push(format!(
                    "name {name}: expected {expected:x} hex, given {result:x} hex"
                ));
            }
        }
    }
}

#[cfg(test)]
mod tests {
    use super::*;

    /// Takes a surrogate for a character.
    fn lax(file: &[u8], _: &mut [u8], _: &mut [u8]) -> u64 {
        let name = &file[3..3 + usize::from(file[2])];
        let surrogate = matches!(name, [0xED, 0xA0..=0xBF, 0x80..=0xBF]);
        if surrogate || std::str::from_utf8(name).is_ok() {
            return PLAN;
        }
        REFUSED
    }

    #[test]
    fn the_exported_function_agrees() {
        let names = Names {
            compile: sinalvento::call,
            seed: 35,
        };
        let outcome = names.run(2, 20_000, |shown| panic!("{shown}"));
        assert_eq!(outcome.compared, 1 + 256 + 65_536 + 20_000);
        assert!(outcome.calls["accepted"] > 20_000);
    }

    #[test]
    fn a_surrogate_let_in_is_found() {
        let mut shown = vec![];
        let names = Names {
            compile: lax,
            seed: 36,
        };
        let outcome = names.run(3, 0, |text| shown.push(text));
        assert_eq!(outcome.different, 32 * 64);
        assert_eq!(shown.len(), SHOWN);
        assert!(shown[0].starts_with("name ed"), "{}", shown[0]);
    }
}
