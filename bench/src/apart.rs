//! One call of one side in a process of its own, which is ended where it takes too long.

use std::fmt::Write as _;
use std::io::Read;
use std::process::{Child, Command, ExitCode, Stdio};
use std::time::{Duration, Instant};

use crate::clock::{process, timed};
use crate::files::{self, Case};
use crate::sides::{self, Answer, Lent};

/// A side's name, on the command line.
#[derive(Clone, Copy)]
pub enum Side {
    Exported,
    Rust,
}

impl Side {
    fn word(self) -> &'static str {
        match self {
            Self::Exported => "exported",
            Self::Rust => "rust",
        }
    }
}

/// What a side answers to the case's file and how long it takes; none where it takes longer
/// than `limit`.
pub fn answer(case: &Case, side: Side, limit: Duration) -> Option<(Answer, Duration)> {
    let this = std::env::current_exe().expect("a program knows itself");
    let mut child = Command::new(this)
        .args(["answer", case.name, side.word()])
        .stdout(Stdio::piped())
        .spawn()
        .expect("it starts once more");
    if !ends(&mut child, limit) {
        return None;
    }
    let mut told = String::new();
    let output = child.stdout.as_mut().expect("it is piped");
    output.read_to_string(&mut told).expect("it is text");
    Some(read(&told).expect("the child tells its answer"))
}

/// Whether the process ends by itself in that time on a processor, or as it passes where the
/// other is not told; it is over then in any case. What it tells fits into a pipe, so that it
/// need not be read before.
fn ends(child: &mut Child, limit: Duration) -> bool {
    let start = Instant::now();
    while process(child.id()).unwrap_or_else(|| start.elapsed()) < limit {
        if child.try_wait().expect("it can be waited for").is_some() {
            return true;
        }
        std::thread::sleep(Duration::from_millis(20));
    }
    child.kill().expect("it can be ended");
    child.wait().expect("it can be waited for");
    false
}

/// The child: tells what the side answers.
pub fn tell(name: &str, side: &str) -> ExitCode {
    let cases = files::worst();
    let Some(case) = cases.iter().find(|case| case.name == name) else {
        return ExitCode::from(2);
    };
    let mut lent = Lent::new();
    let file = &case.files[0];
    let (answer, time) = match side {
        "exported" => timed(|| sides::given(file, case.part, &mut lent)),
        _ => timed(|| sides::expected(file, case.part)),
    };
    println!("{}", written(&answer, time));
    ExitCode::SUCCESS
}

/// Nanoseconds, then the plan in hex behind a `p`, or the refusal's number.
fn written(answer: &Answer, time: Duration) -> String {
    let mut told = format!("{} ", time.as_nanos());
    match answer {
        Ok(plan) => {
            told.push('p');
            plan.iter().for_each(|byte| {
                write!(told, "{byte:02x}").expect("a String takes it");
            });
        }
        Err(number) => told.push_str(&number.to_string()),
    }
    told
}

fn read(told: &str) -> Option<(Answer, Duration)> {
    let (time, answer) = told.trim_end().split_once(' ')?;
    let time = Duration::from_nanos(time.parse().ok()?);
    let Some(hex) = answer.strip_prefix('p') else {
        return Some((Err(answer.parse().ok()?), time));
    };
    let bytes = (0..hex.len()).step_by(2);
    let plan = bytes.map(|at| u8::from_str_radix(hex.get(at..at + 2)?, 16).ok());
    Some((Ok(plan.collect::<Option<_>>()?), time))
}

#[cfg(test)]
mod tests {
    use super::*;

    #[test]
    fn answers_are_read_as_they_are_written() {
        let time = Duration::from_nanos(1_234_567);
        for answer in [Ok(vec![]), Ok(vec![0, 15, 255]), Err(15)] {
            let told = written(&answer, time);
            assert_eq!(read(&told), Some((answer, time)));
        }
        assert_eq!(read("12 p0"), None);
        assert_eq!(read("12"), None);
    }

    #[test]
    fn what_takes_too_long_is_ended() {
        let run = |command: &str| {
            let mut shell = Command::new("sh");
            shell.args(["-c", command]).spawn().expect("it starts")
        };
        assert!(ends(&mut run("true"), Duration::from_secs(20)));
        let mut forever = run("while :; do :; done");
        assert!(!ends(&mut forever, Duration::from_millis(50)));
    }
}
