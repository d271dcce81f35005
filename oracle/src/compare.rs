//! Another program beside the bodies: the same files, line against line.

use std::io::{Read, Write};
use std::process::{Child, Command, Stdio};
use std::sync::mpsc;
use std::time::Duration;

use crate::compile::{hex, line};
use crate::nodes::line_dropped;
use crate::run::{ByRule, answer, reference};
use crate::shrink::shrink;

/// How often a file that shows a difference is tried smaller.
const TRIES: usize = 400;

pub struct Compare<'a> {
    /// The program, and its arguments after blanks.
    pub program: &'a str,
    pub limit: Duration,
}

#[derive(Default)]
pub struct Outcome {
    pub compared: usize,
    /// Lines that differ with the nodes left aside.
    pub different: usize,
    /// Other lines: these differ in their nodes alone.
    pub nodes: usize,
    /// Files that the bodies take too long for.
    pub left_out: usize,
    /// Files that are compared with the written rule alone.
    pub by_rule: ByRule,
}

/// How a line differs from the expected one.
#[derive(Clone, Copy, PartialEq, Eq)]
enum Differs {
    Not,
    InNodes,
    Else,
}

impl Compare<'_> {
    /// Compares on each file and calls `report` with what differs.
    pub fn run(
        &self,
        files: impl Iterator<Item = Vec<u8>>,
        mut report: impl FnMut(String),
    ) -> Outcome {
        let mut outcome = Outcome::default();
        for file in files {
            let Some(differs) = self.differs(&file) else {
                outcome.left_out += 1;
                continue;
            };
            outcome.compared += 1;
            if let Some(by_rule) = answer(&file).and_then(|answer| reference(&file, &answer)) {
                outcome.by_rule.add(&by_rule);
            }
            match differs {
                Differs::Not => continue,
                Differs::InNodes => outcome.nodes += 1,
                Differs::Else => outcome.different += 1,
            }
            report(self.shown(&file, differs));
        }
        outcome
    }

    fn differs(&self, file: &[u8]) -> Option<Differs> {
        let expected = line(&answer(file)?);
        let given = self.answer(file);
        Some(if given == expected {
            Differs::Not
        } else if line_dropped(&given) == line_dropped(&expected) {
            Differs::InNodes
        } else {
            Differs::Else
        })
    }

    /// The difference on the smallest file found.
    fn shown(&self, file: &[u8], differs: Differs) -> String {
        let small = shrink(file, TRIES, |file| self.differs(file) == Some(differs));
        let expected = answer(&small).map_or(String::from("no answer"), |o| line(&o));
        let given = self.answer(&small);
        format!(
            "file     {}\nexpected {expected}\ngiven    {given}",
            hex(&small)
        )
    }

    /// What the program prints, less its line's end, or why there is nothing.
    fn answer(&self, file: &[u8]) -> String {
        let mut words = self.program.split_whitespace();
        let started = Command::new(words.next().unwrap_or_default())
            .args(words)
            .stdin(Stdio::piped())
            .stdout(Stdio::piped())
            .stderr(Stdio::null())
            .spawn();
        match started {
            Ok(child) => self.talk(child, file),
            Err(error) => format!("(cannot be started: {error})"),
        }
    }

    fn talk(&self, mut child: Child, file: &[u8]) -> String {
        let mut input = child.stdin.take().expect("it was piped");
        let mut output = child.stdout.take().expect("it was piped");
        let (done, printed) = mpsc::channel();
        // Writing may wait for a program that does not read; both stand on
        // threads so that the limit holds.
        let file = file.to_vec();
        std::thread::spawn(move || input.write_all(&file));
        std::thread::spawn(move || {
            let mut text = vec![];
            let read = output.read_to_end(&mut text);
            done.send(read.map(|_| text))
        });
        let printed = printed.recv_timeout(self.limit);
        if printed.is_err() {
            // It may have ended by itself in the meantime.
            let _ = child.kill();
        }
        let _ = child.wait();
        match printed {
            Ok(Ok(text)) => one_line(&text),
            Ok(Err(error)) => format!("(cannot be read: {error})"),
            Err(_) => format!("(nothing within {} s)", self.limit.as_secs()),
        }
    }
}

/// The line without its end; anything but one line stays visible.
fn one_line(text: &[u8]) -> String {
    let text = String::from_utf8_lossy(text);
    match text.strip_suffix('\n') {
        Some(line) if !line.contains('\n') => line.to_string(),
        _ => format!("(not one line: {text:?})"),
    }
}
