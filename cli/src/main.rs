//! The command `sinalvento`: rule files built from text, shown as text, planned
//! and explained.

mod arguments;
mod commands;
mod json;
mod source;

use std::io::{self, ErrorKind, Write};
use std::process::ExitCode;

use arguments::{Arguments, USAGE};

/// How a command ends.
enum Outcome {
    /// What goes to standard output, and what people should be told beside it.
    Done { output: Vec<u8>, told: String },
    /// The file is refused or its text has a fault: status 1.
    Refused { output: Vec<u8>, told: String },
    /// A file cannot be read or written: status 2.
    Failed(String),
}

fn main() -> ExitCode {
    let words: Vec<String> = std::env::args_os()
        .skip(1)
        .map(|word| word.to_string_lossy().into_owned())
        .collect();
    let outcome = match arguments::read(&words) {
        Ok(Arguments::Help) => done(USAGE),
        Ok(Arguments::Version) => done(concat!("sinalvento ", env!("CARGO_PKG_VERSION"), "\n")),
        Ok(Arguments::Command(command)) => commands::run(&command),
        Err(why) => Outcome::Failed(format!("sinalvento: {why}\n\n{USAGE}")),
    };
    end(outcome)
}

fn done(text: &str) -> Outcome {
    Outcome::Done {
        output: text.into(),
        told: String::new(),
    }
}

fn end(outcome: Outcome) -> ExitCode {
    let (output, told, status) = match outcome {
        Outcome::Done { output, told } => (output, told, 0),
        Outcome::Refused { output, told } => (output, told, 1),
        Outcome::Failed(why) => (vec![], why, 2),
    };
    // Nobody is left to be told where standard error is closed.
    let _ = io::stderr().write_all(told.as_bytes());
    let mut stdout = io::stdout();
    match stdout.write_all(&output).and_then(|()| stdout.flush()) {
        Ok(()) => ExitCode::from(status),
        Err(error) if error.kind() == ErrorKind::BrokenPipe => ExitCode::from(status),
        Err(error) => {
            let _ = writeln!(io::stderr(), "sinalvento: standard output: {error}");
            ExitCode::from(2)
        }
    }
}
