//! The exported functions beside the Rust bodies and a reader written from the
//! papers, in one process; see docs/ORACLE.md.

mod call;
mod exact;
mod lent;
#[cfg(test)]
mod mistakes;
mod names;
mod opened;
mod plans;
mod run;

use std::process::ExitCode;

use oracle::HAS_BODIES;
use oracle::exact::passes::passes;

use exact::Exact;
use names::Names;
use plans::Plans;
use run::{Outcome, Run};

const USAGE: &str = "usage:
  beside SEED COUNT         drawn files, compiled
  beside plans SEED COUNT   the plans of drawn files, and bytes drawn around them, read
  beside names SEED COUNT   names of up to three bytes, all of them, and longer ones drawn
  beside exact SEED COUNT   the levels of drawn files, each with drawn keys: what passes is what matches";

fn main() -> ExitCode {
    let arguments: Vec<String> = std::env::args().skip(1).collect();
    let words: Vec<&str> = arguments.iter().map(String::as_str).collect();
    let (what, numbers) = match words.as_slice() {
        [what @ ("plans" | "names" | "exact"), rest @ ..] => (*what, numbers(rest)),
        rest => ("files", numbers(rest)),
    };
    let Some((seed, count)) = numbers else {
        eprintln!("{USAGE}");
        return ExitCode::from(2);
    };
    match what {
        "plans" => return oracle::on_large_stack(move || read(seed, count)),
        "names" => return judge(seed, count),
        "exact" => return oracle::on_large_stack(move || keep(seed, count)),
        _ => {}
    }
    if !HAS_BODIES {
        eprintln!("built without the bodies: set FJORD_SRC to the source and build again");
        return ExitCode::from(2);
    }
    oracle::on_large_stack(move || compile(seed, count))
}

fn numbers(words: &[&str]) -> Option<(u64, u64)> {
    match words {
        [seed, count] => Some((seed.parse().ok()?, count.parse().ok()?)),
        _ => None,
    }
}

fn compile(seed: u64, count: u64) -> ExitCode {
    let compile = sinalvento::call;
    let run = Run { compile, seed };
    ended(&run.files(count, |shown| println!("{shown}")))
}

fn read(seed: u64, count: u64) -> ExitCode {
    let plans = Plans {
        read: sinalvento::call_read,
        open: opened::opened,
        seed,
    };
    ended(&plans.run(count, |shown| println!("{shown}")))
}

fn judge(seed: u64, count: u64) -> ExitCode {
    let compile = sinalvento::call;
    let names = Names { compile, seed };
    ended(&names.run(3, count, |shown| println!("{shown}")))
}

fn keep(seed: u64, count: u64) -> ExitCode {
    let exact = Exact {
        compile: sinalvento::call,
        passes: &passes,
        seed,
    };
    let outcome = exact.run(count, |shown| println!("{shown}"));
    println!("{outcome}");
    if outcome.is_good() {
        return ExitCode::SUCCESS;
    }
    ExitCode::FAILURE
}

fn ended(outcome: &Outcome) -> ExitCode {
    print(outcome);
    if outcome.different + outcome.nodes_different > 0 {
        return ExitCode::FAILURE;
    }
    ExitCode::SUCCESS
}

fn print(outcome: &Outcome) {
    for (what, count) in &outcome.calls {
        println!("{count:8} calls: {what}");
    }
    if outcome.left_out > 0 {
        println!("{} left out, too long for the bodies", outcome.left_out);
    }
    if let Some(by_rule) = &outcome.by_rule {
        print!("{by_rule}");
    }
    if outcome.noded > 0 {
        println!(
            "nodes of {} plans compared, {} different",
            outcome.noded, outcome.nodes_different
        );
    }
    println!(
        "{} compared, {} different",
        outcome.compared, outcome.different
    );
}
