//! The commands; see docs/ORACLE.md.

use std::io::{BufWriter, Read, Write};
use std::process::ExitCode;
use std::time::Duration;

use oracle::compare::Compare;
use oracle::compile::{HAS_BODIES, hex};
use oracle::file::{MAX_PLAN, MIN_WORK};
use oracle::write::write;
use oracle::{coverage, draw, fixed, line, run, survey};

const USAGE: &str = "usage:
  oracle plan                           a rule file on standard input, its line on standard output
  oracle gen SEED COUNT                 files drawn by seed, each as a line of hex
  oracle pairs SEED COUNT [--max LEN]   files of at most LEN bytes, each as FILE = LINE
  oracle survey SEED COUNT [--max LEN]  what the files reach, counted
  oracle coverage SEED COUNT            which branches of the bodies the files reach
  oracle compare PROGRAM SEED COUNT     PROGRAM's lines beside the bodies', smallest differences shown
  oracle fixed                          the fixed list, as fixed/pairs.txt holds it
  oracle plans                          the fixed list of plans, as fixed/plans.txt holds it
  oracle worst NAME                     a file that is costly to walk, as hex: opened or unions
  oracle mutants SEED COUNT             on how many files each mistake shows (feature `mutants`)";

/// How long a compared program may take for one file.
const LIMIT: Duration = Duration::from_secs(20);

fn main() -> ExitCode {
    let arguments: Vec<String> = std::env::args().skip(1).collect();
    oracle::on_large_stack(move || command(&arguments))
}

fn command(arguments: &[String]) -> ExitCode {
    let words: Vec<&str> = arguments.iter().map(String::as_str).collect();
    let Some(done) = dispatch(&words) else {
        eprintln!("{USAGE}");
        return ExitCode::from(2);
    };
    done
}

/// None where the words are no command.
fn dispatch(words: &[&str]) -> Option<ExitCode> {
    let (words, max) = match words {
        [rest @ .., "--max", max] => (rest, max.parse().ok()?),
        _ => (words, usize::MAX),
    };
    match words {
        ["worst", name] => worst(name),
        ["gen", seed, count] => Some(generate(number(seed)?, number(count)?)),
        _ if !HAS_BODIES && is_command(words) => {
            eprintln!("built without the bodies: set FJORD_SRC to the source and build again");
            Some(ExitCode::from(2))
        }
        ["plan"] => Some(plan()),
        ["pairs", seed, count] => Some(pairs(number(seed)?, number(count)?, max)),
        ["survey", seed, count] => Some(look(number(seed)?, number(count)?, max)),
        ["coverage", seed, count] => Some(cover(number(seed)?, number(count)?)),
        ["compare", program, seed, count] => Some(compare(program, number(seed)?, number(count)?)),
        ["fixed"] => Some(print_list(fixed::list())),
        ["plans"] => Some(print_list(fixed::plans::list())),
        ["mutants", seed, count] => Some(mutants(number(seed)?, number(count)?)),
        _ => None,
    }
}

fn is_command(words: &[&str]) -> bool {
    let commands = [
        "plan", "pairs", "survey", "coverage", "compare", "fixed", "plans", "mutants",
    ];
    words.first().is_some_and(|word| commands.contains(word))
}

fn number(word: &str) -> Option<u64> {
    word.parse().ok()
}

fn plan() -> ExitCode {
    let mut file = vec![];
    std::io::stdin()
        .read_to_end(&mut file)
        .expect("standard input can be read");
    println!("{}", line(&oracle::compile(&file, MAX_PLAN, MIN_WORK)));
    ExitCode::SUCCESS
}

fn generate(seed: u64, count: u64) -> ExitCode {
    let mut out = BufWriter::new(std::io::stdout().lock());
    for file in draw::files(seed, count) {
        if writeln!(out, "{}", hex(&file)).is_err() {
            break;
        }
    }
    ExitCode::SUCCESS
}

fn worst(name: &str) -> Option<ExitCode> {
    let file = match name {
        "opened" => draw::worst::opened(),
        "unions" => draw::worst::unions(),
        _ => return None,
    };
    println!("{}", hex(&write(&file)));
    Some(ExitCode::SUCCESS)
}

fn pairs(seed: u64, count: u64, max: usize) -> ExitCode {
    let mut out = BufWriter::new(std::io::stdout().lock());
    for (file, outcome) in run::answered(seed, max).take(count as usize) {
        if writeln!(out, "{} = {}", hex(&file), line(&outcome)).is_err() {
            break;
        }
    }
    ExitCode::SUCCESS
}

fn look(seed: u64, count: u64, max: usize) -> ExitCode {
    let mut survey = survey::Survey::default();
    for (file, outcome) in run::answered(seed, max).take(count as usize) {
        survey.outcome(&file, &outcome);
    }
    survey.print();
    ExitCode::SUCCESS
}

fn cover(seed: u64, count: u64) -> ExitCode {
    let report = coverage::measure(draw::files(seed, count));
    for (line, function, what) in &report.unreached {
        println!("not reached: flatten.rs:{line} {function}: {what}");
    }
    println!(
        "{} files, {} out of fuel; {} of {} branches reached",
        report.files,
        report.out_of_fuel,
        report.reached,
        report.reached + report.unreached.len()
    );
    ExitCode::SUCCESS
}

fn compare(program: &str, seed: u64, count: u64) -> ExitCode {
    let compare = Compare {
        program,
        limit: LIMIT,
    };
    let outcome = compare.run(draw::files(seed, count), |shown| println!("{shown}"));
    if outcome.left_out > 0 {
        println!("{} left out, too long for the bodies", outcome.left_out);
    }
    print!("{}", outcome.by_rule);
    println!("{} different in their nodes alone", outcome.nodes);
    println!(
        "{} compared, {} different",
        outcome.compared, outcome.different
    );
    if outcome.different + outcome.nodes > 0 {
        return ExitCode::FAILURE;
    }
    ExitCode::SUCCESS
}

fn print_list(list: String) -> ExitCode {
    print!("{list}");
    ExitCode::SUCCESS
}

#[cfg(all(fjord_bodies, feature = "mutants"))]
fn mutants(seed: u64, count: u64) -> ExitCode {
    // A mutant that panics is found; its message is of no use.
    std::panic::set_hook(Box::new(|_| {}));
    let found = oracle::mutants::different(draw::files(seed, count));
    let mut missed = 0;
    for (mutant, count) in oracle::mutants::MUTANTS.iter().zip(found) {
        println!("{count:8} {}: {}", mutant.name, mutant.what);
        missed += usize::from(count == 0);
    }
    println!(
        "{} mutants, {missed} not found",
        oracle::mutants::MUTANTS.len()
    );
    if missed > 0 {
        return ExitCode::FAILURE;
    }
    ExitCode::SUCCESS
}

#[cfg(not(all(fjord_bodies, feature = "mutants")))]
fn mutants(_: u64, _: u64) -> ExitCode {
    eprintln!("built without the mutants: build with --features mutants");
    ExitCode::from(2)
}
