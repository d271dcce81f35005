//! Time and stack of the exported function and of the Rust oracle; see
//! docs/BENCH.md.

mod apart;
mod clock;
mod files;
mod sides;
mod stack;
mod table;
mod timing;

use std::fs;
use std::path::Path;
use std::process::{Command, ExitCode, Stdio};
use std::time::Duration;

use oracle::HAS_BODIES;

use files::{Case, Part};
use sides::{Answer, Lent};
use table::{number, or_none, ratio, row, time};
use timing::Times;

const USAGE: &str = "usage:
  bench times             everyday files
  bench worst [SECONDS]   files that keep a side busy for long; some minutes. A side that takes
                          longer than so many seconds (60) for a call has no time
  bench stack             how much stack a call takes; needs no source of the bodies
  bench files DIR         writes what is timed: rule files as DIR/NAME.rules, plans as DIR/NAME.plan";

fn main() -> ExitCode {
    let arguments: Vec<String> = std::env::args().skip(1).collect();
    let words: Vec<&str> = arguments.iter().map(String::as_str).collect();
    match words.as_slice() {
        ["times" | "worst" | "files", ..] if !HAS_BODIES => {
            eprintln!("built without the bodies: set FJORD_SRC to the source and build again");
            ExitCode::from(2)
        }
        ["times"] => oracle::on_large_stack(|| time_all(files::everyday(), None)),
        ["worst"] => time_worst(LIMIT),
        ["worst", seconds] if seconds.parse::<u64>().is_ok() => {
            time_worst(seconds.parse().expect("it is a number"))
        }
        ["stack"] => measure_stacks(),
        ["files", directory] => write_files(Path::new(directory)),
        // By `worst`, in a process of its own: a call that takes too long ends it.
        ["answer", name, side] => {
            let (name, side) = (name.to_string(), side.to_string());
            oracle::on_large_stack(move || apart::tell(&name, &side))
        }
        // By `stack`, in a process of its own: a stack that is too small ends it.
        ["thread", name] => on_thread(name),
        _ => {
            eprintln!("{USAGE}");
            ExitCode::from(2)
        }
    }
}

/// Seconds that a call of a side may take, where nothing else is said.
const LIMIT: u64 = 60;

fn time_worst(seconds: u64) -> ExitCode {
    let limit = Duration::from_secs(seconds);
    oracle::on_large_stack(move || time_all(files::worst(), Some(limit)))
}

/// Times the cases; with a limit, a side that takes longer for one call has no time.
fn time_all(cases: Vec<Case>, limit: Option<Duration>) -> ExitCode {
    let mut lent = Lent::new();
    let head = [
        "file",
        "bytes",
        "answer",
        "exported",
        "Rust",
        "Rust / exported",
    ];
    let mut rows = vec![row(&head)];
    for case in cases {
        let agreed = match limit {
            None => sides::agreed(&case, &mut lent),
            Some(limit) => sides::agreed_within(&case, limit),
        };
        let Some((answers, first)) = agreed else {
            println!("{}: the answers differ", case.name);
            return ExitCode::FAILURE;
        };
        let times = timing::times(&case, &mut lent, first);
        rows.push(timed_row(&case, &answers, times));
    }
    table::print(&rows);
    let zeroing = timing::zeroing(&mut lent);
    println!("zeroing plan buffer and work area alone: {}", time(zeroing));
    ExitCode::SUCCESS
}

fn timed_row(case: &Case, answers: &[Answer], times: Times) -> Vec<String> {
    let count = case.files.len();
    let bytes: usize = case.files.iter().map(Vec::len).sum();
    let each = |pass: Duration| time(pass / count as u32);
    let both = times.rust.zip(times.exported);
    vec![
        String::from(case.name),
        number(bytes / count),
        told(answers),
        or_none(times.exported.map(each)),
        or_none(times.rust.map(each)),
        or_none(both.map(|(rust, exported)| ratio(rust, exported))),
    ]
}

/// Writes every file that is timed under its case's name; where a case has several,
/// with a number behind it.
fn write_files(directory: &Path) -> ExitCode {
    let written = [files::everyday(), files::worst()]
        .iter()
        .flatten()
        .try_for_each(|case| write_case(directory, case));
    if let Err(error) = written {
        eprintln!("{}: {error}", directory.display());
        return ExitCode::FAILURE;
    }
    ExitCode::SUCCESS
}

fn write_case(directory: &Path, case: &Case) -> std::io::Result<()> {
    let kind = if case.part == Part::Plan {
        "plan"
    } else {
        "rules"
    };
    let name = table::kebab(case.name);
    fs::create_dir_all(directory)?;
    case.files.iter().enumerate().try_for_each(|(at, file)| {
        let number = if case.files.len() == 1 {
            String::new()
        } else {
            format!("-{at}")
        };
        fs::write(directory.join(format!("{name}{number}.{kind}")), file)
    })
}

/// What both sides answer to the files.
fn told(answers: &[Answer]) -> String {
    match answers {
        [] => String::from("–"),
        [Ok(plan)] => format!("plan of {}", number(plan.len())),
        [Err(number)] => format!("refused {number}"),
        _ => {
            let accepted = answers.iter().filter(|answer| answer.is_ok()).count();
            format!("{accepted} of {} accepted", number(answers.len()))
        }
    }
}

/// The stack that is to be enough for every file: callers are promised it by
/// the header.
fn promised() -> usize {
    let header = include_str!("../../engine/include/sinalvento.h");
    let lines = header.lines();
    let mut told = lines.filter_map(|line| line.strip_prefix("#define SINALVENTO_STACK "));
    let bytes = told.next().and_then(|bytes| bytes.parse().ok());
    bytes.expect("the header promises a number of bytes")
}

fn measure_stacks() -> ExitCode {
    let enough = format!("{} KiB enough", promised() >> 10);
    let head = ["files", "exported", "Rust", &enough];
    let mut rows = vec![row(&head)];
    let mut all_enough = true;
    for kind in files::STACKED {
        let case = kind.case();
        let mut lent = Lent::new();
        let exported = stack::depth(|| sides::exported(&case, &mut lent));
        let rust = HAS_BODIES
            .then(|| stack::depth(|| sides::rust(&case, &mut lent)))
            .flatten();
        let enough = is_enough(case.name);
        all_enough &= enough;
        rows.push(vec![
            format!("{} ({})", case.name, number(case.files.len())),
            told_or_not(exported),
            told_or_not(rust),
            String::from(if enough { "yes" } else { "NO" }),
        ]);
    }
    table::print(&rows);
    if all_enough {
        return ExitCode::SUCCESS;
    }
    eprintln!("a call needs more stack than is promised");
    ExitCode::FAILURE
}

fn told_or_not(depth: Option<usize>) -> String {
    depth.map_or(String::from("-"), number)
}

/// Whether the exported function gets through files of a kind on a thread with
/// the promised stack.
fn is_enough(name: &str) -> bool {
    let this = std::env::current_exe().expect("a program knows itself");
    Command::new(this)
        .args(["thread", name])
        .stderr(Stdio::null())
        .status()
        .is_ok_and(|status| status.success())
}

fn on_thread(name: &str) -> ExitCode {
    let Some(kind) = files::STACKED.into_iter().find(|kind| kind.name == name) else {
        return ExitCode::from(2);
    };
    let (case, mut lent) = (kind.case(), Lent::new());
    stack::on_thread(promised(), || sides::exported(&case, &mut lent));
    ExitCode::SUCCESS
}
