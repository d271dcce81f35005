//! The commands.

use std::fmt::Write as _;
use std::fs;
use std::path::Path;

use sinalvento::plan::PlanFault;
use sinalvento::rules::Section;
use sinalvento::{Accepted, Buffers, Explanation, Fault, Plan, RuleFile, compile, explain, text};

use crate::Outcome;
use crate::arguments::{Command, Form, Manner, Verb};
use crate::json;
use crate::source::{Source, Trouble, contents};

pub fn run(command: &Command) -> Outcome {
    let source = |form| Source::read(&command.file, form);
    let ended = match command.verb {
        Verb::Build => source(Form::Text).map(|source| build(&source, command)),
        Verb::Show => source(command.form).map(|source| show(&source)),
        Verb::Plan(manner) => {
            let output = command.output.as_deref();
            source(command.form).map(|source| plan(&source, manner, output))
        }
        Verb::Open(manner) => open(command, manner),
        Verb::Explain => source(command.form).map(|source| explained(&source)),
    };
    ended.unwrap_or_else(|trouble| match trouble {
        Trouble::Io(why) => Outcome::Failed(why),
        Trouble::Text(told) => refused(told),
    })
}

fn refused(told: String) -> Outcome {
    let output = vec![];
    Outcome::Refused { output, told }
}

fn done(output: Vec<u8>) -> Outcome {
    let told = String::new();
    Outcome::Done { output, told }
}

/// A fault, after the place of its record in the text.
fn fault_told(source: &Source, fault: &Fault) -> String {
    let place = match (fault.section, fault.record) {
        (Some(section), Some(record)) => source.place(section, record),
        _ => source.name.clone(),
    };
    format!("{place}: {fault}\n")
}

/// What a plan reports and what it passes over, each after its node's place.
fn reports(source: &Source, accepted: &Accepted) -> String {
    let place = |node: u16| source.place(Section::Nodes, node.into());
    let mut told = String::new();
    for note in &accepted.notes {
        let _ = writeln!(told, "{}: {note}", place(note.node));
    }
    for overlooked in &accepted.overlooked {
        let _ = writeln!(told, "{}: {overlooked}", place(overlooked.node));
    }
    told
}

fn build(source: &Source, command: &Command) -> Outcome {
    let told = match explain(&source.bytes) {
        Explanation::Refused(fault) => return refused(fault_told(source, &fault)),
        Explanation::Accepted(accepted) => reports(source, &accepted),
    };
    let output = match (&command.output, command.file.as_str()) {
        (Some(name), _) => name.clone(),
        (None, "-") => String::from("-"),
        (None, file) => Path::new(file)
            .with_extension("bin")
            .to_string_lossy()
            .into_owned(),
    };
    written(&output, &source.bytes, told)
}

/// Bytes in a file, or on standard output.
fn written(name: &str, bytes: &[u8], told: String) -> Outcome {
    if name == "-" {
        let output = bytes.to_vec();
        return Outcome::Done { output, told };
    }
    match fs::write(name, bytes) {
        Ok(()) => Outcome::Done {
            output: vec![],
            told,
        },
        Err(error) => Outcome::Failed(format!("{name}: {error}\n")),
    }
}

fn show(source: &Source) -> Outcome {
    match RuleFile::read(&source.bytes) {
        Ok(rules) => done(text::print(&rules).into_bytes()),
        Err(fault) => refused(fault_told(source, &fault)),
    }
}

fn plan(source: &Source, manner: Manner, output: Option<&str>) -> Outcome {
    let mut buffers = Buffers::new();
    let Ok(bytes) = compile(&source.bytes, &mut buffers) else {
        return refused(explanation(source));
    };
    let told = explanation(source);
    if let Some(name) = output {
        return written(name, bytes, told);
    }
    let rules = match RuleFile::read(&source.bytes) {
        Ok(rules) => rules,
        Err(fault) => return refused(fault_told(source, &fault)),
    };
    match Plan::open(bytes) {
        Ok(plan) => Outcome::Done {
            output: printed(&plan, Some((&rules, source)), manner).into_bytes(),
            told,
        },
        Err(refusal) => Outcome::Failed(format!("{}: its plan: {refusal}\n", source.name)),
    }
}

/// A plan as it is printed, with the names and patterns of its rule file, and the
/// labels and lines of its text, where these are at hand.
fn printed(plan: &Plan, rules: Option<(&RuleFile, &Source)>, manner: Manner) -> String {
    match (manner, rules) {
        (Manner::Hex, _) => hex(&plan.to_bytes()),
        (Manner::Json, _) => format!("{}\n", json::plan(plan, rules.map(|(rules, _)| rules))),
        (Manner::Readable, None) => plan.to_string(),
        (Manner::Readable, Some((rules, source))) => plan
            .shown(rules)
            .labelled(source.predicates())
            .placed(source.places())
            .to_string(),
        (Manner::Brief, None) => plan.described(&RuleFile::default()).to_string(),
        (Manner::Brief, Some((rules, source))) => plan
            .described(rules)
            .labelled(source.predicates())
            .placed(source.places())
            .to_string(),
    }
}

fn hex(bytes: &[u8]) -> String {
    let digits = bytes.iter().map(|byte| format!("{byte:02x}"));
    digits.collect::<String>() + "\n"
}

/// A plan's bytes, with or without the rule file that they are of.
fn open(command: &Command, manner: Manner) -> Result<Outcome, Trouble> {
    let (name, bytes) = contents(&command.file)?;
    let plan = match Plan::open(&bytes) {
        Ok(plan) => plan,
        Err(refusal) => {
            let place = PlanFault::of(&bytes).map(|fault| fault.to_string());
            let place = place.unwrap_or_else(|| refusal.to_string());
            return Ok(refused(format!("{name}: {place}\n")));
        }
    };
    let Some(rules) = &command.rules else {
        return Ok(done(printed(&plan, None, manner).into_bytes()));
    };
    let source = Source::read(rules, command.form)?;
    let rules = match RuleFile::read(&source.bytes) {
        Ok(rules) => rules,
        Err(fault) => return Ok(refused(fault_told(&source, &fault))),
    };
    let output = printed(&plan, Some((&rules, &source)), manner);
    let same = compile(&source.bytes, &mut Buffers::new()).is_ok_and(|made| made == bytes);
    Ok(Outcome::Done {
        output: output.into_bytes(),
        told: match same {
            true => String::new(),
            false => format!("{name}: this is not the plan of {}\n", source.name),
        },
    })
}

/// A fault, or what there is to report: nothing of a file without a mistake.
fn explanation(source: &Source) -> String {
    match explain(&source.bytes) {
        Explanation::Refused(fault) => fault_told(source, &fault),
        Explanation::Accepted(accepted) => reports(source, &accepted),
    }
}

fn explained(source: &Source) -> Outcome {
    match explain(&source.bytes) {
        Explanation::Refused(fault) => Outcome::Refused {
            output: fault_told(source, &fault).into_bytes(),
            told: String::new(),
        },
        Explanation::Accepted(accepted) => {
            let bare = Accepted {
                notes: vec![],
                overlooked: vec![],
                ..accepted.clone()
            };
            let told = reports(source, &accepted);
            done(format!("{}: {bare}\n{told}", source.name).into_bytes())
        }
    }
}
