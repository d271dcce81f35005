//! Prints a rule file's plan so that its designer can follow it, a sentence for
//! each level:
//!
//!     cargo run --example describe ../examples/key-by-prefix.rules
//!     level 0 (door in r0): seek prefix "key-" (node 3, line 7: "key-"..) of field 1 (tag) after room = 7 (node 0, line 6: 7)
//!
//! In brackets stands the node that made an entry, its line and its pattern.
//!
//! With a second file it opens the plan there instead of compiling: what the
//! game has loaded, with the names of the rule file beside it.

use std::error::Error;
use std::process::ExitCode;
use std::{env, fs};

use sinalvento::plan::PlanFault;
use sinalvento::text::{self, Parsed};
use sinalvento::{Buffers, Plan, RuleFile, compile, explain};

/// A rule file; where it is a text, with the labels of its predicates and its lines.
fn rule_file(name: &str) -> Result<Parsed, Box<dyn Error>> {
    if name.ends_with(".rules") {
        return Ok(text::parse(&fs::read_to_string(name)?)?);
    }
    Ok(Parsed {
        rules: RuleFile::read(&fs::read(name)?)?,
        ..Parsed::default()
    })
}

/// Compiles the rules; of a refused file it says where and why.
fn compiled(rules: &RuleFile) -> Result<Vec<u8>, Box<dyn Error>> {
    let file = rules.write();
    match compile(&file, &mut Buffers::new()) {
        Ok(plan) => Ok(plan.to_vec()),
        Err(_) => Err(explain(&file).to_string().into()),
    }
}

/// A plan's bytes as data; of bytes that are no plan it says where and why.
fn opened(bytes: &[u8]) -> Result<Plan, Box<dyn Error>> {
    Plan::open(bytes).map_err(|refusal| match PlanFault::of(bytes) {
        Some(fault) => fault.into(),
        None => refusal.into(),
    })
}

fn described(names: &[String]) -> Result<String, Box<dyn Error>> {
    let (file, plan) = match names {
        [file] => (file, None),
        [file, plan] => (file, Some(plan)),
        _ => return Err("usage: describe FILE [PLAN]".into()),
    };
    let Parsed {
        rules,
        places,
        predicates,
    } = rule_file(file)?;
    let bytes = match plan {
        Some(plan) => fs::read(plan)?,
        None => compiled(&rules)?,
    };
    let plan = opened(&bytes)?;
    assert_eq!(
        plan.to_bytes(),
        bytes,
        "a plan is written back to its bytes"
    );
    let described = plan.described(&rules).labelled(&predicates);
    Ok(described.placed(&places).to_string())
}

fn main() -> ExitCode {
    let names: Vec<String> = env::args().skip(1).collect();
    match described(&names) {
        Ok(sentences) => {
            print!("{sentences}");
            ExitCode::SUCCESS
        }
        Err(why) => {
            eprintln!("{why}");
            ExitCode::FAILURE
        }
    }
}
