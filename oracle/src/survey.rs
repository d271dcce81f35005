//! What a run of files reached, counted on files and plans as data.

use std::collections::BTreeMap;

use crate::compile::{front, noted};
use crate::file::{Comparison, MIN_WORK, Node, RuleFile, Slot};
use crate::plan::{Plan, ResidualOp, Seek};

#[derive(Default)]
pub struct Survey {
    counts: BTreeMap<String, usize>,
}

impl Survey {
    pub fn add(&mut self, what: &str) {
        *self.counts.entry(what.to_string()).or_default() += 1;
    }

    pub fn count(&self, what: &str) -> usize {
        self.counts.get(what).copied().unwrap_or(0)
    }

    pub fn outcome(&mut self, file: &[u8], outcome: &Result<Vec<u8>, u8>) {
        match outcome {
            Err(number) => self.refused(*number),
            Ok(_) => {
                let tables = front(file, MIN_WORK).expect("the file was accepted");
                self.accepted(&tables, &noted(&tables, u64::MAX));
            }
        }
    }

    fn refused(&mut self, number: u8) {
        self.add(&format!("refused {number:02}"));
    }

    /// An accepted file and its plan.
    fn accepted(&mut self, file: &RuleFile, plan: &Plan) {
        self.add("accepted");
        for binding in &file.bindings {
            self.add(&format!("starting slot {}", slot_name(&binding.slot)));
        }
        for binding in &plan.bindings {
            self.add(&format!("new binding {}", slot_name(&binding.slot)));
        }
        for (_, code) in &plan.diagnostics {
            self.add(&format!("diagnostic {code:02}"));
        }
        for _ in &plan.selects {
            self.add("select");
        }
        for _ in &plan.constrained {
            self.add("constrained name");
        }
        for level in &plan.levels {
            self.level(level);
            for &index in &level.folded {
                self.folded(file, &file.comparisons[index]);
            }
        }
    }

    /// A name on the left is read as the Var, whatever stands on the right.
    fn folded(&mut self, file: &RuleFile, comparison: &Comparison) {
        let left = matches!(file.nodes[comparison.left as usize], Node::Var(name)
            if !file.bindings.iter().any(|binding| binding.name == name));
        let side = if left { "left" } else { "right" };
        self.add(&format!("folded {:?}, Var on the {side}", comparison.op));
    }

    fn level(&mut self, level: &crate::plan::Level) {
        self.add("level");
        self.add(match (&level.seek, &level.guide) {
            (Seek::Prefix(_), None) => "seek 0",
            (Seek::Prefix(_), Some(_)) => "seek 0 guided",
            (Seek::Composite(_), None) => "seek 1",
            (Seek::Composite(_), Some(_)) => "seek 1 guided",
            (Seek::PrefixRange(..), None) => "seek 2",
            (Seek::PrefixRange(..), Some(_)) => "seek 2 guided",
            (Seek::Bounded(..), _) => "seek 3",
        });
        if let Seek::Bounded(_, lo, hi) = &level.seek {
            for (side, edge) in [("lo", lo), ("hi", hi)] {
                let Some(edge) = edge else { continue };
                let kind = if edge.inclusive {
                    "inclusive"
                } else {
                    "exclusive"
                };
                self.add(&format!("edge {side} {kind}"));
            }
        }
        if level.closers > 0 {
            self.add("level with closers");
        }
        for (_, op) in &level.residuals {
            self.add(&format!("residual op {}", op_number(op)));
        }
    }

    pub fn print(&self) {
        for (what, count) in &self.counts {
            println!("{count:8} {what}");
        }
    }
}

fn slot_name(slot: &Slot) -> &'static str {
    match slot {
        Slot::Row(..) => "0 Row",
        Slot::Key(..) => "1 Key",
        Slot::Derived(_) => "2 Derived",
        Slot::Field(..) => "3 Field",
        Slot::Value(..) => "4 Value",
        Slot::Const(_) => "5 Const",
    }
}

fn op_number(op: &ResidualOp) -> u8 {
    match op {
        ResidualOp::Bytes(_) => 0,
        ResidualOp::Prefix(_) => 1,
        ResidualOp::RegisterField(..) => 2,
        ResidualOp::RegisterFactId(_) => 3,
        ResidualOp::Disc(_) => 4,
        ResidualOp::Fuzzy(_) => 5,
        ResidualOp::OwnField(_) => 6,
    }
}
