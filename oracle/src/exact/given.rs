//! What a level is tried with, beside the key: the contents of registers, and a rule
//! for fuzzy texts.

use std::collections::BTreeMap;

use crate::file::{Anchor, Path};
use crate::plan::Fuzzy;

use super::value::Value;

/// A fixed answer to each fuzzy text.
#[derive(Debug, Clone, Copy, PartialEq, Eq)]
pub enum Rule {
    Always,
    Never,
    /// Half of all, by a number.
    Half(u64),
}

impl Rule {
    pub fn accepts(self, fuzzy: &Fuzzy, text: &[u8]) -> bool {
        match self {
            Rule::Always => true,
            Rule::Never => false,
            Rule::Half(number) => {
                let anchor = u8::from(fuzzy.anchor == Anchor::Whole);
                let [low, high] = fuzzy.name.to_le_bytes();
                let all = [low, high, fuzzy.distance, anchor];
                let all = all.iter().chain(text);
                let mixed = all.fold(number, |sum, byte| {
                    (sum ^ u64::from(*byte)).wrapping_mul(0x0100_0000_01B3)
                });
                mixed >> 40 & 1 == 0
            }
        }
    }
}

#[derive(Debug, Clone, PartialEq, Eq)]
pub struct Given {
    /// What a row's register holds at a path.
    pub fields: BTreeMap<(u16, Path), Value>,
    /// The number of the fact in a register.
    pub facts: BTreeMap<u16, u64>,
    pub rule: Rule,
}

impl Given {
    pub fn new(rule: Rule) -> Self {
        Self {
            fields: BTreeMap::new(),
            facts: BTreeMap::new(),
            rule,
        }
    }

    /// The value at a path of a register's row; every path has one.
    pub fn field(&self, address: u16, path: &Path) -> Value {
        let found = self.fields.get(&(address, path.clone()));
        found.cloned().unwrap_or(Value::Int(i64::from(address)))
    }

    pub fn fact(&self, address: u16) -> u64 {
        let found = self.facts.get(&address);
        found.copied().unwrap_or(u64::from(address))
    }
}
