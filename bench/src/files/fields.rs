//! Levels whose fields are all given in one way, so that the walk of that one
//! pattern is nearly all of a compile.

use oracle::file::*;
use oracle::fixed::sketch::{Sketch, field};

const LEVELS: u16 = LIMITS[9] as u16;
pub const FIELDS: u16 = 8;
/// Registers of rows that no level looks for.
const ELSEWHERE: u16 = 100;

/// How every field of every level is given.
#[derive(Clone, Copy, Debug, PartialEq, Eq)]
pub enum Given {
    Int,
    Text,
    /// Each level has Vars of its own.
    NewVar,
    /// A Var that is new in the first level, and found by the others.
    FoundVar,
    /// A Var that stands for a field of a row.
    RegisterField,
    /// A Var that stands for a row, which the field refers to.
    Row,
    /// A Var that stands for a number.
    Constant,
    Prefix,
    Fuzzy,
    /// A field of a row that a Var stands for.
    Read,
    Wildcard,
    Missing,
}

impl Given {
    fn ty(self) -> Type {
        match self {
            Self::Text | Self::Prefix | Self::Fuzzy => Type::Str,
            Self::Row => Type::Fact(0),
            _ => Type::Int,
        }
    }

    /// What a name stands for before the first level; the name is that of field `at`.
    fn slot(self, s: &mut Sketch, at: u16, ty: u16) -> Option<Slot> {
        match self {
            Self::RegisterField => Some(Slot::Field(ELSEWHERE, field(at, &[]), ty)),
            Self::Row | Self::Read => Some(Slot::Row(ELSEWHERE + at, 0)),
            Self::Constant => Some(Slot::Const(s.int(i64::from(at)))),
            _ => None,
        }
    }

    fn node(self, s: &mut Sketch, level: u16, at: u16) -> Option<u16> {
        let text = format!("text{at}");
        Some(match self {
            Self::Int => s.int(i64::from(at)),
            Self::Text => s.text(&text),
            Self::NewVar => s.var(&name(level * FIELDS + at)),
            Self::FoundVar | Self::RegisterField | Self::Row | Self::Constant => s.var(&name(at)),
            Self::Prefix => s.prefix(&text),
            Self::Fuzzy => s.fuzzy(&text, 1, Anchor::Whole),
            Self::Read => {
                let row = s.var(&name(at));
                s.access(&name(at), row)
            }
            Self::Wildcard => s.wildcard(),
            Self::Missing => return None,
        })
    }

    /// The pattern of a level's key.
    fn record(self, s: &mut Sketch, level: u16) -> u16 {
        let nodes: Vec<(String, u16)> = (0..FIELDS)
            .filter_map(|at| Some((name(at), self.node(s, level, at)?)))
            .collect();
        let patterns: Vec<(&str, u16)> = nodes
            .iter()
            .map(|(name, node)| (name.as_str(), *node))
            .collect();
        s.record(&patterns)
    }
}

/// Fields and variables share their names: with names of their own, the new Vars would be
/// more than a file can name.
fn name(number: u16) -> String {
    format!("name{number}")
}

/// Accepted: 64 levels of 8 fields, each given so. A level has a type of its own; the
/// pattern is the same for all of them, so that there is little to read, but for new Vars,
/// which can be new in one level only.
pub fn levels(given: Given) -> RuleFile {
    let mut s = Sketch::default();
    let ty = s.ty(given.ty());
    let names: Vec<String> = (0..FIELDS).map(name).collect();
    let fields: Vec<(&str, u16)> = names.iter().map(|name| (name.as_str(), ty)).collect();
    for _ in 0..LEVELS {
        let key = s.record_ty(&fields);
        s.predicate(key);
    }
    for at in 0..FIELDS {
        if let Some(slot) = given.slot(&mut s, at, ty) {
            s.bind(&name(at), slot);
        }
    }
    let mut node = given.record(&mut s, 0);
    for level in 0..LEVELS {
        if level > 0 && given == Given::NewVar {
            node = given.record(&mut s, level);
        }
        s.level(level, node, level);
    }
    s.file
}

#[cfg(test)]
mod tests {
    use super::*;
    use oracle::plan::{Level, Part, Plan, ResidualOp, Seek};
    use oracle::reread::form;
    use oracle::write::write;
    use sinalvento::Buffers;

    const ALL: usize = FIELDS as usize;

    fn plan(given: Given) -> Plan {
        let (file, mut buffers) = (write(&levels(given)), Buffers::new());
        let plan = sinalvento::compile(&file, &mut buffers).expect("it is accepted");
        form(plan).expect("a compiled plan has its form")
    }

    /// A level's parts that are of this kind, where none of them are bytes.
    fn parts_that(level: &Level, is: fn(&Part) -> bool) -> usize {
        match &level.seek {
            Seek::Composite(parts) => parts.iter().filter(|part| is(part)).count(),
            _ => 0,
        }
    }

    fn residuals_that(level: &Level, is: fn(&ResidualOp) -> bool) -> usize {
        level.residuals.iter().filter(|(_, op)| is(op)).count()
    }

    /// Whether a level has what fields that are given so come to.
    fn comes_to(level: &Level, given: Given) -> bool {
        match given {
            Given::Int | Given::Constant => {
                matches!(&level.seek, Seek::Prefix(bytes) if bytes.len() == 9 * ALL)
                    && level.parts == ALL
            }
            Given::Text => {
                matches!(&level.seek, Seek::Prefix(bytes) if bytes.len() == 7 * ALL)
                    && level.parts == ALL
            }
            Given::RegisterField | Given::Read | Given::FoundVar => {
                parts_that(level, |part| matches!(part, Part::RegisterField(..))) == ALL
            }
            Given::Row => parts_that(level, |part| matches!(part, Part::RegisterFactId(_))) == ALL,
            Given::Prefix => {
                matches!(level.seek, Seek::PrefixRange(..))
                    && residuals_that(level, |op| matches!(op, ResidualOp::Prefix(_))) == ALL - 1
            }
            Given::Fuzzy => {
                level.guide.is_some()
                    && residuals_that(level, |op| matches!(op, ResidualOp::Fuzzy(_))) == ALL - 1
            }
            Given::NewVar | Given::Wildcard | Given::Missing => level.entries() == 0,
        }
    }

    #[test]
    fn levels_are_of_the_kind_that_they_are_called() {
        use Given::*;
        for given in [
            Int,
            Text,
            NewVar,
            FoundVar,
            RegisterField,
            Row,
            Constant,
            Prefix,
            Fuzzy,
            Read,
            Wildcard,
            Missing,
        ] {
            let plan = plan(given);
            let first = usize::from(given == FoundVar);
            assert_eq!(plan.levels.len(), LIMITS[9], "{given:?}");
            let mut rest = plan.levels.iter().skip(first);
            assert!(rest.all(|level| comes_to(level, given)), "{given:?}");
            let made = match given {
                NewVar => ALL * LIMITS[9],
                FoundVar => ALL,
                _ => 0,
            };
            assert_eq!(plan.bindings.len(), made, "{given:?}");
            assert!(plan.diagnostics.is_empty(), "{given:?}");
        }
    }

    #[test]
    fn levels_give_eight_fields_or_none() {
        for (given, count) in [(Given::Wildcard, ALL), (Given::Missing, 0)] {
            let file = levels(given);
            for level in &file.levels {
                let Node::Record(fields) = &file.nodes[level.node as usize] else {
                    panic!("a record");
                };
                assert_eq!(fields.len(), count);
            }
        }
    }
}
