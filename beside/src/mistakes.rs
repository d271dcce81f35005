//! Mistakes planted into a level before it is asked what it lets through, so that the
//! run over keys is seen to fail.

use oracle::HAS_BODIES;
use oracle::exact::given::Given;
use oracle::exact::passes::passes;
use oracle::exact::value::Value;
use oracle::plan::{Edge, Level, Part, ResidualOp, Seek};

use crate::exact::tests::run;
use crate::run::tests::bodies;

type Mistake = (&'static str, fn(&mut Level));

const MISTAKES: [Mistake; 12] = [
    ("no closer", |level| {
        if let Some(parts) = parts(level) {
            parts.retain(|part| *part != Part::Bytes(vec![0]));
        }
    }),
    ("the first two parts exchanged", |level| {
        if let Some([one, other, ..]) = parts(level).map(Vec::as_mut_slice) {
            std::mem::swap(one, other);
        }
    }),
    ("a Prefix without its last byte", |level| {
        if let Seek::Prefix(front) = &mut level.seek {
            front.pop();
        }
    }),
    ("a fact's number for a register's field", |level| {
        for part in parts(level).into_iter().flatten() {
            if let Part::RegisterField(address, _) = part {
                *part = Part::RegisterFactId(*address);
            }
        }
    }),
    ("no range", |level| {
        if let Seek::PrefixRange(parts, ..) = &level.seek {
            level.seek = Seek::Composite(parts.clone());
        }
    }),
    ("edges inclusive and not, exchanged", |level| {
        for edge in edges(level).into_iter().flatten() {
            edge.inclusive = !edge.inclusive;
        }
    }),
    ("lo and hi exchanged", |level| {
        if let [lo, hi] = edges(level).as_mut_slice() {
            std::mem::swap(*lo, *hi);
        }
    }),
    ("no upper edge", |level| {
        if let [_, hi] = edges(level).as_mut_slice() {
            **hi = None;
        }
    }),
    ("no guide", |level| level.guide = None),
    ("the first residual missing", |level| {
        level.residuals = level.residuals.iter().skip(1).cloned().collect();
    }),
    ("a residual's prefix as the whole text", |level| {
        for (_, op) in &mut level.residuals {
            if let ResidualOp::Prefix(bytes) = op {
                *op = ResidualOp::Bytes([bytes.as_slice(), &[0]].concat());
            }
        }
    }),
    ("no residual of a disc", |level| {
        let is_disc = |op: &ResidualOp| matches!(op, ResidualOp::Disc(_));
        level.residuals.retain(|(_, op)| !is_disc(op));
    }),
];

fn parts(level: &mut Level) -> Option<&mut Vec<Part>> {
    match &mut level.seek {
        Seek::Prefix(_) => None,
        Seek::Composite(parts) | Seek::PrefixRange(parts, ..) | Seek::Bounded(parts, ..) => {
            Some(parts)
        }
    }
}

fn edges(level: &mut Level) -> Vec<&mut Option<Edge>> {
    match &mut level.seek {
        Seek::Bounded(_, lo, hi) => vec![lo, hi],
        _ => vec![],
    }
}

#[test]
fn every_mistake_is_found() {
    for (mistake, edit) in MISTAKES {
        let (outcome, shown) = run(sinalvento::call, move |level, key, given| {
            let mut level = level.clone();
            edit(&mut level);
            passes(&level, key, given)
        });
        println!("{} pairs: {mistake}", outcome.different);
        assert!(outcome.different > 10, "{mistake}: {}", outcome.different);
        assert!(!outcome.is_good());
        let told = &shown[0];
        for part in ["file ", "key: ", "stored as ", "passes: "] {
            assert!(told.contains(part), "{mistake}: {part} in {told}");
        }
    }
}

/// An edge is to be compared with one value, not with all that follows the parts. Only
/// levels without parts are looked at.
fn beyond_the_value(level: &Level, key: &Value, given: &Given) -> bool {
    let Seek::Bounded(parts, lo, hi) = &level.seek else {
        return passes(level, key, given);
    };
    if !parts.is_empty() {
        return passes(level, key, given);
    }
    let stored = key.stored();
    let at = |edge: &Edge| edge.inclusive && stored == edge.bytes;
    let mut rest = level.clone();
    rest.seek = Seek::Prefix(vec![]);
    (lo.iter()).all(|edge| stored > edge.bytes || at(edge))
        && (hi.iter()).all(|edge| stored < edge.bytes || at(edge))
        && passes(&rest, key, given)
}

#[test]
fn an_edge_compared_with_all_that_follows_is_found() {
    let (outcome, _) = run(sinalvento::call, beyond_the_value);
    assert!(outcome.different > 10, "{}", outcome.different);
}

/// An equality whose other path the key lacks fails; here it is let through.
fn equal_to_nothing(level: &Level, key: &Value, given: &Given) -> bool {
    let mut level = level.clone();
    level.residuals.retain(|(_, op)| match op {
        ResidualOp::OwnField(other) => key.at(other).is_some(),
        _ => true,
    });
    passes(&level, key, given)
}

#[test]
fn an_equality_with_nothing_is_found() {
    if !HAS_BODIES {
        return;
    }
    let (outcome, _) = run(bodies, equal_to_nothing);
    assert!(outcome.different > 10, "{}", outcome.different);
}
