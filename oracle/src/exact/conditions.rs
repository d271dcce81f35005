//! The files of which request [10] speaks.

use crate::file::*;
use crate::plan::Plan;

use super::slots::{Tables, first, lookup};

/// Whether the request speaks of an accepted file with this plan; `before` has the
/// bindings with which each level begins.
pub fn met(tables: &Tables, plan: &Plan, before: &[Vec<Binding>]) -> bool {
    let mut constraints = tables.file.constraints.iter();
    let mut levels = tables.file.levels.iter().zip(before);
    plan.diagnostics.is_empty()
        && plan.selects.is_empty()
        && constraints.all(|it| is_text_pattern(tables.node(it.node)))
        && levels.all(|(level, bindings)| {
            is_plain_level(tables, level, bindings) && fits_level(tables, level, bindings)
        })
}

fn is_text_pattern(node: &Node) -> bool {
    matches!(node, Node::Prefix(_) | Node::Fuzzy(..))
}

/// A record, a wildcard or a name; a new one where the key is a record.
fn is_plain_level(tables: &Tables, level: &Level, bindings: &[Binding]) -> bool {
    let record_key = matches!(tables.ty(tables.key_type(level)), Type::Record(_));
    match tables.node(level.node) {
        Node::Record(_) | Node::Wildcard => true,
        Node::Var(name) => !record_key || lookup(*name, bindings).is_none(),
        _ => false,
    }
}

/// No constant is brought to a type that gives it no bytes. Refusal 19 of request [7]
/// turns such files away; a compile without it passes over the constant.
fn fits_level(tables: &Tables, level: &Level, bindings: &[Binding]) -> bool {
    let ty = tables.key_type(level);
    match (tables.node(level.node), tables.ty(ty)) {
        (Node::Record(entries), Type::Record(fields)) => {
            fields_fit(tables, entries, fields, bindings)
        }
        (_, Type::Record(_)) => true,
        _ => fits(tables, level.node, ty, bindings),
    }
}

fn fits(tables: &Tables, node: u16, ty: u16, bindings: &[Binding]) -> bool {
    match (tables.node(node), tables.ty(ty)) {
        (Node::Record(entries), Type::Union(alts)) => {
            let [(name, payload)] = entries.as_slice() else {
                return true;
            };
            let known = alts.iter().find(|(of, _, _)| of == name);
            known.is_none_or(|(_, _, ty)| fits(tables, *payload, *ty, bindings))
        }
        (Node::Record(entries), Type::Record(fields)) => {
            fields_fit(tables, entries, fields, bindings)
        }
        _ => match tables.resolve(node, bindings) {
            Some(Slot::Const(constant)) => brought(tables, constant, ty, bindings),
            _ => true,
        },
    }
}

/// A constant through a slot: at a union it gives bytes or is refused.
fn brought(tables: &Tables, node: u16, ty: u16, bindings: &[Binding]) -> bool {
    match (tables.node(node), tables.ty(ty)) {
        (Node::Record(entries), Type::Record(fields)) => {
            fields_fit(tables, entries, fields, bindings)
        }
        _ => tables.constant(node, ty, bindings).is_some(),
    }
}

fn fields_fit(
    tables: &Tables,
    entries: &[(u16, u16)],
    fields: &[(u16, u16)],
    bindings: &[Binding],
) -> bool {
    fields.iter().all(|(name, ty)| {
        let entry = first(entries, *name);
        entry.is_none_or(|entry| fits(tables, entry, *ty, bindings))
    })
}

#[cfg(test)]
mod tests {
    use super::*;
    use crate::fixed::sketch::{Sketch, field, one, two};

    /// Whether a file with one level meets the conditions, its plan being good.
    fn plain(file: &RuleFile) -> bool {
        let before = vec![file.bindings.clone()];
        met(&Tables::new(file), &Plan::default(), &before)
    }

    #[test]
    fn diagnostics_and_selects() {
        let file = one(Type::Int, Sketch::wildcard);
        let before = vec![vec![]];
        let tables = Tables::new(&file);
        assert!(met(&tables, &Plan::default(), &before));
        let diagnostic = Plan {
            diagnostics: vec![(0, 1)],
            ..Plan::default()
        };
        assert!(!met(&tables, &diagnostic, &before));
        let select = Plan {
            selects: vec![(0, field(0, &[]), 1)],
            ..Plan::default()
        };
        assert!(!met(&tables, &select, &before));
    }

    #[test]
    fn own_nodes() {
        assert!(plain(&one(Type::Int, |s| s.var("v"))));
        assert!(!plain(&one(Type::Int, |s| s.int(1))));
        let bound = |s: &mut Sketch| {
            s.bind("v", Slot::Field(3, field(0, &[]), 0));
            s.var("v")
        };
        assert!(plain(&one(Type::Int, bound)));
        assert!(!plain(&one(Type::Record(vec![]), bound)));
        assert!(plain(&one(Type::Record(vec![]), |s| s.var("v"))));
    }

    #[test]
    fn constraints() {
        let constrained = |node: fn(&mut Sketch) -> u16| {
            one(Type::Str, |s| {
                let node = node(s);
                s.constrain("v", node);
                s.var("v")
            })
        };
        assert!(plain(&constrained(|s| s.prefix("a"))));
        assert!(plain(&constrained(|s| s.fuzzy("a", 1, Anchor::Whole))));
        assert!(!plain(&constrained(|s| s.text("a"))));
    }

    #[test]
    fn literals_of_another_kind() {
        let with = |a: fn(&mut Sketch) -> u16| two(Type::Int, Type::Int, |s| (a(s), s.int(1)));
        assert!(plain(&with(|s| s.int(2))));
        assert!(!plain(&with(|s| s.text("2"))));
        assert!(!plain(&with(|s| s.record(&[]))));
        assert!(plain(&with(|s| {
            let inner = s.wildcard();
            s.record(&[("a", inner)])
        })));
        assert!(!plain(&with(|s| {
            let text = s.text("2");
            s.bind("v", Slot::Const(text));
            s.var("v")
        })));
    }
}
