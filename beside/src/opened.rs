//! A plan as the crate's callers have it, in the oracle's data.

use oracle::file as data;
use oracle::plan as made;
use sinalvento::plan::{
    Edge, Fuzzy, KeyPart, Part, Plan, PlanFault, PlanLevel, Range, ResidualOp, Seek,
};
use sinalvento::rules::{Anchor, Binding, Path, Slot};

/// What `Plan::open` gives: the data and the bytes that these are written to, or
/// the refusal's number; 0 where `PlanFault` tells another one.
pub fn opened(bytes: &[u8]) -> Result<(made::Plan, Vec<u8>), u8> {
    let plan = Plan::open(bytes).map_err(|refusal| refusal.number());
    let told = PlanFault::of(bytes).map(|fault| fault.refusal().number());
    if told != plan.as_ref().err().copied() {
        return Err(0);
    }
    plan.map(|plan| (plan_data(&plan), plan.to_bytes()))
}

fn plan_data(plan: &Plan) -> made::Plan {
    let select = |select: &sinalvento::plan::Select| {
        let path = path(&select.path);
        (select.address, path, select.disc)
    };
    made::Plan {
        levels: plan.levels.iter().map(level).collect(),
        bindings: plan.bindings.iter().map(binding).collect(),
        constrained: plan.constrained.clone(),
        selects: plan.selects.iter().map(select).collect(),
        diagnostics: (plan.diagnostics.iter())
            .map(|(node, diagnostic)| (*node, diagnostic.code()))
            .collect(),
    }
}

fn path(path: &Path) -> data::Path {
    data::Path {
        field: path.field,
        steps: path.steps.clone(),
    }
}

fn fuzzy(fuzzy: Fuzzy) -> made::Fuzzy {
    made::Fuzzy {
        name: fuzzy.name,
        distance: fuzzy.distance,
        anchor: match fuzzy.anchor {
            Anchor::Prefix => data::Anchor::Prefix,
            Anchor::Whole => data::Anchor::Whole,
        },
    }
}

fn level(level: &PlanLevel) -> made::Level {
    let guide = level.guide.as_ref();
    let residuals = level.residuals.iter();
    made::Level {
        narrowings: level.narrowings.into(),
        closers: level.closers.into(),
        parts: level.parts.into(),
        seek: seek(&level.seek),
        guide: guide.map(|guide| (path(&guide.path), fuzzy(guide.fuzzy))),
        residuals: residuals
            .map(|residual| (path(&residual.path), op(&residual.op)))
            .collect(),
        folded: level.folded.iter().map(|&index| index.into()).collect(),
        nodes: nodes(level),
    }
}

/// In the order of a plan's bytes: of the parts, the range, the guide, the residuals.
fn nodes(level: &PlanLevel) -> Vec<u16> {
    let mut found: Vec<u16> = match &level.seek {
        Seek::Prefix(_, nodes) => nodes.clone(),
        Seek::Composite(parts) | Seek::PrefixRange(parts, _) | Seek::Bounded(parts, ..) => {
            parts.iter().map(|part| part.node).collect()
        }
    };
    if let Seek::PrefixRange(_, range) = &level.seek {
        found.push(range.node);
    }
    found.extend(level.guide.iter().map(|guide| guide.node));
    found.extend(level.residuals.iter().map(|residual| residual.node));
    found
}

fn seek(seek: &Seek) -> made::Seek {
    let parts = |parts: &[Part]| parts.iter().map(part).collect();
    match seek {
        Seek::Prefix(bytes, _) => made::Seek::Prefix(bytes.clone()),
        Seek::Composite(all) => made::Seek::Composite(parts(all)),
        Seek::PrefixRange(
            all,
            Range {
                prefix,
                path: place,
                ..
            },
        ) => made::Seek::PrefixRange(parts(all), prefix.clone(), path(place)),
        Seek::Bounded(all, lo, hi) => made::Seek::Bounded(parts(all), edge(lo), edge(hi)),
    }
}

fn part(part: &Part) -> made::Part {
    match &part.key {
        KeyPart::Bytes(bytes) => made::Part::Bytes(bytes.clone()),
        KeyPart::RegisterField(address, place) => made::Part::RegisterField(*address, path(place)),
        KeyPart::RegisterFact(address) => made::Part::RegisterFactId(*address),
    }
}

fn edge(edge: &Option<Edge>) -> Option<made::Edge> {
    edge.as_ref().map(|edge| made::Edge {
        inclusive: edge.inclusive,
        bytes: edge.bytes.clone(),
    })
}

fn op(op: &ResidualOp) -> made::ResidualOp {
    match op {
        ResidualOp::Bytes(bytes) => made::ResidualOp::Bytes(bytes.clone()),
        ResidualOp::Prefix(bytes) => made::ResidualOp::Prefix(bytes.clone()),
        ResidualOp::RegisterField(address, place) => {
            made::ResidualOp::RegisterField(*address, path(place))
        }
        ResidualOp::RegisterFact(address) => made::ResidualOp::RegisterFactId(*address),
        ResidualOp::Disc(disc) => made::ResidualOp::Disc(*disc),
        ResidualOp::Fuzzy(text) => made::ResidualOp::Fuzzy(fuzzy(*text)),
        ResidualOp::OwnField(other) => made::ResidualOp::OwnField(path(other)),
    }
}

fn binding(binding: &Binding) -> data::Binding {
    let slot = match &binding.slot {
        Slot::Row(address, predicate) => data::Slot::Row(*address, predicate.unwrap_or(data::NONE)),
        Slot::Key(address, ty) => data::Slot::Key(*address, *ty),
        Slot::Derived(address) => data::Slot::Derived(*address),
        Slot::Field(address, place, ty) => data::Slot::Field(*address, path(place), *ty),
        Slot::Value(address, ty) => data::Slot::Value(*address, *ty),
        Slot::Const(node) => data::Slot::Const(*node),
    };
    data::Binding {
        name: binding.name,
        slot,
    }
}
