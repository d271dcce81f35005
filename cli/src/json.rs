//! A plan as JSON: numbers as they stand in it, bytes as hex.

use std::fmt;

use sinalvento::plan::{Edge, Fuzzy, KeyPart, Part, Plan, PlanLevel, Residual, ResidualOp, Seek};
use sinalvento::rules::{Anchor, Binding, Path, RuleFile, Slot};

enum Json {
    Null,
    Bool(bool),
    Number(u64),
    Text(String),
    List(Vec<Json>),
    Object(Vec<(&'static str, Json)>),
}

use Json::*;

/// The plan in one line. Without its rule file there are no names, and no
/// level's predicate and register.
pub fn plan(plan: &Plan, rules: Option<&RuleFile>) -> String {
    let levels = plan.levels.iter().enumerate();
    let names = rules.iter().flat_map(|rules| &rules.names);
    let names = names.map(|name| Text(String::from_utf8_lossy(name).into_owned()));
    let object = Object(vec![
        ("names", List(names.collect())),
        (
            "levels",
            List(levels.map(|(at, each)| level(at, each, rules)).collect()),
        ),
        ("bindings", list(&plan.bindings, binding)),
        ("constrained", list(&plan.constrained, |name| number(*name))),
        (
            "selects",
            list(&plan.selects, |select| {
                Object(vec![
                    ("register", number(select.address)),
                    ("path", path(&select.path)),
                    ("disc", number(select.disc)),
                ])
            }),
        ),
        (
            "diagnostics",
            list(&plan.diagnostics, |(node, diagnostic)| {
                Object(vec![
                    ("node", number(*node)),
                    ("code", number(diagnostic.code())),
                    ("name", text(diagnostic.name())),
                    ("advice", text(diagnostic.advice())),
                ])
            }),
        ),
    ]);
    object.to_string()
}

fn number(value: impl Into<u64>) -> Json {
    Number(value.into())
}

fn text(value: &str) -> Json {
    Text(String::from(value))
}

fn list<T>(values: &[T], each: impl Fn(&T) -> Json) -> Json {
    List(values.iter().map(each).collect())
}

fn hex(bytes: &[u8]) -> Json {
    Text(bytes.iter().map(|byte| format!("{byte:02x}")).collect())
}

fn path(path: &Path) -> Json {
    Object(vec![
        ("field", number(path.field)),
        ("steps", list(&path.steps, |step| number(*step))),
    ])
}

fn level(at: usize, level: &PlanLevel, rules: Option<&RuleFile>) -> Json {
    let of_file = rules.and_then(|rules| rules.levels.get(at));
    let of_file = |value: fn(&sinalvento::rules::Level) -> u16| {
        of_file.map_or(Null, |level| number(value(level)))
    };
    let guide = level.guide.as_ref().map_or(Null, |guide| {
        let mut members = vec![("path", path(&guide.path))];
        members.extend(fuzzy(guide.fuzzy));
        members.push(("node", number(guide.node)));
        Object(members)
    });
    let mut members = vec![
        ("predicate", of_file(|level| level.predicate)),
        ("register", of_file(|level| level.address)),
        ("narrowings", number(level.narrowings)),
        ("closers", number(level.closers)),
        ("part_count", number(level.parts)),
        ("seek", text(level.seek.name())),
    ];
    members.extend(seek(&level.seek));
    members.extend([
        ("guide", guide),
        ("residuals", list(&level.residuals, residual)),
        ("folded", list(&level.folded, |index| number(*index))),
    ]);
    Object(members)
}

fn seek(seek: &Seek) -> Vec<(&'static str, Json)> {
    match seek {
        Seek::Prefix(bytes, nodes) => vec![
            ("bytes", hex(bytes)),
            ("nodes", list(nodes, |node| number(*node))),
        ],
        Seek::Composite(parts) => vec![("parts", list(parts, part))],
        Seek::PrefixRange(parts, range) => {
            let range = vec![
                ("path", path(&range.path)),
                ("prefix", hex(&range.prefix)),
                ("node", number(range.node)),
            ];
            vec![("parts", list(parts, part)), ("range", Object(range))]
        }
        Seek::Bounded(parts, lo, hi) => vec![
            ("parts", list(parts, part)),
            ("lo", edge(lo.as_ref())),
            ("hi", edge(hi.as_ref())),
        ],
    }
}

fn part(part: &Part) -> Json {
    let mut members = match &part.key {
        KeyPart::Bytes(bytes) => vec![("bytes", hex(bytes))],
        KeyPart::RegisterField(address, place) => {
            vec![("register", number(*address)), ("path", path(place))]
        }
        KeyPart::RegisterFact(address) => vec![("fact", number(*address))],
    };
    members.push(("node", number(part.node)));
    Object(members)
}

fn edge(edge: Option<&Edge>) -> Json {
    edge.map_or(Null, |edge| {
        Object(vec![
            ("inclusive", Bool(edge.inclusive)),
            ("bytes", hex(&edge.bytes)),
        ])
    })
}

fn fuzzy(fuzzy: Fuzzy) -> [(&'static str, Json); 3] {
    let anchor = match fuzzy.anchor {
        Anchor::Prefix => "prefix",
        Anchor::Whole => "whole",
    };
    [
        ("text", number(fuzzy.name)),
        ("distance", number(fuzzy.distance)),
        ("anchor", text(anchor)),
    ]
}

fn residual(residual: &Residual) -> Json {
    let mut members = vec![("path", path(&residual.path))];
    match &residual.op {
        ResidualOp::Bytes(bytes) => members.push(("bytes", hex(bytes))),
        ResidualOp::Prefix(prefix) => members.push(("prefix", hex(prefix))),
        ResidualOp::RegisterField(address, place) => {
            members.extend([("register", number(*address)), ("at", path(place))]);
        }
        ResidualOp::RegisterFact(address) => members.push(("fact", number(*address))),
        ResidualOp::Disc(disc) => members.push(("disc", number(*disc))),
        ResidualOp::Fuzzy(near) => members.extend(fuzzy(*near)),
        ResidualOp::OwnField(other) => members.push(("equals", path(other))),
    }
    members.push(("node", number(residual.node)));
    Object(members)
}

fn binding(binding: &Binding) -> Json {
    let mut members = vec![("name", number(binding.name))];
    match &binding.slot {
        Slot::Row(address, predicate) => members.extend([
            ("row", number(*address)),
            ("predicate", predicate.map_or(Null, number)),
        ]),
        Slot::Key(address, ty) => {
            members.extend([("key", number(*address)), ("type", number(*ty))])
        }
        Slot::Derived(address) => members.push(("derived", number(*address))),
        Slot::Field(address, place, ty) => members.extend([
            ("register", number(*address)),
            ("path", path(place)),
            ("type", number(*ty)),
        ]),
        Slot::Value(address, ty) => {
            members.extend([("value", number(*address)), ("type", number(*ty))]);
        }
        Slot::Const(node) => members.push(("const", number(*node))),
    }
    Object(members)
}

impl fmt::Display for Json {
    fn fmt(&self, f: &mut fmt::Formatter<'_>) -> fmt::Result {
        match self {
            Null => f.write_str("null"),
            Bool(value) => write!(f, "{value}"),
            Number(value) => write!(f, "{value}"),
            Text(text) => quoted(f, text),
            List(items) => {
                f.write_str("[")?;
                for (at, item) in items.iter().enumerate() {
                    f.write_str(if at > 0 { "," } else { "" })?;
                    item.fmt(f)?;
                }
                f.write_str("]")
            }
            Object(members) => {
                f.write_str("{")?;
                for (at, (name, value)) in members.iter().enumerate() {
                    f.write_str(if at > 0 { "," } else { "" })?;
                    write!(f, "\"{name}\":{value}")?;
                }
                f.write_str("}")
            }
        }
    }
}

fn quoted(f: &mut fmt::Formatter<'_>, text: &str) -> fmt::Result {
    f.write_str("\"")?;
    for c in text.chars() {
        match c {
            '"' | '\\' => write!(f, "\\{c}")?,
            ' '..='~' => write!(f, "{c}")?,
            _ => write!(f, "\\u{:04x}", u32::from(c))?,
        }
    }
    f.write_str("\"")
}
