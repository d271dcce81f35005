//! A plan as data, and its bytes: with its nodes, and in the base's form, which
//! has none.

use std::slice::Iter;

use crate::file::{Anchor, Binding, MAX_PLAN, Path};
use crate::write::Writer;

#[derive(Debug, Clone, PartialEq, Eq)]
pub enum Part {
    Bytes(Vec<u8>),
    RegisterField(u16, Path),
    RegisterFactId(u16),
}

#[derive(Debug, Clone, PartialEq, Eq)]
pub struct Edge {
    pub inclusive: bool,
    pub bytes: Vec<u8>,
}

#[derive(Debug, Clone, PartialEq, Eq)]
pub enum Seek {
    Prefix(Vec<u8>),
    Composite(Vec<Part>),
    PrefixRange(Vec<Part>, Vec<u8>, Path),
    Bounded(Vec<Part>, Option<Edge>, Option<Edge>),
}

#[derive(Debug, Clone, PartialEq, Eq)]
pub struct Fuzzy {
    pub name: u16,
    pub distance: u8,
    pub anchor: Anchor,
}

#[derive(Debug, Clone, PartialEq, Eq)]
pub enum ResidualOp {
    Bytes(Vec<u8>),
    Prefix(Vec<u8>),
    RegisterField(u16, Path),
    RegisterFactId(u16),
    Disc(u32),
    Fuzzy(Fuzzy),
    /// Equal to the field of the same row at this path.
    OwnField(Path),
}

#[derive(Debug, Clone, PartialEq, Eq)]
pub struct Level {
    pub narrowings: usize,
    pub closers: usize,
    pub parts: usize,
    pub seek: Seek,
    pub guide: Option<(Path, Fuzzy)>,
    pub residuals: Vec<(Path, ResidualOp)>,
    pub folded: Vec<usize>,
    /// The node of each entry, in the order in which they stand in a plan: of the
    /// parts, the range, the guide, the residuals. The original bodies have none.
    pub nodes: Vec<u16>,
}

impl Level {
    /// How many of its entries have a node.
    pub fn entries(&self) -> usize {
        let ranges = usize::from(matches!(self.seek, Seek::PrefixRange(..)));
        let guides = usize::from(self.guide.is_some());
        self.parts + ranges + guides + self.residuals.len()
    }
}

#[derive(Debug, Clone, PartialEq, Eq, Default)]
pub struct Plan {
    pub levels: Vec<Level>,
    pub bindings: Vec<Binding>,
    pub constrained: Vec<u16>,
    pub selects: Vec<(u16, Path, u32)>,
    pub diagnostics: Vec<(u16, u8)>,
}

/// The plan's bytes, or refusal 15 where they do not fit.
pub fn plan_bytes(plan: &Plan, buffer: usize) -> Result<Vec<u8>, u8> {
    let bytes = write_plan(plan);
    fitting(bytes.len(), buffer)?;
    Ok(bytes)
}

/// The plan's bytes in the base's form, or refusal 15 where they do not fit with
/// two bytes more for each node.
pub fn base_bytes(plan: &Plan, buffer: usize) -> Result<Vec<u8>, u8> {
    let bytes = write_base(plan);
    let entries: usize = plan.levels.iter().map(Level::entries).sum();
    fitting(bytes.len() + 2 * entries, buffer)?;
    Ok(bytes)
}

fn fitting(length: usize, buffer: usize) -> Result<(), u8> {
    if length > MAX_PLAN || length > buffer {
        return Err(15);
    }
    Ok(())
}

/// The plan's bytes, however many there are.
pub fn write_plan(plan: &Plan) -> Vec<u8> {
    written(plan, |level| Nodes(Some(level.nodes.iter())))
}

/// The plan's bytes in the base's form, without its nodes.
pub fn write_base(plan: &Plan) -> Vec<u8> {
    written(plan, |_| Nodes(None))
}

/// What is left of a level's nodes; none at all in the base's form.
struct Nodes<'a>(Option<Iter<'a, u16>>);

impl Nodes<'_> {
    /// Behind an entry.
    fn write(&mut self, w: &mut Writer) {
        if let Some(nodes) = &mut self.0 {
            w.u16(*nodes.next().expect("each entry has a node"));
        }
    }

    fn end(self) {
        let left = self.0.map_or(0, |nodes| nodes.len());
        assert_eq!(left, 0, "each node has an entry");
    }
}

fn written(plan: &Plan, nodes: fn(&Level) -> Nodes) -> Vec<u8> {
    let mut w = Writer::default();
    w.count(plan.levels.len());
    for level in &plan.levels {
        w.level(level, nodes(level));
    }
    w.count(plan.bindings.len());
    for binding in &plan.bindings {
        w.binding(binding);
    }
    w.count(plan.constrained.len());
    for &name in &plan.constrained {
        w.u16(name);
    }
    w.count(plan.selects.len());
    for (address, path, disc) in &plan.selects {
        w.u16(*address);
        w.path(path);
        w.u32(*disc);
    }
    w.count(plan.diagnostics.len());
    for &(node, code) in &plan.diagnostics {
        w.u16(node);
        w.u8(code);
    }
    w.bytes
}

impl Writer {
    fn level(&mut self, level: &Level, mut nodes: Nodes) {
        self.count(level.narrowings);
        self.count(level.closers);
        self.count(level.parts);
        self.seek(level, &mut nodes);
        match &level.guide {
            None => self.u8(0),
            Some((path, fuzzy)) => {
                self.u8(1);
                self.path(path);
                self.fuzzy(fuzzy);
                nodes.write(self);
            }
        }
        self.count(level.residuals.len());
        for (path, op) in &level.residuals {
            self.path(path);
            self.residual(op);
            nodes.write(self);
        }
        self.count(level.folded.len());
        for &index in &level.folded {
            self.count(index);
        }
        nodes.end();
    }

    fn seek(&mut self, level: &Level, nodes: &mut Nodes) {
        match &level.seek {
            Seek::Prefix(bytes) => {
                self.u8(0);
                self.text(bytes);
                for _ in 0..level.parts {
                    nodes.write(self);
                }
            }
            Seek::Composite(parts) => {
                self.u8(1);
                self.parts(parts, nodes);
            }
            Seek::PrefixRange(parts, prefix, path) => {
                self.u8(2);
                self.parts(parts, nodes);
                self.text(prefix);
                self.path(path);
                nodes.write(self);
            }
            Seek::Bounded(parts, lo, hi) => {
                self.u8(3);
                self.parts(parts, nodes);
                self.edge(lo);
                self.edge(hi);
            }
        }
    }

    fn parts(&mut self, parts: &[Part], nodes: &mut Nodes) {
        for part in parts {
            match part {
                Part::Bytes(bytes) => {
                    self.u8(0);
                    self.text(bytes);
                }
                Part::RegisterField(address, path) => {
                    self.u8(1);
                    self.u16(*address);
                    self.path(path);
                }
                Part::RegisterFactId(address) => {
                    self.u8(2);
                    self.u16(*address);
                }
            }
            nodes.write(self);
        }
    }

    fn edge(&mut self, edge: &Option<Edge>) {
        match edge {
            None => self.u8(0),
            Some(edge) => {
                self.u8(if edge.inclusive { 2 } else { 1 });
                self.text(&edge.bytes);
            }
        }
    }

    fn fuzzy(&mut self, fuzzy: &Fuzzy) {
        self.u16(fuzzy.name);
        self.u8(fuzzy.distance);
        self.anchor(fuzzy.anchor);
    }

    fn residual(&mut self, op: &ResidualOp) {
        match op {
            ResidualOp::Bytes(bytes) => {
                self.u8(0);
                self.text(bytes);
            }
            ResidualOp::Prefix(bytes) => {
                self.u8(1);
                self.text(bytes);
            }
            ResidualOp::RegisterField(address, path) => {
                self.u8(2);
                self.u16(*address);
                self.path(path);
            }
            ResidualOp::RegisterFactId(address) => {
                self.u8(3);
                self.u16(*address);
            }
            ResidualOp::Disc(disc) => {
                self.u8(4);
                self.u32(*disc);
            }
            ResidualOp::Fuzzy(fuzzy) => {
                self.u8(5);
                self.fuzzy(fuzzy);
            }
            ResidualOp::OwnField(path) => {
                self.u8(6);
                self.path(path);
            }
        }
    }
}
