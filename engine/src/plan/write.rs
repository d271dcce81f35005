//! A plan's bytes.

use super::*;
use crate::rules::Writer;

impl Plan {
    /// The plan's bytes: of a plan that was opened, the very bytes. Counts and
    /// lengths are taken modulo their range.
    pub fn to_bytes(&self) -> Vec<u8> {
        let mut bytes = Writer::default();
        bytes.section(&self.levels, level);
        bytes.section(&self.bindings, |bytes, binding| {
            bytes.u16(binding.name);
            bytes.slot(&binding.slot);
        });
        bytes.section(&self.constrained, |bytes, name| bytes.u16(*name));
        bytes.section(&self.selects, |bytes, select| {
            bytes.u16(select.address);
            bytes.path(&select.path);
            bytes.u32(select.disc);
        });
        bytes.section(&self.diagnostics, |bytes, (node, diagnostic)| {
            bytes.u16(*node);
            bytes.u8(diagnostic.code());
        });
        bytes.0
    }
}

fn level(bytes: &mut Writer, level: &PlanLevel) {
    bytes.u16(level.narrowings);
    bytes.u16(level.closers);
    bytes.u16(level.parts);
    seek(bytes, &level.seek);
    match &level.guide {
        None => bytes.u8(0),
        Some(guide) => {
            bytes.u8(1);
            bytes.path(&guide.path);
            fuzzy(bytes, guide.fuzzy);
            bytes.u16(guide.node);
        }
    }
    bytes.section(&level.residuals, residual);
    bytes.section(&level.folded, |bytes, index| bytes.u16(*index));
}

fn seek(bytes: &mut Writer, seek: &Seek) {
    match seek {
        Seek::Prefix(prefix, nodes) => {
            bytes.u8(0);
            text(bytes, prefix);
            nodes.iter().for_each(|node| bytes.u16(*node));
        }
        Seek::Composite(parts) => {
            bytes.u8(1);
            parts.iter().for_each(|each| part(bytes, each));
        }
        Seek::PrefixRange(parts, range) => {
            bytes.u8(2);
            parts.iter().for_each(|each| part(bytes, each));
            text(bytes, &range.prefix);
            bytes.path(&range.path);
            bytes.u16(range.node);
        }
        Seek::Bounded(parts, lo, hi) => {
            bytes.u8(3);
            parts.iter().for_each(|each| part(bytes, each));
            edge(bytes, lo.as_ref());
            edge(bytes, hi.as_ref());
        }
    }
}

fn text(bytes: &mut Writer, text: &[u8]) {
    bytes.section(text, |bytes, byte| bytes.u8(*byte));
}

fn part(bytes: &mut Writer, part: &Part) {
    match &part.key {
        KeyPart::Bytes(part) => {
            bytes.u8(0);
            text(bytes, part);
        }
        KeyPart::RegisterField(address, path) => {
            bytes.u8(1);
            bytes.u16(*address);
            bytes.path(path);
        }
        KeyPart::RegisterFact(address) => {
            bytes.u8(2);
            bytes.u16(*address);
        }
    }
    bytes.u16(part.node);
}

fn edge(bytes: &mut Writer, edge: Option<&Edge>) {
    match edge {
        None => bytes.u8(0),
        Some(edge) => {
            bytes.u8(if edge.inclusive { 2 } else { 1 });
            text(bytes, &edge.bytes);
        }
    }
}

fn fuzzy(bytes: &mut Writer, fuzzy: Fuzzy) {
    bytes.u16(fuzzy.name);
    bytes.fuzzy(fuzzy.distance, fuzzy.anchor);
}

fn residual(bytes: &mut Writer, residual: &Residual) {
    bytes.path(&residual.path);
    match &residual.op {
        ResidualOp::Bytes(value) => {
            bytes.u8(0);
            text(bytes, value);
        }
        ResidualOp::Prefix(prefix) => {
            bytes.u8(1);
            text(bytes, prefix);
        }
        ResidualOp::RegisterField(address, path) => {
            bytes.u8(2);
            bytes.u16(*address);
            bytes.path(path);
        }
        ResidualOp::RegisterFact(address) => {
            bytes.u8(3);
            bytes.u16(*address);
        }
        ResidualOp::Disc(disc) => {
            bytes.u8(4);
            bytes.u32(*disc);
        }
        ResidualOp::Fuzzy(text) => {
            bytes.u8(5);
            fuzzy(bytes, *text);
        }
        ResidualOp::OwnField(other) => {
            bytes.u8(6);
            bytes.path(other);
        }
    }
    bytes.u16(residual.node);
}
