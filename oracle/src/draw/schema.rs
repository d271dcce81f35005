//! Names, types and predicates.

use crate::file::{MAX_DEPTH, NONE, Predicate, RuleFile, Type, depths};
use crate::rng::Rng;

use super::names;

/// How large a file is drawn.
#[derive(Clone, Copy)]
pub struct Size {
    pub names: usize,
    pub types: usize,
    pub predicates: usize,
    pub nodes: usize,
    pub entries: usize,
    pub levels: usize,
}

impl Size {
    pub fn draw(rng: &mut Rng) -> Self {
        match rng.weighted(&[84, 13, 3]) {
            0 => Self::new(rng.within(3, 8), rng.within(1, 7), 3, 22, 3, 3),
            1 => Self::new(rng.within(5, 14), rng.within(3, 14), 5, 60, 6, 6),
            _ => Self::new(rng.within(8, 40), rng.within(6, 30), 8, 250, 14, 16),
        }
    }

    fn new(
        names: usize,
        types: usize,
        predicates: usize,
        nodes: usize,
        entries: usize,
        levels: usize,
    ) -> Self {
        Self {
            names,
            types,
            predicates,
            nodes,
            entries,
            levels,
        }
    }
}

pub fn draw(rng: &mut Rng, size: Size) -> RuleFile {
    let predicates = rng.within(1, size.predicates);
    let mut file = RuleFile {
        names: (0..size.names).map(|_| names::name(rng)).collect(),
        ..RuleFile::default()
    };
    for _ in 0..size.types {
        let drawn = ty(rng, &file, predicates);
        file.types.push(drawn);
    }
    for _ in 0..predicates {
        let drawn = predicate(rng, &file.types);
        file.predicates.push(drawn);
    }
    file
}

fn ty(rng: &mut Rng, file: &RuleFile, predicates: usize) -> Type {
    let leaves = if file.types.len() < 2 { 60 } else { 12 };
    let composite = if file.types.is_empty() { 4 } else { 35 };
    let drawn = match rng.weighted(&[leaves, leaves, leaves / 2, 12, composite, composite]) {
        0 => Type::Int,
        1 => Type::Str,
        2 => Type::Bytes,
        3 => Type::Fact(rng.below(predicates) as u16),
        4 => record(rng, file),
        _ => union(rng, file),
    };
    let mut all = file.types.clone();
    all.push(drawn.clone());
    match depths(&all).last() {
        Some(&depth) if depth > MAX_DEPTH => Type::Str,
        _ => drawn,
    }
}

/// A lower type; the later ones are the deeper ones, so they are drawn more.
fn lower(rng: &mut Rng, file: &RuleFile) -> u16 {
    let count = file.types.len();
    if rng.chance(50) {
        rng.within(count - count.min(3), count - 1) as u16
    } else {
        rng.below(count) as u16
    }
}

fn some_names(rng: &mut Rng, file: &RuleFile, most: usize) -> Vec<u16> {
    let mut names: Vec<u16> = (0..file.names.len() as u16).collect();
    rng.shuffle(&mut names);
    let count = if file.types.is_empty() {
        0
    } else {
        rng.weighted(&[6, 30, 34, 20, 10])
    };
    names.truncate(count.min(most));
    names
}

fn record(rng: &mut Rng, file: &RuleFile) -> Type {
    let names = some_names(rng, file, 4);
    Type::Record(
        names
            .into_iter()
            .map(|name| (name, lower(rng, file)))
            .collect(),
    )
}

fn union(rng: &mut Rng, file: &RuleFile) -> Type {
    let names = some_names(rng, file, 3);
    let mut alts: Vec<(u16, u32, u16)> = vec![];
    for name in names {
        let mut disc = disc(rng);
        while alts.iter().any(|(_, taken, _)| *taken == disc) {
            disc = disc.wrapping_add(1);
        }
        alts.push((name, disc, lower(rng, file)));
    }
    Type::Union(alts)
}

fn disc(rng: &mut Rng) -> u32 {
    match rng.weighted(&[70, 10, 10, 10]) {
        0 => rng.below(4) as u32,
        1 => u32::MAX,
        2 => 0x0102_0304,
        _ => rng.bits() as u32,
    }
}

fn predicate(rng: &mut Rng, types: &[Type]) -> Predicate {
    let composite: Vec<u16> = (0..types.len() as u16)
        .filter(|&ty| matches!(types[ty as usize], Type::Record(_) | Type::Union(_)))
        .collect();
    let any = rng.below(types.len()) as u16;
    let key = match rng.pick(&composite) {
        Some(&ty) if rng.chance(80) => ty,
        _ => any,
    };
    let value = if rng.chance(50) {
        rng.below(types.len()) as u16
    } else {
        NONE
    };
    Predicate { key, value }
}
