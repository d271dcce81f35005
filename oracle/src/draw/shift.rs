//! A drawn file with other numbers: fillers in front of each table, so that
//! numbers take both of their bytes.

use crate::file::*;
use crate::rng::Rng;

pub fn shifted(rng: &mut Rng) -> RuleFile {
    let mut file = super::query::query(rng);
    let mut by = |limit: usize, count: usize| rng.below((limit - count).min(300) + 1) as u16;
    let names = by(LIMITS[0], file.names.len());
    let types = by(LIMITS[1], file.types.len());
    let predicates = by(LIMITS[2], file.predicates.len()).min(40);
    let nodes = by(LIMITS[3], file.nodes.len());
    file.numbers(&mut |table, number| {
        *number += match table {
            Table::Name => names,
            Table::Type => types,
            Table::Predicate => predicates,
            Table::Node => nodes,
        }
    });
    let filler = Predicate {
        key: 0,
        value: NONE,
    };
    front(&mut file.names, vec![], names);
    front(&mut file.types, Type::Int, types);
    front(&mut file.predicates, filler, predicates);
    front(&mut file.nodes, Node::Wildcard, nodes);
    file
}

fn front<T: Clone>(table: &mut Vec<T>, filler: T, count: u16) {
    table.splice(0..0, std::iter::repeat_n(filler, count as usize));
}
