//! The whole-file checks, 8 to 14: each is tried over the whole file before the
//! next one.

use crate::file::*;

type Check = fn(&RuleFile) -> bool;

/// A check holds where its function answers true; the later ones rely on the
/// earlier ones.
const CHECKS: [(u8, Check); 7] = [
    (8, numbers_in_range),
    (9, children_lower),
    (10, no_repeats),
    (11, shallow),
    (12, one_parent),
    (13, constants_constant),
    (14, paths_short),
];

pub fn check(file: &RuleFile) -> Result<(), u8> {
    for (number, holds) in CHECKS {
        if !holds(file) {
            return Err(number);
        }
    }
    Ok(())
}

struct Counts {
    names: usize,
    types: usize,
    predicates: usize,
    nodes: usize,
}

impl Counts {
    fn name(&self, number: u16) -> bool {
        (number as usize) < self.names
    }

    fn ty(&self, number: u16) -> bool {
        (number as usize) < self.types
    }

    fn predicate(&self, number: u16) -> bool {
        (number as usize) < self.predicates
    }

    fn node(&self, number: u16) -> bool {
        (number as usize) < self.nodes
    }

    fn of_type(&self, ty: &Type) -> bool {
        match ty {
            Type::Int | Type::Str | Type::Bytes => true,
            Type::Fact(predicate) => self.predicate(*predicate),
            Type::Record(fields) => fields.iter().all(|(n, t)| self.name(*n) && self.ty(*t)),
            Type::Union(alts) => alts.iter().all(|(n, _, t)| self.name(*n) && self.ty(*t)),
        }
    }

    fn of_node(&self, node: &Node) -> bool {
        match node {
            Node::Str(name) | Node::Var(name) | Node::Prefix(name) | Node::Fuzzy(name, _, _) => {
                self.name(*name)
            }
            Node::Record(fields) => fields.iter().all(|(n, c)| self.name(*n) && self.node(*c)),
            Node::KeyAccess(name, base) | Node::Select(name, base) => {
                self.name(*name) && self.node(*base)
            }
            Node::ValueAccess(base) => self.node(*base),
            Node::Fact(predicate, key) => self.predicate(*predicate) && self.node(*key),
            _ => true,
        }
    }

    fn of_slot(&self, slot: &Slot) -> bool {
        match slot {
            Slot::Row(_, predicate) => *predicate == NONE || self.predicate(*predicate),
            Slot::Key(_, ty) | Slot::Field(_, _, ty) | Slot::Value(_, ty) => self.ty(*ty),
            Slot::Derived(_) => true,
            Slot::Const(node) => self.node(*node),
        }
    }
}

fn numbers_in_range(file: &RuleFile) -> bool {
    let counts = Counts {
        names: file.names.len(),
        types: file.types.len(),
        predicates: file.predicates.len(),
        nodes: file.nodes.len(),
    };
    let predicate = |p: &Predicate| counts.ty(p.key) && (p.value == NONE || counts.ty(p.value));
    file.types.iter().all(|ty| counts.of_type(ty))
        && file.predicates.iter().all(predicate)
        && file.nodes.iter().all(|node| counts.of_node(node))
        && (file.bindings.iter()).all(|b| counts.name(b.name) && counts.of_slot(&b.slot))
        && (file.hoisted.iter()).all(|h| counts.node(h.node) && counts.name(h.name))
        && (file.constraints.iter()).all(|c| counts.name(c.name) && counts.node(c.node))
        && (file.comparisons.iter()).all(|c| counts.node(c.left) && counts.node(c.right))
        && (file.levels.iter()).all(|l| counts.predicate(l.predicate) && counts.node(l.node))
}

fn children_lower(file: &RuleFile) -> bool {
    let lower = |at: usize, children: Vec<u16>| children.iter().all(|&child| (child as usize) < at);
    (file.types.iter().enumerate()).all(|(at, ty)| lower(at, ty.children()))
        && (file.nodes.iter().enumerate()).all(|(at, node)| lower(at, node.children()))
}

fn distinct<T: Ord>(mut values: Vec<T>) -> bool {
    values.sort();
    values.windows(2).all(|pair| pair[0] != pair[1])
}

fn no_repeats(file: &RuleFile) -> bool {
    file.types.iter().all(|ty| match ty {
        Type::Record(fields) => distinct(fields.iter().map(|(name, _)| *name).collect()),
        Type::Union(alts) => {
            distinct(alts.iter().map(|(name, _, _)| *name).collect())
                && distinct(alts.iter().map(|(_, disc, _)| *disc).collect())
        }
        _ => true,
    })
}

fn shallow(file: &RuleFile) -> bool {
    depths(&file.types).iter().all(|&depth| depth <= MAX_DEPTH)
}

fn one_parent(file: &RuleFile) -> bool {
    distinct(file.nodes.iter().flat_map(Node::children).collect())
}

fn constants_constant(file: &RuleFile) -> bool {
    let constant = constants(&file.nodes);
    file.bindings.iter().all(|binding| match binding.slot {
        Slot::Const(node) => constant[node as usize],
        _ => true,
    })
}

fn paths_short(file: &RuleFile) -> bool {
    let depths = depths(&file.types);
    let binding = |binding: &Binding| match &binding.slot {
        Slot::Field(_, path, ty) => path.steps.len() + depths[*ty as usize] <= MAX_DEPTH,
        _ => true,
    };
    file.bindings.iter().all(binding)
        && file
            .fetched
            .iter()
            .all(|fetched| fetched.path.steps.len() <= MAX_STEPS)
}
