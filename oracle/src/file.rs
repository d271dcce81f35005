//! A rule file as data: the ten sections, in their order.

pub const MAX_FILE: usize = 32_768;
pub const MIN_WORK: usize = 65_536;
pub const MAX_PLAN: usize = 16_384;
/// The deepest type, and the most that a Field's steps and its type's depth come to.
pub const MAX_DEPTH: usize = 32;
/// The most steps of a path.
pub const MAX_STEPS: usize = 31;
pub const NONE: u16 = 0xFFFF;

/// Each section's limit, in file order.
pub const LIMITS: [usize; 10] = [512, 512, 256, 2_048, 256, 256, 256, 256, 256, 64];

#[derive(Debug, Clone, PartialEq, Eq, Default)]
pub struct RuleFile {
    pub names: Vec<Vec<u8>>,
    pub types: Vec<Type>,
    pub predicates: Vec<Predicate>,
    pub nodes: Vec<Node>,
    pub bindings: Vec<Binding>,
    pub hoisted: Vec<Hoisted>,
    pub fetched: Vec<Fetched>,
    pub constraints: Vec<Constraint>,
    pub comparisons: Vec<Comparison>,
    pub levels: Vec<Level>,
}

#[derive(Debug, Clone, PartialEq, Eq)]
pub enum Type {
    Int,
    Str,
    Bytes,
    Fact(u16),
    Record(Vec<(u16, u16)>),
    /// Name, disc, type.
    Union(Vec<(u16, u32, u16)>),
}

#[derive(Debug, Clone, Copy, PartialEq, Eq)]
pub struct Predicate {
    pub key: u16,
    pub value: u16,
}

#[derive(Debug, Clone, Copy, PartialEq, Eq)]
pub enum Anchor {
    Prefix,
    Whole,
}

#[derive(Debug, Clone, PartialEq, Eq)]
pub enum Node {
    Int(i64),
    Str(u16),
    Bytes(Vec<u8>),
    Var(u16),
    Wildcard,
    Never,
    Prefix(u16),
    Fuzzy(u16, u8, Anchor),
    Record(Vec<(u16, u16)>),
    KeyAccess(u16, u16),
    ValueAccess(u16),
    Select(u16, u16),
    Disjunction,
    Subquery,
    Fact(u16, u16),
    Arith,
    Error,
}

#[derive(Debug, Clone, PartialEq, Eq, PartialOrd, Ord)]
pub struct Path {
    pub field: u16,
    pub steps: Vec<u32>,
}

#[derive(Debug, Clone, PartialEq, Eq)]
pub enum Slot {
    Row(u16, u16),
    Key(u16, u16),
    Derived(u16),
    Field(u16, Path, u16),
    Value(u16, u16),
    Const(u16),
}

#[derive(Debug, Clone, PartialEq, Eq)]
pub struct Binding {
    pub name: u16,
    pub slot: Slot,
}

#[derive(Debug, Clone, Copy, PartialEq, Eq)]
pub struct Hoisted {
    pub node: u16,
    pub name: u16,
}

#[derive(Debug, Clone, PartialEq, Eq)]
pub struct Fetched {
    pub address: u16,
    pub path: Path,
    pub register: u16,
}

#[derive(Debug, Clone, Copy, PartialEq, Eq)]
pub struct Constraint {
    pub name: u16,
    pub node: u16,
}

#[derive(Debug, Clone, Copy, PartialEq, Eq)]
pub enum Op {
    Lt,
    Le,
    Gt,
    Ge,
}

#[derive(Debug, Clone, Copy, PartialEq, Eq)]
pub struct Comparison {
    pub op: Op,
    pub left: u16,
    pub right: u16,
}

#[derive(Debug, Clone, Copy, PartialEq, Eq)]
pub struct Level {
    pub predicate: u16,
    pub node: u16,
    pub address: u16,
}

impl Node {
    /// The nodes under this one: a Record's, and the one under an Access, a
    /// Select or a Fact.
    pub fn children(&self) -> Vec<u16> {
        match self {
            Node::Record(fields) => fields.iter().map(|(_, node)| *node).collect(),
            Node::KeyAccess(_, node)
            | Node::ValueAccess(node)
            | Node::Select(_, node)
            | Node::Fact(_, node) => vec![*node],
            _ => vec![],
        }
    }
}

impl Type {
    pub fn children(&self) -> Vec<u16> {
        match self {
            Type::Record(fields) => fields.iter().map(|(_, ty)| *ty).collect(),
            Type::Union(alts) => alts.iter().map(|(_, _, ty)| *ty).collect(),
            _ => vec![],
        }
    }
}

/// The tables whose numbers stand elsewhere in a file.
#[derive(Debug, Clone, Copy, PartialEq, Eq)]
pub enum Table {
    Name,
    Type,
    Predicate,
    Node,
}

impl RuleFile {
    /// Visits every number that names an entry of a table, none excepted.
    pub fn numbers(&mut self, visit: &mut impl FnMut(Table, &mut u16)) {
        self.types.iter_mut().for_each(|ty| ty.numbers(visit));
        self.nodes.iter_mut().for_each(|node| node.numbers(visit));
        for predicate in &mut self.predicates {
            visit(Table::Type, &mut predicate.key);
            visit_some(Table::Type, &mut predicate.value, visit);
        }
        for binding in &mut self.bindings {
            visit(Table::Name, &mut binding.name);
            binding.slot.numbers(visit);
        }
        for hoisted in &mut self.hoisted {
            visit(Table::Node, &mut hoisted.node);
            visit(Table::Name, &mut hoisted.name);
        }
        for constraint in &mut self.constraints {
            visit(Table::Name, &mut constraint.name);
            visit(Table::Node, &mut constraint.node);
        }
        for comparison in &mut self.comparisons {
            visit(Table::Node, &mut comparison.left);
            visit(Table::Node, &mut comparison.right);
        }
        for level in &mut self.levels {
            visit(Table::Predicate, &mut level.predicate);
            visit(Table::Node, &mut level.node);
        }
    }
}

fn visit_some(table: Table, number: &mut u16, visit: &mut impl FnMut(Table, &mut u16)) {
    if *number != NONE {
        visit(table, number);
    }
}

impl Type {
    fn numbers(&mut self, visit: &mut impl FnMut(Table, &mut u16)) {
        match self {
            Type::Int | Type::Str | Type::Bytes => {}
            Type::Fact(predicate) => visit(Table::Predicate, predicate),
            Type::Record(fields) => {
                for (name, ty) in fields {
                    visit(Table::Name, name);
                    visit(Table::Type, ty);
                }
            }
            Type::Union(alts) => {
                for (name, _, ty) in alts {
                    visit(Table::Name, name);
                    visit(Table::Type, ty);
                }
            }
        }
    }
}

impl Node {
    fn numbers(&mut self, visit: &mut impl FnMut(Table, &mut u16)) {
        match self {
            Node::Str(name) | Node::Var(name) | Node::Prefix(name) | Node::Fuzzy(name, _, _) => {
                visit(Table::Name, name);
            }
            Node::Record(fields) => {
                for (name, child) in fields {
                    visit(Table::Name, name);
                    visit(Table::Node, child);
                }
            }
            Node::KeyAccess(name, base) | Node::Select(name, base) => {
                visit(Table::Name, name);
                visit(Table::Node, base);
            }
            Node::ValueAccess(base) => visit(Table::Node, base),
            Node::Fact(predicate, key) => {
                visit(Table::Predicate, predicate);
                visit(Table::Node, key);
            }
            _ => {}
        }
    }
}

impl Slot {
    fn numbers(&mut self, visit: &mut impl FnMut(Table, &mut u16)) {
        match self {
            Slot::Row(_, predicate) => visit_some(Table::Predicate, predicate, visit),
            Slot::Key(_, ty) | Slot::Field(_, _, ty) | Slot::Value(_, ty) => visit(Table::Type, ty),
            Slot::Derived(_) => {}
            Slot::Const(node) => visit(Table::Node, node),
        }
    }
}

/// Every type's depth: 1 for a leaf, else 1 + its deepest child's. Children
/// stand lower than their parents, so one pass in file order settles all.
pub fn depths(types: &[Type]) -> Vec<usize> {
    let mut depths = Vec::with_capacity(types.len());
    for ty in types {
        let deepest = ty
            .children()
            .iter()
            .map(|&child| depths[child as usize])
            .max();
        depths.push(1 + deepest.unwrap_or(0));
    }
    depths
}

/// Which nodes are constant: Int, Str, Bytes and Records of constants.
pub fn constants(nodes: &[Node]) -> Vec<bool> {
    let mut constant: Vec<bool> = Vec::with_capacity(nodes.len());
    for node in nodes {
        constant.push(match node {
            Node::Int(_) | Node::Str(_) | Node::Bytes(_) => true,
            Node::Record(fields) => fields.iter().all(|(_, child)| constant[*child as usize]),
            _ => false,
        });
    }
    constant
}
