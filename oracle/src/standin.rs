//! What the cut bodies find in place of fjord's syntax tree, schema, interner,
//! diagnostics and encoding: the tables of one rule file.

use std::any::Any;
use std::cell::Cell;
use std::panic::resume_unwind;
use std::sync::Arc;

use crate::file::{self, NONE, RuleFile};

pub type NodeId = u16;
/// A node's number is its span.
pub type NodeSpan = u16;

#[derive(Debug, Clone, Copy, PartialEq, Eq)]
pub struct Symbol(pub u16);

#[derive(Debug, Clone, Copy, PartialEq, Eq)]
pub struct PredicateId(pub u16);

#[derive(Debug, Clone, Copy, PartialEq, Eq)]
pub enum FuzzyAnchor {
    Prefix,
    Whole,
}

// ---- syntax tree ---------------------------------------------------------------

pub enum Literal {
    Int(i64),
    Str(Symbol),
    Bytes(Box<[u8]>),
}

pub enum FieldRef {
    Key(Symbol),
    Value,
}

/// Kinds 12 and 13 carry nothing here; the bodies' patterns want one place.
pub enum ExprKind {
    Lit(Literal),
    Var(Symbol),
    Wildcard,
    Never,
    Prefix(Symbol),
    Fuzzy(Symbol, u8, FuzzyAnchor),
    Record(Arc<[(Symbol, NodeId)]>),
    Access(FieldRef, NodeId),
    Select(Symbol, NodeId),
    Disjunction(()),
    Subquery(()),
    Fact(PredicateId, NodeId),
    Arith,
    Error,
}

/// Thrown, past the panic hook, when a walk has looked at more nodes than its
/// caller allows: some small files keep the bodies busy for minutes.
pub struct OutOfFuel;

pub struct Store {
    kinds: Vec<ExprKind>,
    fuel: Cell<u64>,
}

impl Store {
    pub fn kind(&self, node: NodeId) -> &ExprKind {
        let Some(left) = self.fuel.get().checked_sub(1) else {
            resume_unwind(Box::new(OutOfFuel) as Box<dyn Any + Send>);
        };
        self.fuel.set(left);
        &self.kinds[node as usize]
    }

    pub fn span(&self, node: NodeId) -> NodeSpan {
        node
    }
}

pub struct Ast {
    store: Store,
    constant: Vec<bool>,
}

impl Ast {
    pub fn store(&self) -> &Store {
        &self.store
    }

    /// Not among the source's bodies; the rule file's own definition serves.
    pub fn is_constant(&self, node: NodeId) -> bool {
        self.constant[node as usize]
    }
}

// ---- schema --------------------------------------------------------------------

#[derive(Debug, Clone)]
pub struct Alternative {
    pub name: Symbol,
    pub disc: u32,
    pub ty: PredicateTy,
}

/// Children are shared, as the file's types are: a tree of copies could be
/// enormous.
#[derive(Debug, Clone)]
pub enum PredicateTy {
    Int,
    Str,
    Bytes,
    Fact(PredicateId),
    Record(Arc<[(Symbol, PredicateTy)]>),
    Union(Arc<[Alternative]>),
}

pub struct Side {
    pub ty: PredicateTy,
}

pub struct Predicate {
    key: Side,
    value: Option<Side>,
}

impl Predicate {
    pub fn key(&self) -> &Side {
        &self.key
    }

    pub fn value(&self) -> Option<&Side> {
        self.value.as_ref()
    }
}

pub struct Schema {
    predicates: Vec<Predicate>,
    /// By type number, for the starting bindings.
    pub types: Vec<PredicateTy>,
}

impl Schema {
    pub fn get(&self, predicate: PredicateId) -> Option<&Predicate> {
        self.predicates.get(predicate.0 as usize)
    }
}

// ---- interner and encoding -----------------------------------------------------

/// How many characters in front of a text hold its number.
const TAG: usize = 4;

/// A text is handed out with its number in front, as four hex digits. The plan
/// names a fuzzy text by number, two names may hold the same text, and the
/// bodies carry nothing but the text; `put_str` drops the digits again.
pub struct LocalInterner {
    texts: Vec<String>,
}

impl LocalInterner {
    pub fn try_resolve(&self, symbol: Symbol) -> Option<&str> {
        self.texts.get(symbol.0 as usize).map(String::as_str)
    }
}

pub fn number_of_text(tagged: &str) -> u16 {
    u16::from_str_radix(&tagged[..TAG], 16).expect("four hex digits stand in front of a text")
}

pub const MARK_TERM: u8 = 0x00;
pub const MARK_RECORD: u8 = 0x06;
const MARK_INT: u8 = 0x02;
const MARK_STR: u8 = 0x03;
const MARK_BYTES: u8 = 0x04;
const MARK_UNION: u8 = 0x05;

pub fn put_i64(out: &mut Vec<u8>, value: i64) {
    out.push(MARK_INT);
    let flipped = (value as u64) ^ (1 << 63);
    out.extend_from_slice(&flipped.to_be_bytes());
}

pub fn put_str(out: &mut Vec<u8>, tagged: &str) {
    out.push(MARK_STR);
    put_escaped(out, &tagged.as_bytes()[TAG..]);
}

pub fn put_bytes(out: &mut Vec<u8>, bytes: &[u8]) {
    out.push(MARK_BYTES);
    put_escaped(out, bytes);
}

fn put_escaped(out: &mut Vec<u8>, bytes: &[u8]) {
    for &byte in bytes {
        out.push(byte);
        if byte == 0 {
            out.push(0xFF);
        }
    }
    out.push(MARK_TERM);
}

pub struct UnionTag([u8; 5]);

impl UnionTag {
    pub fn new(disc: u32) -> Self {
        let [a, b, c, d] = disc.to_be_bytes();
        Self([MARK_UNION, a, b, c, d])
    }

    pub fn as_bytes(&self) -> &[u8] {
        &self.0
    }
}

// ---- diagnostics ---------------------------------------------------------------

#[derive(Debug, Clone, Copy, PartialEq, Eq)]
#[repr(u8)]
pub enum Code {
    NyiDisjunction = 1,
    NyiFactField = 2,
    NyiNever = 3,
    NyiRepeatedVariable = 4,
    NyiValueField = 5,
    NyiValueMatch = 6,
    NyiWholeKey = 7,
    RejectTypeMismatch = 8,
    RejectUnionArity = 9,
    RejectUnknownAlternative = 10,
    RejectUnresolvedAccess = 11,
}

/// Message texts are left out of a plan: a diagnostic is its node and its code.
#[derive(Default)]
pub struct Diagnostics {
    pub reported: Vec<(NodeSpan, Code)>,
}

impl Diagnostics {
    pub fn len(&self) -> usize {
        self.reported.len()
    }

    pub fn is_empty(&self) -> bool {
        self.reported.is_empty()
    }

    pub fn error(&mut self, code: Code, _message: impl Into<String>, span: NodeSpan) {
        self.reported.push((span, code));
    }
}

// ---- from the tables -----------------------------------------------------------

/// The stand-ins of one checked file.
pub struct Tables {
    pub ast: Ast,
    pub schema: Schema,
    pub interner: LocalInterner,
}

impl Tables {
    pub fn new(file: &RuleFile, fuel: u64) -> Self {
        let kinds = file.nodes.iter().map(expr_kind).collect();
        Self {
            ast: Ast {
                store: Store {
                    kinds,
                    fuel: Cell::new(fuel),
                },
                constant: file::constants(&file.nodes),
            },
            schema: schema(file),
            interner: LocalInterner {
                texts: file.names.iter().enumerate().map(tagged).collect(),
            },
        }
    }
}

fn tagged((number, name): (usize, &Vec<u8>)) -> String {
    let text = std::str::from_utf8(name).expect("a name is UTF-8");
    format!("{number:04x}{text}")
}

fn anchor(anchor: file::Anchor) -> FuzzyAnchor {
    match anchor {
        file::Anchor::Prefix => FuzzyAnchor::Prefix,
        file::Anchor::Whole => FuzzyAnchor::Whole,
    }
}

fn expr_kind(node: &file::Node) -> ExprKind {
    match node {
        file::Node::Int(value) => ExprKind::Lit(Literal::Int(*value)),
        file::Node::Str(name) => ExprKind::Lit(Literal::Str(Symbol(*name))),
        file::Node::Bytes(bytes) => ExprKind::Lit(Literal::Bytes(bytes.as_slice().into())),
        file::Node::Var(name) => ExprKind::Var(Symbol(*name)),
        file::Node::Wildcard => ExprKind::Wildcard,
        file::Node::Never => ExprKind::Never,
        file::Node::Prefix(name) => ExprKind::Prefix(Symbol(*name)),
        file::Node::Fuzzy(name, distance, at) => {
            ExprKind::Fuzzy(Symbol(*name), *distance, anchor(*at))
        }
        file::Node::Record(fields) => ExprKind::Record(
            fields
                .iter()
                .map(|(name, node)| (Symbol(*name), *node))
                .collect(),
        ),
        file::Node::KeyAccess(name, base) => ExprKind::Access(FieldRef::Key(Symbol(*name)), *base),
        file::Node::ValueAccess(base) => ExprKind::Access(FieldRef::Value, *base),
        file::Node::Select(name, base) => ExprKind::Select(Symbol(*name), *base),
        file::Node::Disjunction => ExprKind::Disjunction(()),
        file::Node::Subquery => ExprKind::Subquery(()),
        file::Node::Fact(predicate, key) => ExprKind::Fact(PredicateId(*predicate), *key),
        file::Node::Arith => ExprKind::Arith,
        file::Node::Error => ExprKind::Error,
    }
}

fn schema(file: &RuleFile) -> Schema {
    let mut types: Vec<PredicateTy> = Vec::with_capacity(file.types.len());
    for ty in &file.types {
        let made = predicate_ty(ty, &types);
        types.push(made);
    }
    let side = |ty: u16| Side {
        ty: types[ty as usize].clone(),
    };
    let predicates = file
        .predicates
        .iter()
        .map(|predicate| Predicate {
            key: side(predicate.key),
            value: (predicate.value != NONE).then(|| side(predicate.value)),
        })
        .collect();
    Schema { predicates, types }
}

fn predicate_ty(ty: &file::Type, lower: &[PredicateTy]) -> PredicateTy {
    let child = |ty: u16| lower[ty as usize].clone();
    match ty {
        file::Type::Int => PredicateTy::Int,
        file::Type::Str => PredicateTy::Str,
        file::Type::Bytes => PredicateTy::Bytes,
        file::Type::Fact(predicate) => PredicateTy::Fact(PredicateId(*predicate)),
        file::Type::Record(fields) => PredicateTy::Record(
            fields
                .iter()
                .map(|(name, ty)| (Symbol(*name), child(*ty)))
                .collect(),
        ),
        file::Type::Union(alts) => PredicateTy::Union(
            alts.iter()
                .map(|(name, disc, ty)| Alternative {
                    name: Symbol(*name),
                    disc: *disc,
                    ty: child(*ty),
                })
                .collect(),
        ),
    }
}
