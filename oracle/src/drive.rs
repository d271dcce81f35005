// Included after the cut bodies, in their module, so that it sees their private
// fields: the `Flattener` they are methods of, and the loop over a file's levels.

use crate::file;
use crate::plan;

/// The fields the bodies touch, with the types they have in the source.
struct Flattener<'a> {
    ast: &'a Ast,
    schema: &'a Schema,
    interner: &'a LocalInterner,
    diagnostics: &'a mut Diagnostics,
    bindings: Vec<(Symbol, Slot)>,
    hoisted: Vec<(NodeId, Symbol)>,
    fetched: Vec<(Address, FieldPath, Address)>,
    constraints: Vec<(Symbol, NodeId)>,
    constrained: Vec<Symbol>,
    comparisons: Vec<Comparison>,
    selects: Vec<(Address, FieldPath, u32)>,
}

/// The plan of a checked file: `key` once per level on one `Flattener`, a new
/// `SeekBuilder` before it and `seek_key` after it.
pub fn walk(file: &file::RuleFile, fuel: u64) -> plan::Plan {
    let tables = Tables::new(file, fuel);
    let mut diagnostics = Diagnostics::default();
    let mut flattener = start(file, &tables, &mut diagnostics);
    let mut out = plan::Plan::default();

    for level in &file.levels {
        let key_ty = &tables.schema.types[file.predicates[level.predicate as usize].key as usize];
        let bound = flattener.bindings.len();
        let mut builder = SeekBuilder::new();
        flattener.key(level.node, key_ty, register(level.address), &mut builder);
        let data = level_data(&builder, builder.seek_key(), level.address);
        out.levels.push(data);
        let new = flattener.bindings[bound..].iter();
        out.bindings
            .extend(new.map(|(name, slot)| new_binding(file, level, *name, slot)));
    }

    out.constrained = flattener
        .constrained
        .iter()
        .map(|symbol| symbol.0)
        .collect();
    let select =
        |(from, path, disc): &(Address, FieldPath, u32)| (number(*from), path_data(path), *disc);
    out.selects = flattener.selects.iter().map(select).collect();
    out.diagnostics = diagnostics
        .reported
        .iter()
        .map(|(node, code)| (*node, *code as u8))
        .collect();
    out
}

fn start<'a>(
    file: &file::RuleFile,
    tables: &'a Tables,
    diagnostics: &'a mut Diagnostics,
) -> Flattener<'a> {
    let binding = |b: &file::Binding| (Symbol(b.name), starting_slot(&b.slot, &tables.schema));
    let fetched = |f: &file::Fetched| (register(f.address), path_of(&f.path), register(f.register));
    Flattener {
        ast: &tables.ast,
        schema: &tables.schema,
        interner: &tables.interner,
        diagnostics,
        bindings: file.bindings.iter().map(binding).collect(),
        hoisted: file
            .hoisted
            .iter()
            .map(|h| (h.node, Symbol(h.name)))
            .collect(),
        fetched: file.fetched.iter().map(fetched).collect(),
        constraints: file
            .constraints
            .iter()
            .map(|c| (Symbol(c.name), c.node))
            .collect(),
        constrained: vec![],
        comparisons: file.comparisons.iter().map(comparison).collect(),
        selects: vec![],
    }
}

fn comparison(from: &file::Comparison) -> Comparison {
    Comparison {
        left: from.left,
        right: from.right,
        op: match from.op {
            file::Op::Lt => CompareOp::Lt,
            file::Op::Le => CompareOp::Le,
            file::Op::Gt => CompareOp::Gt,
            file::Op::Ge => CompareOp::Ge,
        },
        span: from.left,
    }
}

fn register(number: u16) -> Address {
    Address::new(number as usize)
}

fn number(address: Address) -> u16 {
    address.index() as u16
}

fn path_of(path: &file::Path) -> FieldPath {
    let steps: Vec<usize> = path.steps.iter().map(|&step| step as usize).collect();
    FieldPath::nested(path.field as usize, steps)
}

fn path_data(path: &FieldPath) -> file::Path {
    file::Path {
        field: path.field_idx() as u16,
        steps: path.steps().iter().map(|&step| step as u32).collect(),
    }
}

fn starting_slot(slot: &file::Slot, schema: &Schema) -> Slot {
    let ty = |number: u16| schema.types[number as usize].clone();
    match slot {
        file::Slot::Row(address, predicate) => Slot::Row {
            address: register(*address),
            predicate: (*predicate != file::NONE).then_some(PredicateId(*predicate)),
        },
        file::Slot::Key(address, number) => Slot::Key {
            address: register(*address),
            ty: ty(*number),
        },
        file::Slot::Derived(address) => Slot::Derived(register(*address)),
        file::Slot::Field(address, path, number) => Slot::Field {
            address: register(*address),
            path: path_of(path),
            ty: ty(*number),
        },
        file::Slot::Value(address, number) => Slot::Value {
            address: register(*address),
            ty: ty(*number),
        },
        file::Slot::Const(node) => Slot::Const(*node),
    }
}

/// A binding the walk made, in the file's form. The bodies carry a type and not
/// its number, which is the one met along the key type's path.
fn new_binding(
    file: &file::RuleFile,
    level: &file::Level,
    name: Symbol,
    slot: &Slot,
) -> file::Binding {
    let key = file.predicates[level.predicate as usize].key;
    let slot = match slot {
        Slot::Key { address, .. } => file::Slot::Key(number(*address), key),
        Slot::Field { address, path, .. } => {
            let path = path_data(path);
            let ty = type_along(file, key, &path);
            file::Slot::Field(number(*address), path, ty)
        }
        other => panic!("the walk bound {other:?}"),
    };
    file::Binding { name: name.0, slot }
}

fn type_along(file: &file::RuleFile, key: u16, path: &file::Path) -> u16 {
    let mut at = match &file.types[key as usize] {
        file::Type::Record(fields) => fields[path.field as usize].1,
        _ => key,
    };
    for &step in &path.steps {
        at = match &file.types[at as usize] {
            file::Type::Record(fields) => fields[step as usize].1,
            file::Type::Union(alts) => {
                let alt = alts.iter().find(|(_, disc, _)| *disc == step);
                alt.expect("a payload's step is a disc of its union").2
            }
            other => panic!("a path steps into {other:?}"),
        };
    }
    at
}

/// The bodies count neither narrowings nor closers. A closer is the one part
/// that is a lone 00, since an encoding begins with 02 to 06; what else was
/// placed is a narrowing, each placed once.
fn level_data(builder: &SeekBuilder, seek: SeekKey, own: u16) -> plan::Level {
    let is_closer =
        |part: &&SeekKeyPart| matches!(part, SeekKeyPart::Bytes(b) if **b == [MARK_TERM]);
    let parts = builder.parts.len();
    let closers = builder.parts.iter().filter(is_closer).count();
    let placed = parts + builder.residuals.len();
    let residual = |residual: &Residual| residual_data(residual, own);
    let single = usize::from(builder.range.is_some()) + usize::from(builder.guide.is_some());
    plan::Level {
        narrowings: placed + single - closers,
        closers,
        parts,
        seek: seek_data(seek, builder),
        guide: builder.guide.as_ref().map(guide_data),
        residuals: builder.residuals.iter().map(residual).collect(),
        folded: builder.folded.clone(),
        nodes: vec![],
    }
}

fn seek_data(seek: SeekKey, builder: &SeekBuilder) -> plan::Seek {
    match seek {
        SeekKey::Prefix(bytes) => plan::Seek::Prefix(bytes.into()),
        SeekKey::Composite(parts) => plan::Seek::Composite(parts.iter().map(part_data).collect()),
        SeekKey::PrefixRange { parts, prefix } => {
            let (path, _) = builder.range.as_ref().expect("a prefix range has a path");
            plan::Seek::PrefixRange(
                parts.iter().map(part_data).collect(),
                prefix.into(),
                path_data(path),
            )
        }
        SeekKey::Bounded { parts, lo, hi } => plan::Seek::Bounded(
            parts.iter().map(part_data).collect(),
            lo.as_ref().map(edge_data),
            hi.as_ref().map(edge_data),
        ),
    }
}

fn part_data(part: &SeekKeyPart) -> plan::Part {
    match part {
        SeekKeyPart::Bytes(bytes) => plan::Part::Bytes(bytes.to_vec()),
        SeekKeyPart::RegisterField { address, path } => {
            plan::Part::RegisterField(number(*address), path_data(path))
        }
        SeekKeyPart::RegisterFactId(address) => plan::Part::RegisterFactId(number(*address)),
    }
}

fn edge_data(edge: &RangeEdge) -> plan::Edge {
    plan::Edge {
        inclusive: edge.inclusive,
        bytes: edge.value.to_vec(),
    }
}

fn guide_data(guide: &Guide) -> (file::Path, plan::Fuzzy) {
    let fuzzy = fuzzy_data(&guide.term, guide.distance, guide.anchor);
    (path_data(&guide.path), fuzzy)
}

fn fuzzy_data(term: &str, distance: u8, anchor: FuzzyAnchor) -> plan::Fuzzy {
    plan::Fuzzy {
        name: number_of_text(term),
        distance,
        anchor: match anchor {
            FuzzyAnchor::Prefix => file::Anchor::Prefix,
            FuzzyAnchor::Whole => file::Anchor::Whole,
        },
    }
}

/// A field of the level's own register is one of the row that is tested. Only the
/// text as document 02 changes it makes such a residual (later_help.rs).
fn residual_data(residual: &Residual, own: u16) -> (file::Path, plan::ResidualOp) {
    let op = match &residual.op {
        ResidualOp::EqConst(bytes) => plan::ResidualOp::Bytes(bytes.to_vec()),
        ResidualOp::Prefix(bytes) => plan::ResidualOp::Prefix(bytes.to_vec()),
        ResidualOp::EqRegisterField { address, path } if number(*address) == own => {
            plan::ResidualOp::OwnField(path_data(path))
        }
        ResidualOp::EqRegisterField { address, path } => {
            plan::ResidualOp::RegisterField(number(*address), path_data(path))
        }
        ResidualOp::EqRegisterFactId(address) => plan::ResidualOp::RegisterFactId(number(*address)),
        ResidualOp::DiscriminantEq(disc) => plan::ResidualOp::Disc(*disc),
        ResidualOp::Fuzzy {
            term,
            distance,
            anchor,
        } => plan::ResidualOp::Fuzzy(fuzzy_data(term, *distance, *anchor)),
        other => panic!("the walk made the residual {other:?}"),
    };
    (path_data(&residual.path), op)
}
