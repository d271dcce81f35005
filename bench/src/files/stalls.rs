//! Small files, all accepted, that keep a compile busy: each asks one question again and
//! again that is dear to answer.

use oracle::draw::shape::{level, predicate};
use oracle::file::*;

use super::worst::{all_levels, last_node, last_type};

/// The most fields of a record, or alternatives of a union.
const WIDE: u16 = 255;
const LEVELS: u16 = LIMITS[9] as u16;

const STR: u16 = 0;
const INT: u16 = 1;

/// So many names without a letter; they differ by their numbers. Types 0 and 1 are a text
/// and a number.
fn start(names: u16) -> RuleFile {
    RuleFile {
        names: vec![vec![]; names as usize],
        types: vec![Type::Str, Type::Int],
        ..RuleFile::default()
    }
}

fn ty(file: &mut RuleFile, ty: Type) -> u16 {
    file.types.push(ty);
    last_type(file)
}

fn node(file: &mut RuleFile, node: Node) -> u16 {
    file.nodes.push(node);
    last_node(file)
}

fn bind(file: &mut RuleFile, name: u16, slot: Slot) {
    file.bindings.push(Binding { name, slot });
}

/// A record type of so many fields, all of one type.
fn record_ty(file: &mut RuleFile, count: u16, of: u16) -> u16 {
    ty(
        file,
        Type::Record((0..count).map(|name| (name, of)).collect()),
    )
}

/// A record whose fields have these names, the first one's given last, so that it is found
/// last.
fn record(
    file: &mut RuleFile,
    names: std::ops::Range<u16>,
    of: impl Fn(&mut RuleFile) -> u16,
) -> u16 {
    let fields = names.rev().map(|name| (name, of(file))).collect();
    node(file, Node::Record(fields))
}

/// So many records of this name's Vars, each of as many as given, in a record.
fn records_of_vars(file: &mut RuleFile, records: u16, vars: u16, name: u16) -> u16 {
    record(file, 0..records, |file| {
        record(file, 0..vars, |file| node(file, Node::Var(name)))
    })
}

/// What a constant's leaves are.
#[derive(Clone, Copy, PartialEq, Eq)]
enum Leaf {
    Text,
    /// A union's value with a text, of the last of 255 alternatives.
    LastAlternative,
}

impl Leaf {
    fn ty(self, file: &mut RuleFile) -> u16 {
        match self {
            Self::Text => STR,
            Self::LastAlternative => {
                let alternatives = (0..WIDE).map(|name| (name, u32::from(name), STR));
                ty(file, Type::Union(alternatives.collect()))
            }
        }
    }

    /// A long text with a byte 00, which is dearest; or an empty one, with which the Rust can
    /// be waited for.
    fn text(self) -> Vec<u8> {
        match self {
            Self::Text => [vec![b'x'; 254], vec![0]].concat(),
            Self::LastAlternative => vec![],
        }
    }

    fn node(self, file: &mut RuleFile) -> u16 {
        let text = node(file, Node::Str(TEXT));
        match self {
            Self::Text => text,
            Self::LastAlternative => node(file, Node::Record(vec![(WIDE - 1, text)])),
        }
    }
}

/// Names behind those of the fields: what stands for the constant, its text, and the Vars
/// that are constrained and compared.
const CONSTANT: u16 = WIDE;
const TEXT: u16 = WIDE + 1;
const ASKING: u16 = WIDE + 2;
/// Fields of a record that all have bytes, in front of the one that has none.
const ASKED: u16 = WIDE - 1;

/// A name is bound to so many records of such leaves. What is asked for is a record of
/// records of Vars for it, which has no bytes for its type: `last` is what its last field
/// gives. Its type and node.
fn asked(file: &mut RuleFile, counts: Counts, leaf: Leaf, last: Option<Node>) -> (u16, u16) {
    file.names[TEXT as usize] = leaf.text();
    let of_leaf = leaf.ty(file);
    let wide = record_ty(file, ASKED, of_leaf);
    let constant = record_ty(file, counts.of_leaves, wide);
    let vars = record_ty(file, ASKED, constant);
    let mut fields: Vec<(u16, u16)> = (0..counts.of_vars).map(|name| (name, vars)).collect();
    fields.push((ASKED, INT));
    let of_vars = ty(file, Type::Record(fields));

    let bound = record(file, 0..counts.of_leaves, |file| {
        record(file, 0..ASKED, |file| leaf.node(file))
    });
    bind(file, CONSTANT, Slot::Const(bound));
    let mut given = vec![];
    for name in 0..counts.of_vars {
        let vars = record(file, 0..ASKED, |file| node(file, Node::Var(CONSTANT)));
        given.push((name, vars));
    }
    if let Some(last) = last {
        given.push((ASKED, node(file, last)));
    }
    (of_vars, node(file, Node::Record(given)))
}

/// Records of 254 Vars, and of 254 leaves.
struct Counts {
    of_vars: u16,
    of_leaves: u16,
}

/// A level in which one new Var has so many comparisons, and then another one so many
/// constraints, all with the node. Comparisons are looked at only where the level still
/// builds, so their Var comes first.
fn asking(file: &mut RuleFile, address: u16, times: usize, asked: u16, part: Option<Node>) {
    let names = [ASKING + 2 * address, ASKING + 2 * address + 1];
    let [compared, constrained] = names.map(|name| node(file, Node::Var(name)));
    let mut fields = vec![(1, compared), (2, constrained)];
    if let Some(part) = part {
        fields.push((0, node(file, part)));
    }
    let key = node(file, Node::Record(fields));
    for _ in 0..times {
        file.comparisons.push(Comparison {
            op: Op::Lt,
            left: compared,
            right: asked,
        });
        file.constraints.push(Constraint {
            name: names[1],
            node: asked,
        });
    }
    file.levels.push(level(0, key as usize, address));
}

/// One Var with 256 constraints and one with 256 comparisons: all of them are one record of
/// a thousand Vars that stand for a constant of a thousand texts. It lacks its last field.
pub fn constraints_and_comparisons() -> RuleFile {
    let mut file = start(ASKING + 2);
    let counts = Counts {
        of_vars: 4,
        of_leaves: 4,
    };
    let (of_vars, vars) = asked(&mut file, counts, Leaf::Text, None);
    let key = ty(&mut file, Type::Record(vec![(1, of_vars), (2, of_vars)]));
    file.predicates.push(predicate(key as usize));
    asking(&mut file, 0, LIMITS[7], vars, None);
    file
}

/// On each of 64 levels, behind a part, a Var with four constraints and one with four
/// comparisons, all of which fail at their last leaf. The constant's leaves are values of
/// the last of 255 alternatives.
pub fn union_values() -> RuleFile {
    let mut file = start(ASKING + 2 * LEVELS);
    let counts = Counts {
        of_vars: 1,
        of_leaves: 3,
    };
    let (of_vars, vars) = asked(
        &mut file,
        counts,
        Leaf::LastAlternative,
        Some(Node::Str(TEXT)),
    );
    let fields = vec![(0, INT), (1, of_vars), (2, of_vars)];
    let key = ty(&mut file, Type::Record(fields));
    file.predicates.push(predicate(key as usize));
    for address in 0..LEVELS {
        let times = LIMITS[7] / LEVELS as usize;
        asking(&mut file, address, times, vars, Some(Node::Int(7)));
    }
    file
}

/// Vars of the file that follows, in four records.
const VARS: u16 = 250;
/// Records inside each other in its constant: with the key, its record of Vars and the
/// record that lacks its text, the type has the greatest depth.
const CHAIN: usize = MAX_DEPTH - 4;
/// Texts of each of them that its type does not know.
const TEXTS: u16 = 34;
/// Fields of each of their types, of which the first is given.
const CHAINED: u16 = 54;

/// On each of 64 levels, behind a part, a thousand Vars stand for a constant of records
/// inside each other with texts. It lacks its last leaf, is asked for it from every depth,
/// and gives nothing.
pub fn lacking_their_last_leaf() -> RuleFile {
    let mut file = start(WIDE + TEXTS + 1);
    let name = WIDE + TEXTS;
    let mut chain = record_ty(&mut file, 1, STR);
    let mut inner = record(&mut file, WIDE..WIDE + TEXTS, |file| {
        node(file, Node::Str(0))
    });
    for _ in 0..CHAIN {
        let mut fields: Vec<(u16, u16)> = (1..CHAINED).map(|name| (name, STR)).collect();
        fields.insert(0, (0, chain));
        chain = ty(&mut file, Type::Record(fields));
        let texts = (0..TEXTS).map(|text| (WIDE + text, node(&mut file, Node::Str(0))));
        let mut given: Vec<(u16, u16)> = texts.collect();
        given.push((0, inner));
        inner = node(&mut file, Node::Record(given));
    }
    bind(&mut file, name, Slot::Const(inner));

    let vars = record_ty(&mut file, VARS, chain);
    let mut fields: Vec<(u16, u16)> = (1..5).map(|name| (name, vars)).collect();
    fields.insert(0, (0, INT));
    ty(&mut file, Type::Record(fields));
    let part = node(&mut file, Node::Int(7));
    let mut given = vec![(0, part)];
    for field in 1..5 {
        given.push((
            field,
            record(&mut file, 0..VARS, |file| node(file, Node::Var(name))),
        ));
    }
    node(&mut file, Node::Record(given));
    all_levels(file)
}

/// On each of 64 levels a thousand Vars stand for four records of 255 pairs each, which
/// their type of 255 fields opens without a name in common.
pub fn no_name_in_common() -> RuleFile {
    let mut file = start(2 * WIDE + 1);
    let wide = record_ty(&mut file, WIDE, STR);
    let constant = record_ty(&mut file, 4, wide);
    let vars = record_ty(&mut file, VARS, constant);
    record_ty(&mut file, 4, vars);
    let bound = record(&mut file, 0..4, |file| {
        record(file, WIDE..2 * WIDE, |file| node(file, Node::Str(0)))
    });
    bind(&mut file, 2 * WIDE, Slot::Const(bound));
    records_of_vars(&mut file, 4, VARS, 2 * WIDE);
    all_levels(file)
}

/// On each of 64 levels 480 Accesses read one part of a constant: a thousand records that
/// lack their one text, and so give nothing.
pub fn accesses() -> RuleFile {
    const READS: u16 = 240;
    let mut file = start(WIDE + 1);
    let lacking = record_ty(&mut file, 1, STR);
    let wide = record_ty(&mut file, VARS, lacking);
    let part = record_ty(&mut file, 4, wide);
    let reads = record_ty(&mut file, READS, part);
    record_ty(&mut file, 2, reads);
    let part = record(&mut file, 0..4, |file| {
        record(file, 0..VARS, |file| node(file, Node::Record(vec![])))
    });
    let bound = node(&mut file, Node::Record(vec![(0, part)]));
    bind(&mut file, WIDE, Slot::Const(bound));
    record(&mut file, 0..2, |file| {
        record(file, 0..READS, |file| {
            let base = node(file, Node::Var(WIDE));
            node(file, Node::KeyAccess(0, base))
        })
    });
    all_levels(file)
}

/// On each of 64 levels 80 Vars stand for a constant that is opened and reports one union
/// value without a pair, beside 1,750 records that give nothing.
pub fn reports() -> RuleFile {
    const OPENED: u16 = 80;
    const RECORDS: u16 = 7;
    let mut file = start(WIDE + 1);
    let lacking = record_ty(&mut file, 1, STR);
    let union = ty(&mut file, Type::Union(vec![(0, 0, STR)]));
    let wide = record_ty(&mut file, VARS, lacking);
    let mut fields: Vec<(u16, u16)> = (0..RECORDS).map(|name| (name, wide)).collect();
    fields.push((RECORDS, union));
    let constant = ty(&mut file, Type::Record(fields));
    record_ty(&mut file, OPENED, constant);
    let mut given = vec![];
    for name in 0..RECORDS {
        let records = record(&mut file, 0..VARS, |file| node(file, Node::Record(vec![])));
        given.push((name, records));
    }
    given.push((RECORDS, node(&mut file, Node::Record(vec![]))));
    let bound = node(&mut file, Node::Record(given));
    bind(&mut file, WIDE, Slot::Const(bound));
    record(&mut file, 0..OPENED, |file| node(file, Node::Var(WIDE)));
    all_levels(file)
}

/// A chain of 255 records, each of which some name stands for; on each of 64 levels 360
/// Accesses read a part of one constant more, 750 records that lack their one text.
pub fn rows_used_up() -> RuleFile {
    const READS: u16 = 120;
    let mut file = start(WIDE + 256);
    let lacking = record_ty(&mut file, 1, STR);
    let wide = record_ty(&mut file, VARS, lacking);
    let part = record_ty(&mut file, 3, wide);
    let reads = record_ty(&mut file, READS, part);
    record_ty(&mut file, 3, reads);
    let mut inner = node(&mut file, Node::Int(0));
    for name in WIDE..WIDE + 255 {
        inner = node(&mut file, Node::Record(vec![(0, inner)]));
        bind(&mut file, name, Slot::Const(inner));
    }
    let part = record(&mut file, 0..3, |file| {
        record(file, 0..VARS, |file| node(file, Node::Record(vec![])))
    });
    let bound = node(&mut file, Node::Record(vec![(0, part)]));
    bind(&mut file, WIDE + 255, Slot::Const(bound));
    record(&mut file, 0..3, |file| {
        record(file, 0..READS, |file| {
            let base = node(file, Node::Var(WIDE + 255));
            node(file, Node::KeyAccess(0, base))
        })
    });
    all_levels(file)
}

/// A name stands for each of 255 records at the top of a constant: 21 inside each other
/// around a tree of 511 pairs of records. 496 types open it, 16 times 31 inside each other;
/// the innermost meets a record without a pair, so that nothing is given and none is refused.
pub fn many_types() -> RuleFile {
    const TREE: u32 = 9;
    let mut file = start(2 + 255);
    for _ in 0..16 {
        let mut of = record_ty(&mut file, 1, INT);
        for _ in 0..30 {
            of = record_ty(&mut file, 2, of);
        }
    }
    let mut layer: Vec<u16> = (0..1 << TREE)
        .map(|_| node(&mut file, Node::Record(vec![])))
        .collect();
    let mut named = vec![];
    while layer.len() > 1 {
        let pairs = layer.chunks(2);
        let above: Vec<u16> = pairs
            .map(|pair| node(&mut file, Node::Record(vec![(0, pair[0]), (1, pair[1])])))
            .collect();
        named.extend(&above);
        layer = above;
    }
    let mut top = layer[0];
    for _ in 0..21 {
        top = node(&mut file, Node::Record(vec![(0, top)]));
        named.push(top);
    }
    for (name, record) in named.iter().rev().take(255).enumerate() {
        bind(&mut file, 2 + name as u16, Slot::Const(*record));
    }
    node(&mut file, Node::Var(2));
    let mut file = all_levels(file);
    file.levels.truncate(1);
    file
}

/// Of 256 comparisons of one Var the first two give both edges; each of the others is with a
/// thousand Vars for a constant of a thousand texts, which has bytes, far more than a plan.
pub fn measured() -> RuleFile {
    let mut file = start(WIDE + 3);
    file.names[TEXT as usize] = vec![0; 255];
    let empty = ty(&mut file, Type::Record(vec![]));
    let wide = record_ty(&mut file, VARS, STR);
    let constant = record_ty(&mut file, 4, wide);
    let vars = record_ty(&mut file, VARS, constant);
    let all = record_ty(&mut file, 4, vars);
    let union = ty(&mut file, Type::Union(vec![(0, 0, empty), (1, 1, all)]));
    record_ty(&mut file, 1, union);
    let bound = record(&mut file, 0..4, |file| {
        record(file, 0..VARS, |file| node(file, Node::Str(TEXT)))
    });
    bind(&mut file, CONSTANT, Slot::Const(bound));
    let payload = records_of_vars(&mut file, 4, VARS, CONSTANT);
    let large = node(&mut file, Node::Record(vec![(1, payload)]));
    let payload = node(&mut file, Node::Record(vec![]));
    let small = node(&mut file, Node::Record(vec![(0, payload)]));
    let left = node(&mut file, Node::Var(ASKING));
    node(&mut file, Node::Record(vec![(0, left)]));
    for (at, op) in [Op::Lt, Op::Gt]
        .into_iter()
        .cycle()
        .take(LIMITS[8])
        .enumerate()
    {
        let right = if at < 2 { small } else { large };
        file.comparisons.push(Comparison { op, left, right });
    }
    let mut file = all_levels(file);
    file.levels.truncate(1);
    file
}

/// On each of 64 levels 78 Vars open seven records of 255 pairs inside each other, for one
/// report from the innermost. Of each record's names one is its type's.
pub fn reported_from_inside() -> RuleFile {
    opened_for_a_report(78, false)
}

/// The same with all names the types', and records without a pair for all but one.
pub fn reported_among_others() -> RuleFile {
    opened_for_a_report(80, true)
}

fn opened_for_a_report(vars: u16, common: bool) -> RuleFile {
    let inside = WIDE - 1;
    let mut file = start(2 * WIDE + 1);
    let mut of = ty(&mut file, Type::Union(vec![(inside, 0, INT)]));
    let others = if common {
        record_ty(&mut file, WIDE, INT)
    } else {
        INT
    };
    let mut held = node(&mut file, Node::Record(vec![]));
    for _ in 0..7 {
        let mut fields: Vec<(u16, u16)> = (0..inside).map(|name| (name, others)).collect();
        fields.push((inside, of));
        of = ty(&mut file, Type::Record(fields));
        let mut given: Vec<(u16, u16)> = (0..inside)
            .rev()
            .map(|name| match common {
                true => (name, node(&mut file, Node::Record(vec![]))),
                false => (WIDE + name, node(&mut file, Node::Bytes(vec![]))),
            })
            .collect();
        given.push((inside, held));
        held = node(&mut file, Node::Record(given));
    }
    bind(&mut file, 2 * WIDE, Slot::Const(held));
    record_ty(&mut file, vars, of);
    record(&mut file, 0..vars, |file| node(file, Node::Var(2 * WIDE)));
    all_levels(file)
}

/// The first level makes 500 bindings; on each of the others 1,500 Vars stand for a record
/// that lacks its text, and so are none of them. Their name has the number 0, whose bytes
/// stand in every binding that is made, but not where its name is.
pub fn made_bindings() -> RuleFile {
    const MADE: u16 = 2 * VARS;
    let mut file = start(MADE + 1);
    let texts = record_ty(&mut file, VARS, STR);
    let making = record_ty(&mut file, 2, texts);
    let lacking = record_ty(&mut file, 1, STR);
    let vars = record_ty(&mut file, VARS, lacking);
    record_ty(&mut file, 6, vars);
    let empty = node(&mut file, Node::Record(vec![]));
    bind(&mut file, 0, Slot::Const(empty));

    let mut halves = vec![];
    for half in 0..2 {
        let new = |at| Node::Var(1 + half * VARS + at);
        let fields = (0..VARS).map(|at| (at, node(&mut file, new(at)))).collect();
        halves.push((half, node(&mut file, Node::Record(fields))));
    }
    let first = node(&mut file, Node::Record(halves));
    records_of_vars(&mut file, 6, VARS, 0);
    let mut file = all_levels(file);
    file.predicates.push(predicate(making as usize));
    file.levels[0] = level(1, first as usize, 0);
    file
}

/// A register that no level fills.
const ROW: u16 = 100;

fn fetch(file: &mut RuleFile, path: Path) {
    file.fetched.push(Fetched {
        address: ROW,
        path,
        register: ROW,
    });
}

/// On each of 64 levels a chain of 2,000 reads, each through a reference that is the last
/// of 256 fetched ones.
pub fn chains() -> RuleFile {
    let mut file = start(2);
    let reference = ty(&mut file, Type::Fact(0));
    record_ty(&mut file, 1, reference);
    bind(&mut file, 1, Slot::Row(ROW, 0));
    for field in (0..LIMITS[6] as u16).rev() {
        fetch(
            &mut file,
            Path {
                field,
                steps: vec![],
            },
        );
    }
    let mut last = node(&mut file, Node::Var(1));
    for _ in 0..2_000 {
        last = node(&mut file, Node::KeyAccess(0, last));
    }
    node(&mut file, Node::Record(vec![(0, last)]));
    all_levels(file)
}

/// On each of 64 levels a whole key is read through a chain of 990 references, each a field
/// of a field and found last of 256 fetched ones that differ in their one step, and the last
/// of 254 fields.
pub fn chains_of_one_step() -> RuleFile {
    const OTHERS: u16 = 253;
    let mut file = start(2 * WIDE + 2);
    let (base, reference) = (2 * WIDE, 2 * WIDE + 1);
    let others = |last: u16| {
        let mut fields: Vec<(u16, u16)> = (WIDE..WIDE + OTHERS).map(|name| (name, INT)).collect();
        fields.push((reference, last));
        Type::Record(fields)
    };
    let fact = ty(&mut file, Type::Fact(1));
    let held = ty(&mut file, others(fact));
    let row = ty(&mut file, others(held));
    record_ty(&mut file, WIDE, INT);
    bind(&mut file, base, Slot::Row(ROW, 1));
    for last in (0..LIMITS[6] as u32).rev() {
        let steps = vec![u32::from(OTHERS) + 1_000 * last];
        fetch(
            &mut file,
            Path {
                field: OTHERS,
                steps,
            },
        );
    }
    let mut last = node(&mut file, Node::Var(base));
    for _ in 0..2 * 990 {
        last = node(&mut file, Node::KeyAccess(reference, last));
    }
    let mut file = all_levels(file);
    file.predicates.push(predicate(row as usize));
    file
}

/// Fetched entries of the file that follows: so many that it still fits.
const PATHS: u32 = 220;

/// On each of 64 levels a key of 255 fields is read whole through a reference, the last of
/// 220 fetched ones whose paths of 31 steps differ in their last. The row's key has other
/// fields, so that nothing is written.
pub fn whole_key() -> RuleFile {
    let mut file = start(2 * WIDE);
    let reference = ty(&mut file, Type::Fact(1));
    let others = (WIDE..2 * WIDE).map(|name| (name, STR)).collect();
    let other = ty(&mut file, Type::Record(others));
    record_ty(&mut file, WIDE, STR);
    let path = |last: u32| {
        let mut steps = vec![0; MAX_STEPS - 1];
        steps.push(last);
        Path { field: 0, steps }
    };
    bind(&mut file, 0, Slot::Field(ROW, path(0), reference));
    (0..PATHS)
        .rev()
        .for_each(|last| fetch(&mut file, path(last)));
    node(&mut file, Node::Var(0));
    let mut file = all_levels(file);
    file.predicates.push(predicate(other as usize));
    file
}

/// Unions of 255 alternatives, as many as there is room for in 22 KB, whose names and discs
/// fall. The one level is a Wildcard.
pub fn falling_discs() -> RuleFile {
    let mut file = start(WIDE);
    let alternatives: Vec<(u16, u32, u16)> = (0..WIDE)
        .rev()
        .map(|name| (name, u32::from(name), STR))
        .collect();
    for _ in 0..10 {
        ty(&mut file, Type::Union(alternatives.clone()));
    }
    node(&mut file, Node::Wildcard);
    let mut file = all_levels(file);
    file.levels.truncate(1);
    file
}

#[cfg(test)]
mod tests {
    use super::*;
    use oracle::nodes::dropped;
    use oracle::plan::{Part, Plan, Seek};
    use oracle::reread::form;
    use oracle::write::write;
    use oracle::{HAS_BODIES, compile_base, front, on_large_stack};
    use sinalvento::Buffers;

    fn plan(file: &RuleFile) -> Plan {
        let (bytes, mut buffers) = (write(file), Buffers::new());
        let plan = sinalvento::compile(&bytes, &mut buffers).expect("it is accepted");
        form(plan).expect("a compiled plan has its form")
    }

    /// With its first levels alone, and of constraints and comparisons the first ones.
    fn cut(mut file: RuleFile, levels: usize, asked: usize) -> RuleFile {
        file.levels.truncate(levels);
        file.constraints.truncate(asked);
        file.comparisons.truncate(asked);
        file
    }

    fn is_constant_name(file: &RuleFile, node: u16) -> bool {
        let Node::Var(name) = file.nodes[node as usize] else {
            return false;
        };
        let mut bound = file.bindings.iter();
        bound.any(|bound| bound.name == name && matches!(bound.slot, Slot::Const(_)))
    }

    /// How many Vars for a constant stand below a node, through records alone.
    fn constants_below(file: &RuleFile, node: u16) -> usize {
        match &file.nodes[node as usize] {
            Node::Record(fields) => fields
                .iter()
                .map(|(_, child)| constants_below(file, *child))
                .sum(),
            _ => usize::from(is_constant_name(file, node)),
        }
    }

    #[test]
    fn files_are_small_and_pass_the_checks() {
        for (file, levels) in [
            (constraints_and_comparisons(), 1),
            (lacking_their_last_leaf(), 64),
            (union_values(), 64),
            (no_name_in_common(), 64),
            (accesses(), 64),
            (reports(), 64),
            (made_bindings(), 64),
            (rows_used_up(), 64),
            (many_types(), 1),
            (measured(), 1),
            (reported_from_inside(), 64),
            (reported_among_others(), 64),
            (chains(), 64),
            (chains_of_one_step(), 64),
            (falling_discs(), 1),
        ] {
            let bytes = write(&file);
            assert!(bytes.len() < 22_000, "{}", bytes.len());
            assert!(front(&bytes, MIN_WORK).is_ok());
            assert_eq!(file.levels.len(), levels);
        }
        let bytes = write(&whole_key());
        assert!((31_000..=MAX_FILE).contains(&bytes.len()));
        assert!(front(&bytes, MIN_WORK).is_ok());
    }

    #[test]
    fn constraints_and_comparisons_ask_one_record_of_vars() {
        for (file, records, given) in [
            (constraints_and_comparisons(), 4, 4),
            (union_values(), 1, 2),
        ] {
            let asked = file.constraints[0].node;
            assert_eq!(file.constraints.len(), LIMITS[7]);
            assert_eq!(file.comparisons.len(), LIMITS[8]);
            assert!(file.constraints.iter().all(|entry| entry.node == asked));
            assert!(file.comparisons.iter().all(|entry| entry.right == asked));
            let Node::Record(fields) = &file.nodes[asked as usize] else {
                panic!("a record");
            };
            assert_eq!(fields.len(), given);
            let vars = records * usize::from(ASKED);
            assert_eq!(constants_below(&file, asked), vars);
        }
    }

    #[test]
    fn what_is_asked_gives_no_bytes() {
        let once = plan(&cut(constraints_and_comparisons(), 1, 1));
        assert_eq!(once.levels[0].entries() + once.levels[0].folded.len(), 0);
        let codes: Vec<u8> = once.diagnostics.iter().map(|(_, code)| *code).collect();
        assert_eq!((codes, once.bindings.len()), (vec![8], 2));

        let once = plan(&cut(union_values(), 1, 1));
        assert_eq!((once.levels[0].parts, once.levels[0].entries()), (1, 1));
        let codes: Vec<u8> = once.diagnostics.iter().map(|(_, code)| *code).collect();
        assert_eq!((codes, once.bindings.len()), (vec![8], 2));
    }

    #[test]
    fn the_first_two_comparisons_are_taken() {
        let once = plan(&measured());
        assert_eq!(once.levels[0].folded, vec![0, 1]);
    }

    #[test]
    fn vars_for_constants_give_nothing() {
        for (file, parts, vars) in [
            (lacking_their_last_leaf(), 1, 1_000),
            (no_name_in_common(), 0, 1_000),
        ] {
            assert_eq!(constants_below(&file, file.levels[0].node), vars);
            let plan = plan(&cut(file, 1, 0));
            assert_eq!(
                (plan.levels[0].parts, plan.levels[0].entries()),
                (parts, parts)
            );
            assert!(plan.bindings.is_empty() && plan.diagnostics.is_empty());
        }
    }

    #[test]
    fn what_is_read_gives_nothing_and_what_is_opened_reports() {
        let read = plan(&cut(accesses(), 1, 0));
        assert_eq!((read.levels[0].entries(), read.diagnostics.len()), (0, 0));
        let read = plan(&cut(rows_used_up(), 1, 0));
        assert_eq!((read.levels[0].entries(), read.diagnostics.len()), (0, 0));
        let read = plan(&cut(many_types(), 1, 0));
        assert_eq!((read.levels[0].entries(), read.diagnostics.len()), (0, 0));
        let read = plan(&cut(chains_of_one_step(), 1, 0));
        assert_eq!((read.levels[0].entries(), read.diagnostics.len()), (0, 0));
        for (file, reports) in [(reported_from_inside(), 78), (reported_among_others(), 80)] {
            let opened = plan(&cut(file, 1, 0));
            let codes: Vec<u8> = opened.diagnostics.iter().map(|(_, code)| *code).collect();
            assert_eq!((opened.levels[0].entries(), codes), (0, vec![9; reports]));
        }
        let opened = plan(&cut(reports(), 1, 0));
        let codes: Vec<u8> = opened.diagnostics.iter().map(|(_, code)| *code).collect();
        assert_eq!((opened.levels[0].entries(), codes), (0, vec![9; 80]));
    }

    /// On what `bench worst` compares in full, if it can wait for the Rust.
    #[test]
    fn the_original_bodies_agree() {
        if !HAS_BODIES {
            return;
        }
        for file in [
            cut(constraints_and_comparisons(), 1, 1),
            cut(lacking_their_last_leaf(), 1, 0),
            cut(union_values(), 1, 1),
            cut(no_name_in_common(), 1, 0),
            cut(accesses(), 1, 0),
            cut(reports(), 1, 0),
            made_bindings(),
            cut(chains(), 1, 0),
            whole_key(),
            falling_discs(),
        ] {
            let bytes = write(&file);
            let mut buffers = Buffers::new();
            let plan = sinalvento::compile(&bytes, &mut buffers).expect("it is accepted");
            let base = on_large_stack(move || compile_base(&bytes, MAX_PLAN, MIN_WORK));
            assert_eq!(dropped(plan), base);
        }
    }

    #[test]
    fn types_go_to_the_limit() {
        let depths = depths(&lacking_their_last_leaf().types);
        assert_eq!(depths.into_iter().max(), Some(MAX_DEPTH));
    }

    #[test]
    fn bindings_are_made_once() {
        let file = made_bindings();
        assert_eq!(constants_below(&file, file.levels[1].node), 1_500);
        let plan = plan(&file);
        assert_eq!(plan.bindings.len(), 500);
        assert!(plan.levels.iter().all(|level| level.entries() == 0));
        assert!(plan.diagnostics.is_empty());
    }

    #[test]
    fn chains_end_in_a_register_field() {
        let (file, plan) = (chains(), plan(&chains()));
        assert_eq!(file.fetched.len(), LIMITS[6]);
        let reads = file
            .nodes
            .iter()
            .filter(|node| matches!(node, Node::KeyAccess(..)));
        assert_eq!(reads.count(), 2_000);
        for level in &plan.levels {
            let Seek::Composite(parts) = &level.seek else {
                panic!("a part that is read");
            };
            assert!(matches!(parts[..], [Part::RegisterField(ROW, _)]));
        }
    }

    #[test]
    fn a_whole_key_without_its_fields_gives_nothing() {
        let (file, plan) = (whole_key(), plan(&whole_key()));
        assert!(
            file.fetched
                .iter()
                .all(|entry| entry.path.steps.len() == MAX_STEPS)
        );
        let last = &file.fetched[PATHS as usize - 1].path;
        assert!(matches!(&file.bindings[0].slot, Slot::Field(ROW, path, _) if path == last));
        assert!(plan.levels.iter().all(|level| level.entries() == 0));
        assert!(plan.diagnostics.is_empty() && plan.bindings.is_empty());
    }

    #[test]
    fn discs_fall() {
        let file = falling_discs();
        let unions: Vec<_> = file
            .types
            .iter()
            .filter_map(|ty| match ty {
                Type::Union(alternatives) => Some(alternatives),
                _ => None,
            })
            .collect();
        assert_eq!(unions.len(), 10);
        for alternatives in unions {
            assert_eq!(alternatives.len(), usize::from(WIDE));
            assert!(alternatives.is_sorted_by(|one, next| one.1 > next.1));
        }
        assert_eq!(plan(&file).levels[0].entries(), 0);
    }
}
