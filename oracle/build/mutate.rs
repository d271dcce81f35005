//! Mistakes put into copies of the text as document 02 changes it, to see that the
//! files find them. An edit names a function and a few tokens in it; they are kept
//! as short as telling them apart allows.

use crate::cut::{Cut, Item, include};
use crate::later;

pub struct Edit {
    pub function: &'static str,
    pub old: &'static str,
    /// Which occurrence, of how many: another count means the source changed.
    pub which: (usize, usize),
    pub new: &'static str,
}

pub const fn edit(
    function: &'static str,
    old: &'static str,
    which: (usize, usize),
    new: &'static str,
) -> Edit {
    Edit {
        function,
        old,
        which,
        new,
    }
}

pub struct Mutant {
    pub name: &'static str,
    pub what: &'static str,
    edit: Edit,
}

const fn mutant(
    name: &'static str,
    what: &'static str,
    function: &'static str,
    old: &'static str,
    which: (usize, usize),
    new: &'static str,
) -> Mutant {
    Mutant {
        name,
        what,
        edit: edit(function, old, which, new),
    }
}

pub const ONLY: (usize, usize) = (1, 1);
const FALL: &str = "level.building = false";
const BUILDING: &str = "if level.building {";
const OWN_ROW: &str = "level.own_row(path, at, address)";
const LITERAL: &str = "self.literal(*folded, ty)";
const UNBOUND: &str = "self.lookup(*symbol).is_none()";

/// The first sixteen are the mistakes that must be found; the others are more of
/// their kind. A mutant that no file can show is left out: what `whole_key`
/// does to building before it returns is seen by nothing after it.
pub const MUTANTS: &[Mutant] = &[
    mutant(
        "seen_2",
        "a mistyped Prefix pattern in `field` ends building",
        "field",
        "None => self.report",
        ONLY,
        "None => self.falling(level).report",
    ),
    mutant(
        "seen_3",
        "a closer after a payload that ended building",
        "inject",
        "open && level.building",
        ONLY,
        "open",
    ),
    mutant(
        "seen_4_hi",
        "the last upper comparison is taken",
        "bound",
        "level.hi.is_none()",
        ONLY,
        "true",
    ),
    mutant(
        "seen_4_lo",
        "the last lower comparison is taken",
        "bound",
        "level.lo.is_none()",
        ONLY,
        "true",
    ),
    mutant(
        "seen_5",
        "a second guide replaces the first",
        "narrow_by",
        "attachable && level.guide.is_none()",
        ONLY,
        "attachable",
    ),
    mutant(
        "last_comparison",
        "the last comparison of either sense, by going backwards",
        "bound",
        ".iter().enumerate()",
        ONLY,
        ".iter().enumerate().rev()",
    ),
    mutant(
        "second_guide",
        "a guide after the fall where a guide stands",
        "narrow_by",
        "if attachable &&",
        ONLY,
        "if level.guide.is_some() || attachable &&",
    ),
    mutant(
        "part_after_fall_bytes",
        "bytes are a part after the fall",
        "narrow_by",
        BUILDING,
        (1, 2),
        "if true {",
    ),
    mutant(
        "part_after_fall_tag",
        "a tag is a part after the fall",
        "narrow_by_tag",
        BUILDING,
        ONLY,
        "if true {",
    ),
    mutant(
        "part_after_fall_field",
        "a register field is a part after the fall",
        "matched",
        BUILDING,
        (1, 2),
        "if true {",
    ),
    mutant(
        "part_after_fall_row",
        "a fact id is a part after the fall",
        "matched",
        BUILDING,
        (2, 2),
        "if true {",
    ),
    mutant(
        "lost_closer",
        "no closer is ever made",
        "inject",
        "open && level.building",
        ONLY,
        "false",
    ),
    mutant(
        "lost_inner_closer",
        "no closer once four parts stand",
        "inject",
        "open && level.building",
        ONLY,
        "open && level.building && level.parts.len() < 4",
    ),
    mutant(
        "rebinding_field",
        "a bound name is bound anew in `field`",
        "field",
        UNBOUND,
        ONLY,
        "!matches!(self.lookup(*symbol), Some(Slot::Const(_)))",
    ),
    mutant(
        "rebinding_key",
        "a bound name is bound anew in `whole_key`",
        "whole_key",
        UNBOUND,
        ONLY,
        "!matches!(self.lookup(*symbol), Some(Slot::Const(_)))",
    ),
    mutant(
        "rebinding_late",
        "a name that a level bound is bound anew",
        "field",
        UNBOUND,
        ONLY,
        "self.lookup(*symbol).is_none_or(|slot| matches!(slot, Slot::Field { address: at, .. } if at == address))",
    ),
    mutant(
        "op_not_flipped",
        "a Var on the right keeps the op",
        "bound",
        ".flipped()",
        ONLY,
        "",
    ),
    mutant(
        "ge_exclusive",
        "Ge is exclusive",
        "bound",
        "CompareOp::Le | CompareOp::Ge",
        ONLY,
        "CompareOp::Le",
    ),
    mutant(
        "bound_after_fall",
        "edges after the fall",
        "bound",
        "!level.building",
        ONLY,
        "false",
    ),
    mutant(
        "first_binding",
        "`lookup` takes a name's first entry",
        "lookup",
        ".rev()",
        ONLY,
        "",
    ),
    mutant(
        "last_hoisted",
        "the last hoisted entry decides",
        "hoisted_slot",
        ".find(",
        ONLY,
        ".rfind(",
    ),
    mutant(
        "last_fetched",
        "the last fetched entry decides",
        "fetched_register",
        ".find(",
        ONLY,
        ".rfind(",
    ),
    mutant(
        "fetched_any_path",
        "a fetched entry of another path",
        "fetched_register",
        "&& at == path",
        ONLY,
        "",
    ),
    mutant(
        "last_pattern",
        "the last pattern of a name",
        "field_pattern",
        ".find(",
        ONLY,
        ".rfind(",
    ),
    mutant(
        "select_payload",
        "a select records the payload's path",
        "resolve",
        "path.clone(), alt.disc",
        ONLY,
        "path.payload(alt.disc), alt.disc",
    ),
    mutant(
        "rank_prefix_fuzzy",
        "a prefix Fuzzy before a Prefix",
        "constrain",
        "=> 3",
        ONLY,
        "=> 0",
    ),
    mutant(
        "rank_whole_fuzzy",
        "a whole Fuzzy after a prefix Fuzzy",
        "constrain",
        "=> 2",
        ONLY,
        "=> 4",
    ),
    mutant(
        "rank_prefix",
        "a Prefix with the others",
        "constrain",
        "=> 1",
        ONLY,
        "=> 0",
    ),
    mutant(
        "mistyped_constraint",
        "a mistyped constraint leaves building",
        "constrain",
        FALL,
        (2, 2),
        "",
    ),
    mutant(
        "capture",
        "a capture without constraints leaves building",
        "constrain",
        FALL,
        (1, 2),
        "",
    ),
    mutant(
        "wildcard",
        "a Wildcard leaves building",
        "field",
        FALL,
        (1, 4),
        "{}",
    ),
    mutant(
        "disjunction",
        "a Disjunction leaves building",
        "field",
        FALL,
        (2, 4),
        "",
    ),
    mutant(
        "never",
        "a Never leaves building",
        "field",
        FALL,
        (3, 4),
        "",
    ),
    mutant(
        "unresolved",
        "an unresolved read leaves building",
        "field",
        FALL,
        (4, 4),
        "",
    ),
    mutant(
        "derived",
        "a Derived slot leaves building",
        "matched",
        FALL,
        (1, 2),
        "",
    ),
    mutant(
        "whole_key_slot",
        "a Key slot leaves building",
        "matched",
        FALL,
        (2, 2),
        "",
    ),
    mutant(
        "arity",
        "a wrong arity leaves building",
        "inject",
        FALL,
        (1, 2),
        "",
    ),
    mutant(
        "alternative",
        "an unknown alternative leaves building",
        "inject",
        FALL,
        (2, 2),
        "",
    ),
    mutant(
        "whole_missing",
        "a whole key's missing field leaves building",
        "whole_key",
        FALL,
        (4, 4),
        "",
    ),
    mutant(
        "missing_field",
        "a missing field leaves building",
        "key",
        FALL,
        ONLY,
        "{}",
    ),
    mutant(
        "partial_skip",
        "`partial` leaves building",
        "partial",
        FALL,
        ONLY,
        "",
    ),
    mutant(
        "guide_any_range",
        "a guide beside a range of another path",
        "narrow_by",
        "== Some(path)",
        ONLY,
        ".is_some()",
    ),
    mutant(
        "any_row",
        "a Row of any predicate",
        "matched",
        "Some(*referenced) == *predicate",
        ONLY,
        "{ let _ = referenced; true }",
    ),
    mutant(
        "whole_prefix",
        "a Prefix keeps its last byte",
        "constant",
        "out.pop()?;",
        ONLY,
        "",
    ),
    mutant(
        "prefix_in_record",
        "a Prefix inside a record or union is bytes",
        "constant",
        "Const::Bytes(bytes) =>",
        (1, 2),
        "Const::Bytes(bytes) | Const::Prefix(bytes) =>",
    ),
    mutant(
        "no_record_mark",
        "a constant record without its first byte",
        "constant",
        "vec![MARK_RECORD]",
        ONLY,
        "vec![]",
    ),
    mutant(
        "const_not_opened",
        "a Const without bytes is not opened",
        "matched",
        ".partial(",
        ONLY,
        ".not_opened(",
    ),
    mutant(
        "reported_twice",
        "an explained read is reported again",
        "field",
        "self.diagnostics.len() == mark && ",
        ONLY,
        "",
    ),
    mutant(
        "deferred_reported",
        "a Subquery is reported",
        "field",
        "&& !deferred",
        ONLY,
        "",
    ),
    mutant(
        "own_row_open",
        "equal fields of one row leave building on",
        "matched",
        OWN_ROW,
        ONLY,
        "let open = level.building; level.own_row(path, at, address); level.building = open",
    ),
    mutant(
        "own_row_part",
        "equal fields of one row are a part while building",
        "matched",
        OWN_ROW,
        ONLY,
        "level.own_row_part(path, at, address)",
    ),
    mutant(
        "own_row_passed",
        "equal fields of one row narrow nothing",
        "matched",
        OWN_ROW,
        ONLY,
        "level.building = false",
    ),
    mutant(
        "own_row_swapped",
        "equal fields of one row with their paths exchanged",
        "matched",
        OWN_ROW,
        ONLY,
        "level.own_row(at, path, address)",
    ),
    mutant(
        "own_row_itself",
        "a field that is to equal itself is passed over",
        "matched",
        OWN_ROW,
        ONLY,
        "if path != at { level.own_row(path, at, address) }",
    ),
    mutant(
        "own_row_reported",
        "equal fields of one row are reported too",
        "matched",
        "address); return;",
        ONLY,
        "address);",
    ),
    mutant(
        "literal_passed",
        "a Const without bytes is never refused in `matched`",
        "matched",
        LITERAL,
        ONLY,
        "self",
    ),
    mutant(
        "literal_records",
        "a record at a record is refused where it has no bytes",
        "matched",
        LITERAL,
        ONLY,
        "self.refused()",
    ),
    mutant(
        "literal_of_record",
        "a record is opened whatever the type is",
        "matched",
        LITERAL,
        ONLY,
        "self.literal_unless(self.is_record(*folded))",
    ),
    mutant(
        "literal_at_record",
        "any constant is opened at a record",
        "matched",
        LITERAL,
        ONLY,
        "self.literal_unless(matches!(ty, PredicateTy::Record(_)))",
    ),
    mutant(
        "literal_key_passed",
        "a whole key's Const is not looked at itself",
        "whole_key",
        "self.literal_key(&slot);",
        ONLY,
        "",
    ),
    mutant(
        "literal_key_of_fields",
        "a whole key's Const is looked at where the key has fields",
        "whole_key",
        "self.literal_key(&slot);",
        ONLY,
        "if !field_tys.is_empty() { self.literal_key(&slot); }",
    ),
    mutant(
        "literal_union",
        "a Record that is written at a union is refused where it has no bytes",
        "field",
        "self.inject(",
        ONLY,
        "self.literal_without_bytes(node, ty).inject(",
    ),
    mutant(
        "literal_constraint",
        "a constraint of the wrong kind is refused",
        "constrain",
        "self.report(",
        ONLY,
        "self.literal_without_bytes(pattern, ty).report(",
    ),
    mutant(
        "literal_prefix",
        "a Prefix or Fuzzy of the wrong kind is refused",
        "field",
        "None => self.report",
        ONLY,
        "None => self.refused().report",
    ),
    mutant(
        "payload_path",
        "a payload has its union's path",
        "inject",
        "path.payload(alt.disc)",
        ONLY,
        "path",
    ),
];

/// A mutant's module.
pub fn module(cut: &Cut, mutant: &Mutant) -> String {
    let mut text = cut.module(|item| edited(item, &mutant.edit));
    text.push_str(&later::help());
    text.push_str(&include("/src/mutant_help.rs"));
    text
}

pub fn edited(item: &Item, edit: &Edit) -> String {
    if item.name != format!("fn {}", edit.function) {
        return item.text.clone();
    }
    let (which, of) = edit.which;
    let found: Vec<usize> = item
        .text
        .match_indices(edit.old)
        .map(|(at, _)| at)
        .collect();
    assert_eq!(found.len(), of, "`{}` in `{}`", edit.old, edit.function);
    let at = found[which - 1];
    let (before, after) = (&item.text[..at], &item.text[at + edit.old.len()..]);
    format!("{before}{}{after}", edit.new)
}
