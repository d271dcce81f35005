//! A copy of the text as document 02 changes it that says, before each placing,
//! which node makes it: the one that request [2] names (docs/DECISIONS.md).

use crate::cut::{Cut, include};
use crate::later;
use crate::mutate::{Edit, ONLY, edit, edited};

const NARROW: &str = "Self::narrow_by(constant, path, level)";
const BUILDING: &str = "if level.building {";
const BY_NODE: &str = "{ level.made_by(node); Self::narrow_by(constant, path, level) }";

/// Each placing of the text stands behind one of these; `noted.rs` finds an entry
/// without a maker, and a maker without an entry.
const EDITS: &[Edit] = &[
    edit("field", NARROW, ONLY, BY_NODE),
    // The slot's own entries: `node` stands for the slot.
    edit(
        "matched",
        "level.own_row(",
        ONLY,
        "level.made_by(node); level.own_row(",
    ),
    edit(
        "matched",
        BUILDING,
        (1, 2),
        "level.made_by(node); if level.building {",
    ),
    edit(
        "matched",
        BUILDING,
        (2, 2),
        "level.made_by(node); if level.building {",
    ),
    edit("matched", NARROW, ONLY, BY_NODE),
    edit(
        "whole_key",
        "self.matched(\n                node,",
        ONLY,
        "self.matched(\n                of_whole_key(node, &field),",
    ),
    // A union: its whole value, its tag, its closer.
    edit(
        "inject",
        "Self::narrow_by(constant, path, level);",
        ONLY,
        "level.made_by(node); Self::narrow_by(constant, path, level);",
    ),
    edit(
        "inject",
        "Self::narrow_by_tag(",
        ONLY,
        "level.made_by(node); Self::narrow_by_tag(",
    ),
    edit(
        "inject",
        "if open && level.building {",
        ONLY,
        "if open && level.building { level.made_by(node);",
    ),
    edit(
        "constrain",
        NARROW,
        ONLY,
        "{ level.made_by(pattern); Self::narrow_by(constant, path, level) }",
    ),
];

pub fn module(cut: &Cut) -> String {
    let mut text = cut.module(|item| {
        let mut item = item.clone();
        for edit in EDITS {
            item.text = edited(&item, edit);
        }
        // A level's seek is asked for once, when the level is ended.
        if item.name == "impl SeekBuilder" {
            let start = "fn seek_key(&self) -> SeekKey {";
            assert_eq!(item.text.matches(start).count(), 1);
            item.text = item.text.replace(start, &format!("{start} self.ended();"));
        }
        item.text
    });
    text.push_str(&later::help());
    text.push_str(&include("/src/note_help.rs"));
    text
}
