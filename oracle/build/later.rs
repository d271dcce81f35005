//! The cut text as document 02 changes it: the reference of the files of which a
//! request says that the original no longer is (docs/ORACLE.md). The copy that notes
//! the nodes and the mistakes are made from it.

use crate::cut::{Cut, Item, include};
use crate::mutate::{Edit, ONLY, edit, edited};

const EDITS: &[Edit] = &[
    // [8]: where the original reports a field of the level's own row. What it does
    // then is never reached.
    edit(
        "matched",
        "*from == address {",
        ONLY,
        "*from == address { level.own_row(path, at, address); return;",
    ),
    // [7]: a Const that gives no bytes, before it is opened; and a Const that is a whole
    // key, before its fields are asked for.
    edit(
        "matched",
        "self.partial(",
        ONLY,
        "self.literal(*folded, ty).partial(",
    ),
    edit(
        "whole_key",
        "for (idx",
        ONLY,
        "self.literal_key(&slot); for (idx",
    ),
];

/// The pieces with these edits. A module of them ends in [`help`].
pub fn changed(cut: &Cut) -> Cut {
    let all = |items: &[Item]| items.iter().map(one).collect();
    Cut {
        items: all(&cut.items),
        methods: all(&cut.methods),
    }
}

fn one(item: &Item) -> Item {
    let mut item = item.clone();
    for edit in EDITS {
        item.text = edited(&item, edit);
    }
    item
}

pub fn help() -> String {
    include("/src/later_help.rs")
}
