//! The node of each entry, as request [2] of document 02 has it: a copy of the
//! bodies says at each placing which node makes it (build/note.rs).

use std::cell::RefCell;

use crate::file::RuleFile;
use crate::plan::Plan;

/// How many entries a level has of each kind, in the order of a plan: parts, range,
/// guide, residuals.
pub type Placed = [usize; 4];

/// The nodes of the levels that are ended, those of the level at hand, and the node
/// of the entry that is placed next.
#[derive(Default)]
struct Notes {
    ended: Vec<Vec<u16>>,
    nodes: [Vec<u16>; 4],
    maker: Option<u16>,
}

thread_local! {
    static NOTES: RefCell<Notes> = RefCell::default();
}

impl Notes {
    /// Every entry has a maker, and every maker has made one entry.
    fn settle(&mut self, placed: Placed) {
        for (nodes, count) in self.nodes.iter_mut().zip(placed) {
            if nodes.len() < count {
                nodes.push(self.maker.take().expect("an entry has a maker"));
            }
            assert_eq!(nodes.len(), count, "a maker makes one entry");
        }
        assert_eq!(self.maker, None, "a maker makes an entry");
    }
}

/// The next entry is made by this node, in a level with these entries.
pub fn making(node: u16, placed: Placed) {
    NOTES.with_borrow_mut(|notes| {
        notes.settle(placed);
        notes.maker = Some(node);
    });
}

/// A level is ended, with these entries.
pub fn ended(placed: Placed) {
    NOTES.with_borrow_mut(|notes| {
        notes.settle(placed);
        let nodes = std::mem::take(&mut notes.nodes);
        notes.ended.push(nodes.concat());
    });
}

/// The plan of a checked file with its nodes.
pub fn noted(file: &RuleFile, fuel: u64) -> Plan {
    // A walk that ran out of fuel leaves some.
    NOTES.take();
    let mut plan = crate::bodies::noted::walk(file, fuel);
    let Notes { ended, .. } = NOTES.take();
    assert_eq!(ended.len(), plan.levels.len());
    for (level, nodes) in plan.levels.iter_mut().zip(ended) {
        level.nodes = nodes;
    }
    plan
}
