//! Which nodes can be written inside their parents, and in what order statements
//! stand, so that a parser numbers the nodes as the file does.
//!
//! A parser numbers a pattern's nodes children first, one after the other. So a
//! child is written inside its parent where its whole tree ends just below what
//! follows it there; else it stands by itself, and the parent refers to it.

use super::MAX_NESTING;
use crate::rules::{RuleFile, Slot};

/// The nodes as trees. Each tree takes the numbers from its first node to its root.
pub(super) struct Trees {
    /// For each node, for each of its children: whether it is written inside.
    pub inside: Vec<Vec<bool>>,
    /// The roots, in order, each with its first node.
    roots: Vec<(usize, usize)>,
    count: usize,
}

/// How deep a pattern that is shown by itself goes.
const SHOWN_DEPTH: usize = 16;

impl Trees {
    /// Every child inside the first parent that names it, for patterns that are
    /// shown and not parsed again. What lies too deep, or not below its parent,
    /// stays outside.
    pub fn shown(rules: &RuleFile) -> Self {
        let count = rules.nodes.len();
        let (mut depth, mut owned) = (vec![1; count], vec![false; count]);
        let mut inside = Vec::with_capacity(count);
        for (number, node) in rules.nodes.iter().enumerate() {
            let mut within = vec![];
            for child in node.children().into_iter().map(usize::from) {
                let fits = child < number && !owned[child] && depth[child] < SHOWN_DEPTH;
                if fits {
                    owned[child] = true;
                    depth[number] = depth[number].max(depth[child] + 1);
                }
                within.push(fits);
            }
            inside.push(within);
        }
        Self {
            inside,
            roots: vec![],
            count,
        }
    }

    pub fn of(rules: &RuleFile) -> Self {
        let count = rules.nodes.len();
        let (mut first, mut depth) = (vec![0; count], vec![1; count]);
        let mut owned = vec![false; count];
        let mut inside = Vec::with_capacity(count);
        for (number, node) in rules.nodes.iter().enumerate() {
            let children = node.children();
            let mut within = vec![false; children.len()];
            let mut start = number;
            for (at, &child) in children.iter().enumerate().rev() {
                let child = usize::from(child);
                if child + 1 == start && depth[child] + 2 < MAX_NESTING {
                    within[at] = true;
                    owned[child] = true;
                    start = first[child];
                    depth[number] = depth[number].max(depth[child] + 1);
                }
            }
            first[number] = start;
            inside.push(within);
        }
        let roots = (0..count).filter(|&node| !owned[node]);
        Self {
            inside,
            roots: roots.map(|node| (first[node], node)).collect(),
            count,
        }
    }
}

/// A statement that may hold patterns, by its section and number there.
#[derive(Debug, Clone, Copy, PartialEq, Eq)]
pub(super) enum Statement {
    Binding(usize),
    Fetched(usize),
    Level(usize),
    Constraint(usize),
    Comparison(usize),
    Hoisted(usize),
    /// A root that stands by itself.
    Node(usize),
}

/// A statement, and which of its nodes are written in it.
pub(super) struct Step {
    pub statement: Statement,
    pub written: Vec<bool>,
}

/// All statements, each as soon as its patterns are next in the file's order.
pub(super) fn steps(rules: &RuleFile, trees: &Trees) -> Vec<Step> {
    let mut queues = queues(rules);
    let (mut steps, mut next) = (vec![], 0);
    loop {
        let ready = queues.iter_mut().find_map(|queue| {
            let (statement, nodes) = queue.last()?;
            let written = trees.written(nodes, next)?;
            let statement = *statement;
            queue.pop();
            Some(Step { statement, written })
        });
        if let Some(step) = ready {
            next += step.written.iter().filter(|&&written| written).count();
            steps.push(step);
        } else if let Some(&(_, root)) = trees.roots.get(next) {
            next += 1;
            steps.push(Step {
                statement: Statement::Node(root),
                written: vec![true],
            });
        } else {
            return steps;
        }
    }
}

impl Trees {
    /// Which of a statement's nodes are written in it, if it comes after `next`
    /// roots; none where it has to wait.
    fn written(&self, nodes: &[u16], mut next: usize) -> Option<Vec<bool>> {
        let mut written = vec![];
        for &node in nodes {
            let node = usize::from(node);
            let (first, root) = self
                .roots
                .get(next)
                .copied()
                .unwrap_or((self.count, self.count));
            if node < first || node >= self.count {
                written.push(false);
            } else if node == root {
                written.push(true);
                next += 1;
            } else {
                return None;
            }
        }
        Some(written)
    }
}

/// Statements with the nodes that they name, each queue's first one at its end.
fn queues(rules: &RuleFile) -> [Vec<(Statement, Vec<u16>)>; 6] {
    fn queue<T>(
        records: &[T],
        statement: fn(usize) -> Statement,
        nodes: impl Fn(&T) -> Vec<u16>,
    ) -> Vec<(Statement, Vec<u16>)> {
        let records = records.iter().enumerate();
        records
            .map(|(at, record)| (statement(at), nodes(record)))
            .rev()
            .collect()
    }
    [
        queue(
            &rules.bindings,
            Statement::Binding,
            |binding| match binding.slot {
                Slot::Const(node) => vec![node],
                _ => vec![],
            },
        ),
        queue(&rules.fetched, Statement::Fetched, |_| vec![]),
        queue(&rules.levels, Statement::Level, |level| vec![level.node]),
        queue(&rules.constraints, Statement::Constraint, |each| {
            vec![each.node]
        }),
        queue(&rules.comparisons, Statement::Comparison, |each| {
            vec![each.left, each.right]
        }),
        queue(&rules.hoisted, Statement::Hoisted, |hoisted| {
            vec![hoisted.node]
        }),
    ]
}
