//! The paths of a diagram that end at 0.

use crate::table::{Literals, NodeId, Table, ONE, ZERO};

/// Gives the literals of each path from a root to 0, "low side first".
pub struct Paths {
    /// Where to go on, the next one last, with the literals on the way there.
    ahead: Vec<(NodeId, Literals)>,
}

impl Paths {
    pub fn new(root: NodeId) -> Paths {
        Paths { ahead: vec![(root, Literals::default())] }
    }

    /// From every node but 1 some way leads to 0, so no more than 64 nodes lie between a path and the next.
    pub fn next(&mut self, table: &Table) -> Option<Literals> {
        while let Some((node, way)) = self.ahead.pop() {
            if node == ZERO {
                return Some(way);
            }
            if node != ONE {
                let level = table.level(node);
                self.ahead.push((table.high(node), way.with(level, true)));
                self.ahead.push((table.low(node), way.with(level, false)));
            }
        }
        None
    }
}

/// Whether a diagram has more than so many paths to 0. Counting stops there: a diagram of few nodes may
/// have more paths than could be counted.
pub fn more_than(table: &Table, root: NodeId, most: usize) -> bool {
    let mut paths = Paths::new(root);
    (0..=most).all(|_| paths.next(table).is_some())
}
