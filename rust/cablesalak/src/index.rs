//! The index of a table: a chain of nodes for each remainder of their keys.

use crate::raw::ColumnsMut;
use crate::{Node, NodeNo};

/// The chain of a node in an index of so many heads. The key runs over the top of 32 bits on purpose.
///
/// # Panics
/// Where there are no heads.
pub fn chain(node: Node, heads: usize) -> usize {
    let (low, high) = (u32::from(node.low.0), u32::from(node.high.0));
    let key =
        u32::from(node.variable).wrapping_add(low.wrapping_mul(12_582_917)).wrapping_add(high.wrapping_mul(4_256_249));
    key as usize % heads
}

impl ColumnsMut<'_> {
    fn chain_of(&self, place: usize) -> usize {
        let node = Node::new(self.vars[place], NodeNo(self.lows[place]), NodeNo(self.highs[place]));
        chain(node, self.heads.len())
    }

    /// Puts the node of a place in front of its chain: it is the highest of those in the index.
    pub(crate) fn link(&mut self, place: usize) {
        let chain = self.chain_of(place);
        self.links[place] = self.heads[chain];
        self.heads[chain] = place as u16;
    }

    /// Takes out of its chain the node that was put in last.
    pub(crate) fn unlink(&mut self, place: usize) {
        let chain = self.chain_of(place);
        self.heads[chain] = self.links[place];
        self.links[place] = 0;
    }

    /// Makes the index anew, of the rows below the count.
    pub(crate) fn index(&mut self, count: usize) {
        self.heads.fill(0);
        self.links.fill(0);
        for place in 2..count.min(self.vars.len()) {
            self.link(place);
        }
    }
}
