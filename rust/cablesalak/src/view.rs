//! What is read of a table and changes nothing.

use crate::raw::{self, Columns};
use crate::{Node, NodeNo, Number, Variables};

/// The lists of a table and its count, to read.
pub struct View<'a> {
    pub lists: Columns<'a>,
    pub count: usize,
}

impl View<'_> {
    /// The row of a node that is no constant and lies below the count.
    pub fn node(&self, number: NodeNo) -> Option<Node> {
        let place = usize::from(number.0);
        if place < 2 || self.count <= place {
            return None;
        }
        let Columns { vars, lows, highs, .. } = self.lists;
        Some(Node::new(*vars.get(place)?, NodeNo(lows[place]), NodeNo(highs[place])))
    }

    pub fn evaluate(&self, node: NodeNo, assignment: Variables) -> Result<bool, Number> {
        let said = raw::evaluate(self.lists, self.count, node.0, assignment.0);
        granted(said.number).map(|()| said.yes)
    }
}

/// Number 0 of a single call says that it is not refused.
pub fn granted(number: u8) -> Result<(), Number> {
    match Number::said(number) {
        Number::Refuted => Ok(()),
        refusal => Err(refusal),
    }
}
