//! A table over the caller's lists, and the single calls on it.

use crate::raw::{self, AtLeast, Columns, ColumnsMut, Single};
use crate::view::{granted, View};
use crate::{Node, NodeNo, Number, Variables};
use std::ops::RangeInclusive;

/// How many places a table has.
pub const PLACES: RangeInclusive<usize> = 2..=65_536;

/// A table over lists of the caller's: three columns of one length, 2 to 65,536, the index that goes with it (twice as many heads,
/// as many links), and the count beside them.
///
/// The caller may have written the rows and the index, so each call asks whether they are in good order: 26 where they are not.
/// A refused call changes nothing.
pub struct TableMut<'a> {
    pub(crate) lists: ColumnsMut<'a>,
    pub(crate) count: &'a mut usize,
}

impl<'a> TableMut<'a> {
    /// The table of these lists, whatever they hold; 7 where their lengths are not as told above.
    pub fn new(lists: ColumnsMut<'a>, count: &'a mut usize) -> Result<TableMut<'a>, Number> {
        let size = lists.vars.len();
        let alike = [lists.lows.len(), lists.highs.len(), lists.links.len()] == [size; 3];
        if alike && PLACES.contains(&size) && lists.heads.len() == 2 * size {
            Ok(TableMut { lists, count })
        } else {
            Err(Number::WrongSize)
        }
    }

    /// Makes the index anew from the rows below the count, for rows that the caller wrote. The calls here keep it by themselves.
    pub fn index(&mut self) {
        self.lists.index(*self.count);
    }

    fn view(&self) -> View<'_> {
        let ColumnsMut { vars, lows, highs, heads, links } = &self.lists;
        View { lists: Columns { vars, lows, highs, heads, links }, count: *self.count }
    }

    /// The number of places.
    pub fn size(&self) -> usize {
        self.lists.vars.len()
    }

    /// The number of places that are taken, the two constants' among them.
    pub fn count(&self) -> usize {
        *self.count
    }

    /// The row of a node that is no constant and lies below the count.
    pub fn node(&self, number: NodeNo) -> Option<Node> {
        self.view().node(number)
    }

    /// Whether the node is 1 under the assignment; or 26, 13.
    pub fn evaluate(&self, node: NodeNo, assignment: Variables) -> Result<bool, Number> {
        self.view().evaluate(node, assignment)
    }

    /// The conjunction of f and g; or 26, 13, 23.
    pub fn conjunction(&mut self, f: NodeNo, g: NodeNo) -> Result<NodeNo, Number> {
        let said = raw::conjunction(&mut self.lists, *self.count, f.0, g.0);
        self.made(said)
    }

    /// The negation of f; or 26, 13, 23.
    pub fn negation(&mut self, f: NodeNo) -> Result<NodeNo, Number> {
        let said = raw::negation(&mut self.lists, *self.count, f.0);
        self.made(said)
    }

    /// f cofactored by the diagram g: at each assignment f's value at the nearest one that satisfies g; or 26, 13, 27, 23.
    pub fn cofactor(&mut self, f: NodeNo, g: NodeNo) -> Result<NodeNo, Number> {
        let said = raw::cofactor(&mut self.lists, *self.count, f.0, g.0);
        self.made(said)
    }

    /// f with the variables of `positive` made true and those of `negative` false; or 26, 13, 15, 23.
    pub fn cofactor_literals(&mut self, f: NodeNo, positive: Variables, negative: Variables) -> Result<NodeNo, Number> {
        let said = raw::cofactor_literals(&mut self.lists, *self.count, f.0, positive.0, negative.0);
        self.made(said)
    }

    /// "At least k of the set's variables", as [`Table::at_least`](crate::Table::at_least) has it; or 26, 23.
    pub fn at_least(&mut self, set: Variables, k: u8) -> Result<(NodeNo, Option<u64>), Number> {
        let AtLeast { number, node, count, counted, excluded } = raw::at_least(&mut self.lists, *self.count, set.0, k);
        let node = self.made(Single { number, node, count })?;
        Ok((node, counted.then_some(excluded)))
    }

    fn made(&mut self, said: Single) -> Result<NodeNo, Number> {
        *self.count = said.count;
        granted(said.number).map(|()| NodeNo(said.node))
    }
}
