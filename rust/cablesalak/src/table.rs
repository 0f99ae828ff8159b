//! A table that owns its columns and its index.

use crate::lent::{TableMut, PLACES};
use crate::raw::{Columns, ColumnsMut};
use crate::view::View;
use crate::{Node, NodeNo, Number, Variables};

/// A table that owns its columns and keeps its index by itself. It is always in good order, so that its calls never give 26.
///
/// Most calls make nodes from nodes; the first ones come from [`Table::at_least`], are rows of the caller's ([`Table::push`],
/// [`Table::with_nodes`]) or what a check leaves.
#[derive(Clone, Debug, PartialEq, Eq)]
pub struct Table {
    vars: Vec<u8>,
    lows: Vec<u16>,
    highs: Vec<u16>,
    heads: Vec<u16>,
    links: Vec<u16>,
    count: usize,
}

impl Table {
    /// A table of so many places with the constants alone; 7 where the size is not 2 to 65,536.
    pub fn new(size: usize) -> Result<Table, Number> {
        if !PLACES.contains(&size) {
            return Err(Number::WrongSize);
        }
        let places = || vec![0; size];
        Ok(Table {
            vars: vec![0; size],
            lows: places(),
            highs: places(),
            heads: vec![0; 2 * size],
            links: places(),
            count: 2,
        })
    }

    /// A table of so many places with these rows from place 2 on: 7 as above, 23 where there are more rows than places, 26
    /// where they are not in good order.
    pub fn with_nodes(size: usize, nodes: &[Node]) -> Result<Table, Number> {
        let mut table = Table::new(size)?;
        if nodes.len() > size - table.count {
            return Err(Number::TableFull);
        }
        for node in nodes {
            table.put(table.count, *node);
            table.count += 1;
        }
        table.in_order()?;
        Ok(table)
    }

    /// Takes the next place for a row of the caller's: 23 where there is none, 26 where the table would not be in good
    /// order; a refusal changes nothing. Each call reads the whole table: many rows are better given at once.
    pub fn push(&mut self, node: Node) -> Result<NodeNo, Number> {
        let place = self.count;
        if place == self.size() {
            return Err(Number::TableFull);
        }
        self.put(place, node);
        self.count += 1;
        if let Err(refusal) = self.in_order() {
            self.count = place;
            self.lend().lists.unlink(place);
            (self.vars[place], self.lows[place], self.highs[place]) = (0, 0, 0);
            return Err(refusal);
        }
        Ok(NodeNo(place as u16))
    }

    /// Writes a row to a place and puts it into its chain.
    fn put(&mut self, place: usize, node: Node) {
        self.vars[place] = node.variable;
        self.lows[place] = node.low.0;
        self.highs[place] = node.high.0;
        self.lend().lists.link(place);
    }

    /// Leaves the constants alone.
    pub(crate) fn clear(&mut self) {
        self.vars.fill(0);
        for list in [&mut self.lows, &mut self.highs, &mut self.heads, &mut self.links] {
            list.fill(0);
        }
        self.count = 2;
    }

    /// Asked of the library: it evaluates a constant in no table that is not in good order.
    fn in_order(&self) -> Result<(), Number> {
        self.evaluate(NodeNo::ZERO, Variables::NONE).map(|_| ())
    }

    /// The same table, lent.
    pub fn lend(&mut self) -> TableMut<'_> {
        let Table { vars, lows, highs, heads, links, count } = self;
        TableMut { lists: ColumnsMut { vars, lows, highs, heads, links }, count }
    }

    fn view(&self) -> View<'_> {
        let Table { vars, lows, highs, heads, links, count } = self;
        View { lists: Columns { vars, lows, highs, heads, links }, count: *count }
    }

    /// The number of places.
    pub fn size(&self) -> usize {
        self.vars.len()
    }

    /// The number of places that are taken, the two constants' among them.
    pub fn count(&self) -> usize {
        self.count
    }

    /// The row of a node that is no constant and lies below the count.
    pub fn node(&self, number: NodeNo) -> Option<Node> {
        self.view().node(number)
    }

    /// Whether the node is 1 under the assignment; or 13.
    pub fn evaluate(&self, node: NodeNo, assignment: Variables) -> Result<bool, Number> {
        self.view().evaluate(node, assignment)
    }

    /// The conjunction of f and g; or 13, 23.
    pub fn conjunction(&mut self, f: NodeNo, g: NodeNo) -> Result<NodeNo, Number> {
        self.lend().conjunction(f, g)
    }

    /// The negation of f; or 13, 23.
    pub fn negation(&mut self, f: NodeNo) -> Result<NodeNo, Number> {
        self.lend().negation(f)
    }

    /// f cofactored by the diagram g: at each assignment f's value at the nearest one that satisfies g; or 13, 27, 23.
    pub fn cofactor(&mut self, f: NodeNo, g: NodeNo) -> Result<NodeNo, Number> {
        self.lend().cofactor(f, g)
    }

    /// f with the variables of `positive` made true and those of `negative` false; or 13, 15, 23.
    pub fn cofactor_literals(&mut self, f: NodeNo, positive: Variables, negative: Variables) -> Result<NodeNo, Number> {
        self.lend().cofactor_literals(f, positive, negative)
    }

    /// "At least k of the set's variables": 1 where so many of them are true. With it, for sets of up to 32 variables, how many
    /// assignments of these variables it excludes. Or 23.
    ///
    /// ```
    /// use cablesalak::{Number, Table, Variables};
    ///
    /// let mut table = Table::new(64)?;
    /// let papers = Variables::of(&[1, 2, 3, 4]).unwrap();
    /// let (three_of_four, excluded) = table.at_least(papers, 3)?;
    /// assert!(table.evaluate(three_of_four, Variables::of(&[1, 2, 4]).unwrap())?);
    /// assert!(!table.evaluate(three_of_four, Variables::of(&[1, 2]).unwrap())?);
    /// // Of the 16 ways to have them, 5 have at least three.
    /// assert_eq!(excluded, Some(11));
    /// # Ok::<(), Number>(())
    /// ```
    pub fn at_least(&mut self, set: Variables, k: u8) -> Result<(NodeNo, Option<u64>), Number> {
        self.lend().at_least(set, k)
    }
}
