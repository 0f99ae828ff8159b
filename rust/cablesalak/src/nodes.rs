//! A table lent as one list of rows.

use crate::check::Verdict;
use crate::raw::{self, AtLeast, ListsMut, Rows, RowsMut};
use crate::view::granted;
use crate::{chain, Mode, NodeNo, Number, Variables, PLACES};

/// A table over one list of rows of the caller's, 2 to 65,536, with the index that goes with it (twice as many heads, as many
/// links) and the count. Its calls are those of [`TableMut`](crate::TableMut) of the same names. Each copies the rows into
/// columns and back, which takes 320 KiB of stack more.
///
/// ```
/// use cablesalak::{ListsMut, Mode, Node, NodesMut, MEMBERS, SCRATCH};
///
/// let (mut nodes, mut heads, mut links, mut count) = ([Node::default(); 64], [0; 128], [0; 64], 2);
/// let mut table = NodesMut::new(RowsMut { nodes: &mut nodes, heads: &mut heads, links: &mut links }, &mut count)?;
/// # use cablesalak::RowsMut;
/// let (mut members, mut struck, mut scratch) = (vec![0; MEMBERS], vec![0; MEMBERS], vec![0; SCRATCH]);
/// let mut lists = ListsMut { members: &mut members, struck: &mut struck, scratch: &mut scratch };
/// let verdict = table.check(Mode::TEXT, &mut lists, b"p cnf 1 2\n1 0\n-1 0\n", b"0\n");
/// assert!(verdict.refuted());
/// assert_eq!(nodes[2].variable, 1);
/// # Ok::<(), cablesalak::Number>(())
/// ```
pub struct NodesMut<'a> {
    rows: RowsMut<'a>,
    count: &'a mut usize,
}

impl<'a> NodesMut<'a> {
    /// The table of these lists, whatever they hold; 7 where their lengths are not as told above.
    pub fn new(rows: RowsMut<'a>, count: &'a mut usize) -> Result<NodesMut<'a>, Number> {
        let size = rows.nodes.len();
        if PLACES.contains(&size) && rows.links.len() == size && rows.heads.len() == 2 * size {
            Ok(NodesMut { rows, count })
        } else {
            Err(Number::WrongSize)
        }
    }

    /// Rebuilds the index from the rows below the count, for rows that the caller wrote.
    pub fn index(&mut self) {
        let RowsMut { nodes, heads, links } = &mut self.rows;
        heads.fill(0);
        links.fill(0);
        for place in 2..(*self.count).min(nodes.len()) {
            let chain = chain(nodes[place], heads.len());
            links[place] = heads[chain];
            heads[chain] = place as u16;
        }
    }

    /// The number of places that are taken, the two constants' among them.
    pub fn count(&self) -> usize {
        *self.count
    }

    /// Whether the node is 1 under the assignment; or 26, 13.
    pub fn evaluate(&self, node: NodeNo, assignment: Variables) -> Result<bool, Number> {
        let RowsMut { nodes, heads, links } = &self.rows;
        let said = raw::evaluate_nodes(Rows { nodes, heads, links }, *self.count, node.0, assignment.0);
        granted(said.number).map(|()| said.yes)
    }

    /// "At least k of the set's variables", as [`Table::at_least`](crate::Table::at_least) has it; or 26, 23.
    pub fn at_least(&mut self, set: Variables, k: u8) -> Result<(NodeNo, Option<u64>), Number> {
        let said = raw::at_least_nodes(&mut self.rows, *self.count, set.0, k);
        let AtLeast { number, node, count, counted, excluded } = said;
        *self.count = count;
        granted(number).map(|()| (NodeNo(node), counted.then_some(excluded)))
    }

    /// Checks a proof in a mode, as [`check_lent_in`](crate::check_lent_in) does.
    pub fn check(&mut self, mode: Mode, lists: &mut ListsMut<'_>, formula: &[u8], proof: &[u8]) -> Verdict {
        let said = raw::check_nodes_in(mode.raw(), &mut self.rows, *self.count, lists, formula, proof);
        *self.count = said.count;
        Verdict::of(said)
    }
}
