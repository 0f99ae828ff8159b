//! The index that is lent with the table. Nodes are looked up through the table's own index; the lent one
//! is only judged.

use crate::table::{NodeId, Table, LARGEST, SMALLEST};

/// The sizes of a lent table and of its index.
pub struct Sizes {
    pub places: u64,
    pub heads: u64,
    pub links: u64,
}

impl Sizes {
    /// "Twice as many heads as table places, and a next link for each place."
    pub fn are_right(&self) -> bool {
        (SMALLEST..=LARGEST).contains(&self.places) && self.heads == 2 * self.places && self.links == self.places
    }
}

/// A head or a link that is lent with another value than the right one: its place in its list, the value.
#[derive(Clone, Copy, PartialEq, Eq, Debug)]
pub enum Change {
    Head(u64, u32),
    Link(u64, u32),
}

#[derive(Clone, PartialEq, Eq, Debug)]
pub struct Index {
    pub heads: Vec<u32>,
    pub links: Vec<u32>,
}

impl Index {
    /// The right index of a table in good order: "each chain now runs through its nodes from the highest
    /// number down to a 0; all other heads and links are 0".
    pub fn of(table: &Table, size: usize) -> Index {
        let mut index = Index { heads: vec![0; 2 * size], links: vec![0; size] };
        for number in 2..table.count() as u32 {
            let node = NodeId(number);
            let key = key(table.level(node), table.low(node).0, table.high(node).0);
            let chain = key as usize % index.heads.len();
            // The highest of the lower numbers comes after this one, which is the highest so far.
            index.links[number as usize] = index.heads[chain];
            index.heads[chain] = number;
        }
        index
    }

    /// Whether the index is the same with the changes made; one beyond its list changes nothing.
    pub fn stays_with(&self, changes: &[Change]) -> bool {
        let mut changed = self.clone();
        for &change in changes {
            let (list, at, value) = match change {
                Change::Head(at, value) => (&mut changed.heads, at, value),
                Change::Link(at, value) => (&mut changed.links, at, value),
            };
            if at < list.len() as u64 {
                list[at as usize] = value;
            }
        }
        changed == *self
    }
}

/// "The key is variable plus low times 12,582,917 plus high times 4,256,249, in 32 bits, running over the
/// top on purpose."
fn key(variable: u32, low: u32, high: u32) -> u32 {
    variable.wrapping_add(low.wrapping_mul(12_582_917)).wrapping_add(high.wrapping_mul(4_256_249))
}
