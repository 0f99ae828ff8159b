//! Questions about how many of a set of variables are true: parity and at-least diagrams.

use crate::operate::Diagrams;
use crate::table::{bit, Full, NodeId, ONE, ZERO};
use std::collections::HashMap;

/// The largest set that excluded assignments are counted for.
const COUNTED: u32 = 32;

/// What is asked of the number of a set's true variables.
#[derive(Clone, Copy, PartialEq, Eq, Hash, Debug)]
pub enum Tally {
    Odd,
    Even,
    AtLeast(u8),
}

impl Tally {
    /// The constant that answers with this many variables to come, where that does not hang on them.
    fn settled(self, left: u32) -> Option<NodeId> {
        match self {
            Tally::Odd => (left == 0).then_some(ZERO),
            Tally::Even => (left == 0).then_some(ONE),
            Tally::AtLeast(0) => Some(ONE),
            Tally::AtLeast(least) => (u32::from(least) > left).then_some(ZERO),
        }
    }

    /// What is asked of the others where one variable is true: "an odd-parity diagram has the even one of
    /// the remaining variables beneath it".
    fn past_a_true_one(self) -> Tally {
        match self {
            Tally::Odd => Tally::Even,
            Tally::Even => Tally::Odd,
            Tally::AtLeast(least) => Tally::AtLeast(least - 1),
        }
    }
}

/// The diagrams made so far, without which the recursion would take as many steps as there are assignments.
type Made = HashMap<(u64, Tally), NodeId>;

/// The diagram that answers for the variables of a set, bit i-1 for variable i.
pub fn make(d: &mut Diagrams, set: u64, tally: Tally) -> Result<NodeId, Full> {
    make_on(d, set, tally, &mut Made::new())
}

/// Where the answer is not settled the two sides differ, so every node made is one of the finished diagram.
fn make_on(d: &mut Diagrams, set: u64, tally: Tally, made: &mut Made) -> Result<NodeId, Full> {
    if let Some(constant) = tally.settled(set.count_ones()) {
        return Ok(constant);
    }
    if let Some(&node) = made.get(&(set, tally)) {
        return Ok(node);
    }
    let first = set.trailing_zeros() + 1;
    let rest = set & !bit(first);
    let low = make_on(d, rest, tally, made)?;
    let high = make_on(d, rest, tally.past_a_true_one(), made)?;
    let node = d.table.make(first, low, high)?;
    made.insert((set, tally), node);
    Ok(node)
}

/// "For sets of up to 32 variables, how many assignments of its set it excludes": those with fewer than
/// `least` variables true.
pub fn excluded(set: u64, least: u8) -> Option<u64> {
    let variables = set.count_ones();
    (variables <= COUNTED).then(|| binomials(variables).take(least.into()).sum())
}

/// C(n, 0), C(n, 1) and so on to C(n, n).
fn binomials(n: u32) -> impl Iterator<Item = u64> {
    let n = u64::from(n);
    (0..=n).scan(1, move |next, k| {
        let here = *next;
        *next = here * (n - k) / (k + 1);
        Some(here)
    })
}
