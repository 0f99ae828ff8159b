//! The operations on diagrams. Each one recurs on the two branches and remembers what it has worked out.
//!
//! Every diagram that a recursion makes on its way is a part of the finished one, and the low side is
//! made before the high side and both before their parent: "only nodes of the finished diagram are
//! placed", in the order of "The table".

use crate::table::{bit, Full, Literals, NodeId, Table, ONE, VARIABLES, ZERO};

const FIRST_ENTRIES: usize = 256;
const MOST_ENTRIES: usize = 1 << 20;

#[derive(Clone, Copy, Default)]
struct PairEntry {
    stamp: u32,
    f: u32,
    g: u32,
    result: u32,
}

/// Results of an operation on two nodes, direct-mapped: a newer result takes the place of an older one.
/// Only entries with the present stamp count, so that forgetting all of them is one step.
struct PairMemo {
    entries: Vec<PairEntry>,
    stamp: u32,
    filled: usize,
}

impl PairMemo {
    fn new() -> PairMemo {
        PairMemo { entries: vec![PairEntry::default(); FIRST_ENTRIES], stamp: 1, filled: 0 }
    }

    fn forget(&mut self) {
        self.filled = 0;
        if self.stamp == u32::MAX {
            self.entries.fill(PairEntry::default());
            self.stamp = 0;
        }
        self.stamp += 1;
    }

    fn slot(&self, f: u32, g: u32) -> usize {
        let mixed = ((f as u64) << 32 | g as u64).wrapping_mul(0x9E37_79B9_7F4A_7C15);
        (mixed >> 40) as usize & (self.entries.len() - 1)
    }

    fn get(&self, f: NodeId, g: NodeId) -> Option<NodeId> {
        let entry = &self.entries[self.slot(f.0, g.0)];
        let hit = entry.f == f.0 && entry.g == g.0 && entry.stamp == self.stamp;
        hit.then_some(NodeId(entry.result))
    }

    fn put(&mut self, f: NodeId, g: NodeId, result: NodeId) {
        self.insert(PairEntry { stamp: self.stamp, f: f.0, g: g.0, result: result.0 });
        if self.filled * 4 > self.entries.len() * 3 && self.entries.len() < MOST_ENTRIES {
            self.widen();
        }
    }

    fn insert(&mut self, entry: PairEntry) {
        let slot = self.slot(entry.f, entry.g);
        self.filled += (self.entries[slot].stamp != self.stamp) as usize;
        self.entries[slot] = entry;
    }

    fn widen(&mut self) {
        let wider = vec![PairEntry::default(); self.entries.len() * 4];
        let old = std::mem::replace(&mut self.entries, wider);
        self.filled = 0;
        for entry in old {
            if entry.stamp == self.stamp {
                self.insert(entry);
            }
        }
    }
}

/// One result a node, stamped like the entries of a pair memo.
struct NodeMemo {
    entries: Vec<(u32, u32)>,
    stamp: u32,
}

impl NodeMemo {
    fn new() -> NodeMemo {
        NodeMemo { entries: Vec::new(), stamp: 1 }
    }

    fn forget(&mut self) {
        if self.stamp == u32::MAX {
            self.entries.clear();
            self.stamp = 0;
        }
        self.stamp += 1;
    }

    fn get(&self, f: NodeId) -> Option<NodeId> {
        match self.entries.get(f.0 as usize) {
            Some(&(stamp, result)) if stamp == self.stamp => Some(NodeId(result)),
            _ => None,
        }
    }

    fn put(&mut self, f: NodeId, result: NodeId) {
        let at = f.0 as usize;
        if at >= self.entries.len() {
            self.entries.resize(at + 1, (0, 0));
        }
        self.entries[at] = (self.stamp, result.0);
    }
}

fn variables_from_last(literals: Literals) -> impl Iterator<Item = u32> {
    (1..=VARIABLES).rev().filter(move |&variable| literals.variables() & bit(variable) != 0)
}

/// Low and high side of a clause's node over the diagram of its later literals.
fn clause_sides(literals: Literals, variable: u32, rest: NodeId) -> (NodeId, NodeId) {
    if literals.yes & bit(variable) != 0 {
        (rest, ONE)
    } else {
        (ONE, rest)
    }
}

/// The table with the memories of the operations on it.
pub struct Diagrams {
    pub table: Table,
    conjunctions: PairMemo,
    cofactors: PairMemo,
    /// Cofactors by the literals named in `by`.
    restricted: NodeMemo,
    by: Literals,
    /// Nodes seen in one walk or held by one list.
    marks: NodeMemo,
}

impl Diagrams {
    pub fn new() -> Diagrams {
        Diagrams {
            table: Table::new(),
            conjunctions: PairMemo::new(),
            cofactors: PairMemo::new(),
            restricted: NodeMemo::new(),
            by: Literals::default(),
            marks: NodeMemo::new(),
        }
    }

    pub fn reset(&mut self, size: usize) {
        self.table.reset(size);
        self.forget();
    }

    /// Drops the nodes from a count on. Their numbers are given anew, so nothing remembered may stay.
    pub fn drop_to(&mut self, count: usize) {
        if self.table.count() > count {
            self.table.drop_to(count);
            self.forget();
        }
    }

    fn forget(&mut self) {
        self.conjunctions.forget();
        self.cofactors.forget();
        self.restricted.forget();
    }

    /// The diagram of a clause: 1 with both signs of a variable, 0 when empty. The last variable's node
    /// comes first, as every node is its parent's only child that is not 1.
    pub fn clause(&mut self, literals: Literals) -> Result<NodeId, Full> {
        if literals.clash() {
            return Ok(ONE);
        }
        let mut rest = ZERO;
        for variable in variables_from_last(literals) {
            let (low, high) = clause_sides(literals, variable, rest);
            rest = self.table.make(variable, low, high)?;
        }
        Ok(rest)
    }

    /// The diagram of a clause if it is in the table. Looking for it "places no node".
    pub fn find_clause(&self, literals: Literals) -> Option<NodeId> {
        if literals.clash() {
            return Some(ONE);
        }
        variables_from_last(literals).try_fold(ZERO, |rest, variable| {
            let (low, high) = clause_sides(literals, variable, rest);
            self.table.find(variable, low, high)
        })
    }

    /// The negation. The ties of the table to negations are the memory of this recursion.
    pub fn negate(&mut self, f: NodeId) -> Result<NodeId, Full> {
        if let Some(known) = self.table.negation(f) {
            return Ok(known);
        }
        let low = self.negate(self.table.low(f))?;
        let high = self.negate(self.table.high(f))?;
        self.table.make(self.table.level(f), low, high)
    }

    pub fn conjoin(&mut self, f: NodeId, g: NodeId) -> Result<NodeId, Full> {
        if f == g || g == ONE {
            return Ok(f);
        }
        if f == ONE {
            return Ok(g);
        }
        if f == ZERO || g == ZERO || self.table.negation(f) == Some(g) {
            return Ok(ZERO);
        }
        let (f, g) = if f.0 < g.0 { (f, g) } else { (g, f) };
        if let Some(known) = self.conjunctions.get(f, g) {
            return Ok(known);
        }
        let level = self.table.level(f).min(self.table.level(g));
        let (f0, f1) = self.table.branches(f, level);
        let (g0, g1) = self.table.branches(g, level);
        let low = self.conjoin(f0, g0)?;
        let high = self.conjoin(f1, g1)?;
        let result = self.table.make(level, low, high)?;
        self.conjunctions.put(f, g, result);
        Ok(result)
    }

    /// f cofactored by g, g not 0: at each assignment "f's value at the nearest one that satisfies g".
    /// The first variable outweighs all that follow, so the nearest one changes it only where g is 0 on
    /// that whole side; and it never changes a variable that g does not name.
    pub fn cofactor(&mut self, f: NodeId, g: NodeId) -> Result<NodeId, Full> {
        if f == g {
            return Ok(ONE);
        }
        if self.table.support(f) & self.table.support(g) == 0 {
            return Ok(f);
        }
        if self.table.negation(f) == Some(g) {
            return Ok(ZERO);
        }
        if let Some(known) = self.cofactors.get(f, g) {
            return Ok(known);
        }
        let level = self.table.level(f).min(self.table.level(g));
        let (f0, f1) = self.table.branches(f, level);
        let (g0, g1) = self.table.branches(g, level);
        let result = if g0 == ZERO {
            self.cofactor(f1, g1)?
        } else if g1 == ZERO {
            self.cofactor(f0, g0)?
        } else {
            let low = self.cofactor(f0, g0)?;
            let high = self.cofactor(f1, g1)?;
            self.table.make(level, low, high)?
        };
        self.cofactors.put(f, g, result);
        Ok(result)
    }

    /// "A cofactor by several literals is made at once."
    pub fn restrict(&mut self, f: NodeId, by: Literals) -> Result<NodeId, Full> {
        if self.by != by {
            self.restricted.forget();
            self.by = by;
        }
        self.restrict_on(f)
    }

    fn restrict_on(&mut self, f: NodeId) -> Result<NodeId, Full> {
        if self.table.support(f) & self.by.variables() == 0 {
            return Ok(f);
        }
        if let Some(known) = self.restricted.get(f) {
            return Ok(known);
        }
        let level = self.table.level(f);
        let result = if self.by.yes & bit(level) != 0 {
            self.restrict_on(self.table.high(f))?
        } else if self.by.no & bit(level) != 0 {
            self.restrict_on(self.table.low(f))?
        } else {
            let low = self.restrict_on(self.table.low(f))?;
            let high = self.restrict_on(self.table.high(f))?;
            self.table.make(level, low, high)?
        };
        self.restricted.put(f, result);
        Ok(result)
    }

    /// Whether f under the literals is 1: no way that keeps to them ends at 0. Asking "places no node".
    pub fn is_one_under(&mut self, f: NodeId, by: Literals) -> bool {
        self.marks.forget();
        !self.reaches_zero(f, by)
    }

    /// "The assignment, smallest when read with variable 1 as the top digit, that agrees with" the literals
    /// "and makes the line false", as a word; none where f under the literals is 1.
    pub fn false_under(&mut self, f: NodeId, by: Literals) -> Option<u64> {
        if self.is_one_under(f, by) {
            return None;
        }
        let (mut node, mut word) = (f, by.yes);
        while node != ZERO {
            let (low, here) = (self.table.low(node), bit(self.table.level(node)));
            let high = by.yes & here != 0 || (by.no & here == 0 && self.is_one_under(low, by));
            word |= if high { here } else { 0 };
            node = if high { self.table.high(node) } else { low };
        }
        Some(word)
    }

    fn reaches_zero(&mut self, f: NodeId, by: Literals) -> bool {
        if f == ZERO || f == ONE {
            return f == ZERO;
        }
        if self.marks.get(f).is_some() {
            return false;
        }
        self.marks.put(f, f);
        let here = bit(self.table.level(f));
        (by.yes & here == 0 && self.reaches_zero(self.table.low(f), by))
            || (by.no & here == 0 && self.reaches_zero(self.table.high(f), by))
    }

    /// Whether a member is 0 or the negation of another.
    pub fn conflict(&mut self, members: &[NodeId]) -> bool {
        if members.contains(&ZERO) {
            return true;
        }
        self.marks.forget();
        for &member in members {
            self.marks.put(member, member);
        }
        let held = |other| self.marks.get(other).is_some();
        members.iter().any(|&member| self.table.negation(member).is_some_and(held))
    }

    /// The value of a node under a word, bit i-1 for variable i.
    pub fn evaluate(&self, mut f: NodeId, word: u64) -> bool {
        while f != ZERO && f != ONE {
            let taken = word & bit(self.table.level(f)) != 0;
            f = if taken { self.table.high(f) } else { self.table.low(f) };
        }
        f == ONE
    }
}
