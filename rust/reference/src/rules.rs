//! Unit propagation and the three rules for a line.
//!
//! Each answers with the rounds where it conflicts everywhere it must, else with the fault met first.

use crate::operate::Diagrams;
use crate::paths::Paths;
use crate::table::{Full, Literals, NodeId, ONE};

/// Why a line does not pass.
#[derive(Clone, PartialEq, Eq, Debug)]
pub enum Fault {
    /// A node finds no room.
    Full,
    /// No conflict comes.
    Unshown(Unshown),
}

/// The propagation that came to no conflict.
#[derive(Clone, PartialEq, Eq, Debug)]
pub struct Unshown {
    /// The literals fixed in each of its rounds.
    pub fixed: Vec<Literals>,
    /// In PR, whose turn it was: the place among the members that the rule was asked of.
    pub turn: Option<usize>,
}

impl From<Full> for Fault {
    fn from(_: Full) -> Fault {
        Fault::Full
    }
}

/// "UnitProp": (a) conflict, (b) a round by the units of the lowest member that has any, (c) none left.
pub fn propagate(d: &mut Diagrams, members: &mut [NodeId]) -> Result<u64, Fault> {
    let mut fixed = Vec::new();
    loop {
        if d.conflict(members) {
            return Ok(fixed.len() as u64);
        }
        let Some(units) = first_units(d, members) else {
            return Err(Fault::Unshown(Unshown { fixed, turn: None }));
        };
        for member in members.iter_mut() {
            *member = d.restrict(*member, units)?;
        }
        fixed.push(units);
    }
}

fn first_units(d: &Diagrams, members: &[NodeId]) -> Option<Literals> {
    members.iter().map(|&member| d.table.units(member)).find(|units| !units.is_empty())
}

/// "RUP: UnitProp of all members cofactored by not-g conflicts." g is not 1.
pub fn rup(d: &mut Diagrams, members: &[NodeId], g: NodeId) -> Result<u64, Fault> {
    let mut cofactored = by_negation(d, members, g)?;
    propagate(d, &mut cofactored)
}

/// The PR rule past "g under ω is 1", which is asked before.
pub fn pr(d: &mut Diagrams, members: &[NodeId], g: NodeId, witness: Literals) -> Result<u64, Fault> {
    let first = by_negation(d, members, g)?;
    let kept = d.table.count();
    let mut second = Vec::with_capacity(first.len());
    let mut rounds = 0;
    for (at, &member) in members.iter().enumerate() {
        rounds += turn(d, &first, member, witness, &mut second).map_err(|fault| in_turn(fault, at))?;
        // "In PR the nodes of one member's turn are dropped before the next."
        d.drop_to(kept);
    }
    Ok(rounds)
}

fn in_turn(fault: Fault, at: usize) -> Fault {
    match fault {
        Fault::Unshown(unshown) => Fault::Unshown(Unshown { turn: Some(at), ..unshown }),
        Fault::Full => Fault::Full,
    }
}

/// One member's turn: h; and where h is not 1, not-h, the second cofactors, and the propagation.
fn turn(
    d: &mut Diagrams,
    first: &[NodeId],
    member: NodeId,
    witness: Literals,
    second: &mut Vec<NodeId>,
) -> Result<u64, Fault> {
    let h = d.restrict(member, witness)?;
    if h == ONE {
        return Ok(0);
    }
    let not_h = d.negate(h)?;
    cofactor_all(d, first, not_h, second)?;
    propagate(d, second)
}

/// Path lines: "for each path from the root to 0, with its literals c, UnitProp of the live members
/// cofactored by c must conflict. Paths are taken low side first and nodes are dropped between them;
/// rounds are summed."
pub fn path(d: &mut Diagrams, members: &[NodeId], g: NodeId) -> Result<u64, Fault> {
    let kept = d.table.count();
    let mut cofactored = Vec::with_capacity(members.len());
    let mut rounds = 0;
    let mut paths = Paths::new(g);
    while let Some(way) = paths.next(&d.table) {
        restrict_all(d, members, way, &mut cofactored)?;
        rounds += propagate(d, &mut cofactored)?;
        d.drop_to(kept);
    }
    Ok(rounds)
}

fn by_negation(d: &mut Diagrams, members: &[NodeId], g: NodeId) -> Result<Vec<NodeId>, Full> {
    let not_g = d.negate(g)?;
    let mut cofactored = Vec::with_capacity(members.len());
    cofactor_all(d, members, not_g, &mut cofactored)?;
    Ok(cofactored)
}

fn cofactor_all(d: &mut Diagrams, members: &[NodeId], by: NodeId, into: &mut Vec<NodeId>) -> Result<(), Full> {
    into.clear();
    for &member in members {
        into.push(d.cofactor(member, by)?);
    }
    Ok(())
}

fn restrict_all(d: &mut Diagrams, members: &[NodeId], by: Literals, into: &mut Vec<NodeId>) -> Result<(), Full> {
    into.clear();
    for &member in members {
        into.push(d.restrict(member, by)?);
    }
    Ok(())
}
