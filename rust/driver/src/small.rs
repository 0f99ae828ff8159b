//! The check by truth table: `small MEMBERS SCRATCH FORMULA PROOF`.

use crate::command::{bytes, places};
use crate::lent::{Dirt, Lent};
use cablesalak_small::{small_lent, MEMBERS, SCRATCH};

/// Sizes and bytes of a check by truth table.
pub struct Small {
    members: usize,
    scratch: usize,
    formula: Vec<u8>,
    proof: Vec<u8>,
}

/// The command in a line, if it is this one.
pub fn read(line: &str) -> Option<Small> {
    let words: Vec<&str> = line.split(' ').collect();
    let ["small", members, scratch, formula, proof] = words[..] else { return None };
    Some(Small { members: places(members)?, scratch: places(scratch)?, formula: bytes(formula)?, proof: bytes(proof)? })
}

/// The answer, or what the library broke: 7 changes nothing, after every other number the lists hold zeros. Dirt is what they hold before.
pub fn answer(asked: &Small, dirt: &mut Dirt) -> String {
    let mut members = Lent::filled(asked.members, 0xa5a5, || dirt.next());
    let mut struck = Lent::filled(asked.members, 0x5a, || dirt.next() as u8);
    let mut scratch = Lent::filled(asked.scratch, 0x5aa5, || dirt.next());
    let before = [members.places().to_vec(), scratch.places().to_vec()];
    let marks = struck.places().to_vec();
    let said = small_lent(members.lend(), struck.lend(), scratch.lend(), &asked.formula, &asked.proof);
    let guarded = members.guarded() && struck.guarded() && scratch.guarded();
    let same = [members.places(), scratch.places()] == before && struck.places() == marks;
    let zero = members.zero_from(0) && struck.zero_from(0) && scratch.zero_from(0);
    let fits = MEMBERS <= asked.members && SCRATCH <= asked.scratch;
    let in_formula = (1..=7).contains(&said.number);
    let broken = [
        (!guarded, "written outside the lists"),
        (fits == (said.number == 7), "7 with lists of proper size, or another number without"),
        (said.number == 7 && !same, "7 changed a list"),
        (said.number != 7 && !zero, "a list is not zero"),
        (said.in_proof == in_formula, "the place is told to be in the other text"),
    ];
    match broken.iter().find(|(holds, _)| *holds) {
        Some((_, what)) => format!("broken: {what}"),
        None => said.to_string(),
    }
}
