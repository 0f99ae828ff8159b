//! Binary DRAT proofs: "bytes `61` and `64` open an added and a struck clause; v is 2 × v, −v is 2 × v + 1,
//! in groups of seven bits, lowest first, the top bit set on all but the last; a zero byte closes".

use crate::dimacs::{Clause, Refusal};
use crate::drat::Step;
use crate::table::{bit, Literals};

pub const ADDED: u8 = 0x61;
pub const STRUCK: u8 = 0x64;
const MORE: u8 = 0x80;
const GROUP: u32 = 7;

/// Takes clauses from a binary proof.
pub struct Reader<'a> {
    bytes: &'a [u8],
    place: usize,
    variables: u32,
}

impl<'a> Reader<'a> {
    pub fn new(bytes: &'a [u8], variables: u32) -> Reader<'a> {
        Reader { bytes, place: 0, variables }
    }

    /// The opening byte of the next clause and its place; none at the end. "Another opening byte" is
    /// refused "with 9".
    pub fn open(&mut self) -> Result<Option<(usize, u8)>, Refusal> {
        let place = self.place;
        match self.bytes.get(place) {
            None => Ok(None),
            Some(&byte @ (ADDED | STRUCK)) => {
                self.place += 1;
                Ok(Some((place, byte)))
            }
            Some(_) => Err(Refusal { number: 9, place }),
        }
    }

    /// The next literal of the clause opened at a place, alone in its set; none for the closing byte. "It
    /// refuses per literal a cut clause with 6, then surplus groups or a literal 1 with 31, then one beyond
    /// 64 (in the check, the header) with 4, 31 and 4 at the literal, the others at the opening byte."
    pub fn literal(&mut self, opened: usize) -> Result<Literals, Refusal> {
        let place = self.place;
        let rest = &self.bytes[place..];
        let last = rest.iter().position(|byte| byte & MORE == 0).ok_or(Refusal { number: 6, place: opened })?;
        self.place += last + 1;
        let value = value(&rest[..=last]);
        if (last > 0 && rest[last] == 0) || value == 1 {
            return Err(Refusal { number: 31, place });
        }
        match value / 2 {
            0 => Ok(Literals::default()),
            variable if variable > self.variables.into() => Err(Refusal { number: 4, place }),
            variable => Ok(Literals::default().with(variable as u32, value.is_multiple_of(2))),
        }
    }

    /// The next clause as it closes; none at the end.
    pub fn take(&mut self) -> Result<Option<Step>, Refusal> {
        let Some((place, opening)) = self.open()? else {
            return Ok(None);
        };
        let mut clause = Clause { literals: Literals::default(), pivot: Literals::default(), place };
        loop {
            let literal = self.literal(place)?;
            if literal.is_empty() {
                return Ok(Some(Step { clause, strikes: opening == STRUCK }));
            }
            clause.add(literal);
        }
    }
}

/// The number in groups of seven bits. Values too large to hold stay at the greatest, which is beyond every
/// bound.
fn value(groups: &[u8]) -> u64 {
    groups.iter().rev().fold(0, |value: u64, group| value.saturating_mul(1 << GROUP) | u64::from(group & !MORE))
}

/// Writes a literal that is alone in its set.
pub fn push_literal(out: &mut Vec<u8>, literal: Literals) {
    let variable = literal.variables().trailing_zeros() + 1;
    debug_assert_eq!(literal.variables(), bit(variable));
    let mut value = 2 * variable + (literal.no != 0) as u32;
    while value >= MORE.into() {
        out.push(value as u8 | MORE);
        value >>= GROUP;
    }
    out.push(value as u8);
}
