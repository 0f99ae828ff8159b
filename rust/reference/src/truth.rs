//! Functions of up to six variables by truth table: "a 64-bit word holds a function, a bit an assignment".
//!
//! Bit a of a word is the value at assignment a, whose bit i-1 is variable i.

use crate::table::{bit, Literals};

pub type Word = u64;

pub const VARIABLES: u32 = 6;
pub const FALSE: Word = 0;
pub const TRUE: Word = u64::MAX;

/// The assignments that make a variable true.
pub fn variable(v: u32) -> Word {
    const TRUE_AT: [Word; VARIABLES as usize] = [
        0xAAAA_AAAA_AAAA_AAAA,
        0xCCCC_CCCC_CCCC_CCCC,
        0xF0F0_F0F0_F0F0_F0F0,
        0xFF00_FF00_FF00_FF00,
        0xFFFF_0000_FFFF_0000,
        0xFFFF_FFFF_0000_0000,
    ];
    TRUE_AT[v as usize - 1]
}

/// How far apart two assignments stand in a word that differ in one variable.
fn step(v: u32) -> u32 {
    1 << (v - 1)
}

fn low(f: Word, v: u32) -> Word {
    let kept = f & !variable(v);
    kept | kept << step(v)
}

fn high(f: Word, v: u32) -> Word {
    let kept = f & variable(v);
    kept | kept >> step(v)
}

/// At each assignment the value at the one that differs in a variable.
fn flipped(f: Word, v: u32) -> Word {
    (f & variable(v)) >> step(v) | (f & !variable(v)) << step(v)
}

/// The variable that a diagram of the function would have at its root; none for a constant.
pub fn root(f: Word) -> Option<u32> {
    (1..=VARIABLES).find(|&v| flipped(f, v) != f)
}

/// The function with a variable choosing between two.
pub fn choice(v: u32, low: Word, high: Word) -> Word {
    (low & !variable(v)) | (high & variable(v))
}

pub fn clause(literals: Literals) -> Word {
    (1..=VARIABLES).fold(FALSE, |word, v| {
        let yes = if literals.yes & bit(v) != 0 { variable(v) } else { FALSE };
        let no = if literals.no & bit(v) != 0 { !variable(v) } else { FALSE };
        word | yes | no
    })
}

/// "An odd number" of a set's variables is true.
pub fn odd(set: u64) -> Word {
    in_set(set).fold(FALSE, |word, v| word ^ variable(v))
}

/// At least so many of a set's variables are true.
pub fn at_least(set: u64, least: u8) -> Word {
    // At place k of the list: at least k of the variables taken so far.
    let mut at_least = [FALSE; VARIABLES as usize + 1];
    at_least[0] = TRUE;
    for v in in_set(set) {
        for k in (1..at_least.len()).rev() {
            at_least[k] |= at_least[k - 1] & variable(v);
        }
    }
    at_least.get(usize::from(least)).copied().unwrap_or(FALSE)
}

fn in_set(set: u64) -> impl Iterator<Item = u32> {
    (1..=VARIABLES).filter(move |&v| set & bit(v) != 0)
}

/// The cofactor by literals.
pub fn under(f: Word, by: Literals) -> Word {
    let f = in_set(by.yes).fold(f, high);
    in_set(by.no).fold(f, low)
}

/// "f cofactored by g, g not 0, has at each assignment f's value at the nearest one that satisfies g."
///
/// From the last variable, which weighs least, up: `found` are the assignments from which one that satisfies
/// g is reached by changing the variables seen so far, `value` f's value at the nearest of those. A heavier
/// variable changes only where that is not so.
pub fn nearest(f: Word, g: Word) -> Word {
    let (mut value, mut found) = (f & g, g);
    for v in (1..=VARIABLES).rev() {
        value |= flipped(value, v) & !found;
        found |= flipped(found, v);
    }
    value
}

/// "U(f): the literals l with f 0 wherever l is false."
pub fn units(f: Word) -> Literals {
    (1..=VARIABLES).fold(Literals::default(), |units, v| {
        let yes = if f & !variable(v) == 0 { bit(v) } else { 0 };
        let no = if f & variable(v) == 0 { bit(v) } else { 0 };
        Literals { yes: units.yes | yes, no: units.no | no }
    })
}

/// The literals of the paths to 0 of a function's diagram, low side first.
pub fn paths(f: Word) -> Vec<Literals> {
    let mut paths = Vec::new();
    let mut ahead = vec![(f, Literals::default())];
    while let Some((f, way)) = ahead.pop() {
        if f == FALSE {
            paths.push(way);
        } else if let Some(v) = root(f) {
            ahead.push((high(f, v), way.with(v, true)));
            ahead.push((low(f, v), way.with(v, false)));
        }
    }
    paths
}

/// "UnitProp": the rounds up to a conflict, or none.
pub fn propagate(members: &mut [Word], sorted: &mut Vec<Word>) -> Option<u64> {
    let mut rounds = 0;
    while !conflict(members, sorted) {
        let by = members.iter().map(|&f| units(f)).find(|units| !units.is_empty())?;
        members.iter_mut().for_each(|f| *f = under(*f, by));
        rounds += 1;
    }
    Some(rounds)
}

/// Whether a member is 0 or the negation of another.
fn conflict(members: &[Word], sorted: &mut Vec<Word>) -> bool {
    sorted.clear();
    sorted.extend_from_slice(members);
    sorted.sort_unstable();
    sorted.first() == Some(&FALSE) || sorted.iter().any(|f| sorted.binary_search(&!f).is_ok())
}
