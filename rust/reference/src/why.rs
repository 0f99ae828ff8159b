//! Why a check refuses: "the offending piece of the formula or of the proof, as a part of the caller's own
//! bytes [..], with the true cause".

use crate::check::{Form, Task, Verdict};
use crate::dimacs::{is_apart, Clauses};
use crate::records;
use crate::table::{Literals, VARIABLES};

/// The cause of a refusal, where there is more to say than its number.
#[derive(Clone, PartialEq, Eq, Debug)]
pub enum Cause {
    None,
    /// "For 14: the two variables, the low child's if both offend"; the record's own first.
    Variables(u32, u32),
    /// "For 18: the assignment", bit i-1 for variable i.
    Assignment(u64),
    /// "For 19: the literals fixed in the last propagation, by round [..], and for PR the lowest live member
    /// that was not shown."
    Unshown {
        fixed: Vec<Literals>,
        member: Option<usize>,
    },
}

/// A number of the table of numbers with its cause.
#[derive(Clone, PartialEq, Eq, Debug)]
pub struct Refused {
    pub number: u32,
    pub cause: Cause,
}

impl From<u32> for Refused {
    fn from(number: u32) -> Refused {
        Refused { number, cause: Cause::None }
    }
}

/// Number and place that a proof ends with, and the cause of a refusal.
pub struct Outcome {
    pub number: u32,
    pub place: usize,
    pub cause: Cause,
}

impl Outcome {
    pub fn plain(number: u32, place: usize) -> Outcome {
        Outcome { number, place, cause: Cause::None }
    }
}

impl Refused {
    pub fn at(self, place: usize) -> Outcome {
        Outcome { number: self.number, place, cause: self.cause }
    }
}

/// What the call shows: a part of the formula or of the proof.
pub struct Why<'a> {
    pub number: u32,
    pub in_proof: bool,
    pub start: usize,
    pub length: usize,
    pub cause: &'a Cause,
}

/// "It refuses with 30, showing an empty part, a check that did not refuse."
pub fn why<'a>(task: &Task, verdict: &'a Verdict) -> Why<'a> {
    let (number, place) = (verdict.number, verdict.place);
    if number == 0 || number == 7 {
        let number = if number == 0 { 30 } else { 7 };
        return Why { number, in_proof: false, start: 0, length: 0, cause: &Cause::None };
    }
    let end = match (verdict.in_proof, task.form) {
        (false, _) => end_in_formula(&task.formula, number, place),
        (true, Form::Records) => end_of_record(&task.proof, number, place),
        (true, Form::Text) => end_in_text(&task.proof, number, place),
        (true, Form::Binary) => end_in_binary(&task.proof, number, place),
    };
    Why { number, in_proof: verdict.in_proof, start: place, length: end - place, cause: &verdict.cause }
}

/// Where the bytes from a place on meet one that ends the piece, or the end.
fn up_to(bytes: &[u8], place: usize, ends: impl Fn(u8) -> bool) -> usize {
    bytes[place..].iter().position(|&byte| ends(byte)).map_or(bytes.len(), |length| place + length)
}

/// "A line is shown without its LF"; all else is the token at the place.
fn end_in_formula(formula: &[u8], number: u32, place: usize) -> usize {
    match number {
        1 | 2 => up_to(formula, place, |byte| byte == b'\n'),
        _ => up_to(formula, place, is_apart),
    }
}

/// "One byte for 9 and 11", "a cut record [..] to the end".
fn end_of_record(proof: &[u8], number: u32, place: usize) -> usize {
    let mut reader = records::Reader::at(proof, place);
    match reader.take() {
        _ if number == 9 || number == 11 => place + 1,
        Ok(_) => reader.place(),
        Err(_) => proof.len(),
    }
}

/// "A cut record or DRAT clause to the end, a closed DRAT clause to its 0", comments between included.
fn end_in_text(text: &[u8], number: u32, place: usize) -> usize {
    if number == 3 || number == 4 {
        return up_to(text, place, is_apart);
    }
    let mut clauses = Clauses::at(text, place, VARIABLES);
    while let Some((start, token)) = clauses.token() {
        if token == b"0" {
            return start + token.len();
        }
    }
    text.len()
}

/// The groups of a literal, or a clause with its opening and its closing byte.
fn end_in_binary(proof: &[u8], number: u32, place: usize) -> usize {
    if number == 9 || place == proof.len() {
        return place + (number == 9) as usize;
    }
    let last_group = |from| up_to(proof, from, |byte| byte & 0x80 == 0);
    if number == 4 || number == 31 {
        return last_group(place) + 1;
    }
    let mut at = place + 1;
    loop {
        let last = last_group(at);
        if last == proof.len() || (last == at && proof[at] == 0) {
            return (last + 1).min(proof.len());
        }
        at = last + 1;
    }
}
