//! Stored proofs from DRAT text to binary DRAT and back.

use crate::binary::{self, push_literal, ADDED, STRUCK};
use crate::dimacs::{Clauses, Refusal};
use crate::table::{Literals, VARIABLES};
use crate::words::push_number;

/// "A conversion gives number, place (0 if not refused) and the result's length; each refusal, 7 too, gives
/// length 0 and zeroes the output, which is zero past the result."
pub struct Converted {
    pub number: u32,
    pub place: usize,
    pub length: usize,
    pub output: Vec<u8>,
}

/// Into an output of a size: "last, too small an output with 7".
pub fn into_output(result: Result<Vec<u8>, Refusal>, size: usize) -> Converted {
    let fitting = result.and_then(|bytes| match bytes.len() <= size {
        true => Ok(bytes),
        false => Err(Refusal { number: 7, place: 0 }),
    });
    let (number, place, mut output) = match fitting {
        Ok(bytes) => (0, 0, bytes),
        Err(refusal) => (refusal.number, refusal.place, Vec::new()),
    };
    let length = output.len();
    output.resize(size, 0);
    Converted { number, place, length, output }
}

pub fn to_binary(text: &[u8]) -> Result<Vec<u8>, Refusal> {
    let mut clauses = Clauses::new(text, VARIABLES);
    let mut out = Vec::new();
    while let Some((place, token)) = clauses.token() {
        let strikes = token == b"d";
        out.push(if strikes { STRUCK } else { ADDED });
        let mut token = if strikes { clauses.token() } else { Some((place, token)) };
        loop {
            let literal = clauses.literal(token.ok_or(Refusal { number: 6, place })?)?;
            if literal.is_empty() {
                break;
            }
            push_literal(&mut out, literal);
            token = clauses.token();
        }
        out.push(0);
    }
    Ok(out)
}

/// "The text with single spaces, one clause a line ended by LF, no comments."
pub fn to_text(bytes: &[u8]) -> Result<Vec<u8>, Refusal> {
    let mut clauses = binary::Reader::new(bytes, VARIABLES);
    let mut out = Vec::new();
    while let Some((place, opening)) = clauses.open()? {
        if opening == STRUCK {
            out.extend(b"d ");
        }
        loop {
            let literal = clauses.literal(place)?;
            if literal.is_empty() {
                break;
            }
            push_text(&mut out, literal);
        }
        out.extend(b"0\n");
    }
    Ok(out)
}

fn push_text(out: &mut Vec<u8>, literal: Literals) {
    if literal.no != 0 {
        out.push(b'-');
    }
    push_number(out, u64::from(literal.variables().trailing_zeros()) + 1);
    out.push(b' ');
}
