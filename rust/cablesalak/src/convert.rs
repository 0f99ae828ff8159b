//! DRAT proofs from text to binary and back.

use crate::raw::{self, Converted};
use crate::Number;
use std::error::Error;
use std::fmt;

/// Why a proof is not converted, and where.
#[derive(Clone, Copy, Debug, PartialEq, Eq, Hash)]
#[non_exhaustive]
pub struct NotConverted {
    /// 3, 4 or 6 of a text; 4, 6, 9 or 31 of a binary proof.
    pub number: Number,
    /// A byte offset in the proof.
    pub place: usize,
}

impl fmt::Display for NotConverted {
    fn fmt(&self, out: &mut fmt::Formatter<'_>) -> fmt::Result {
        write!(out, "{} at byte {}: {}", self.number.code(), self.place, self.number)
    }
}

impl Error for NotConverted {}

/// A DRAT text in binary. Comments are left out; no clause is judged.
///
/// ```
/// use cablesalak::{to_binary, to_text};
///
/// let binary = to_binary(b"c to strike out\n-64 1\t0 d 2 0")?;
/// assert_eq!(binary, [0x61, 0x81, 0x01, 0x02, 0x00, 0x64, 0x04, 0x00]);
/// // Back: single spaces, a clause a line, no comments.
/// assert_eq!(to_text(&binary)?, b"-64 1 0\nd 2 0\n");
/// # Ok::<(), cablesalak::NotConverted>(())
/// ```
pub fn to_binary(text: &[u8]) -> Result<Vec<u8>, NotConverted> {
    // An empty clause is `0` in text and two bytes in binary; nothing grows more.
    converted(raw::to_binary, text, 2)
}

/// A binary DRAT proof as text: single spaces, a clause a line. Text there and back is the text without comments and with single
/// spaces; binary there and back is the same bytes.
pub fn to_text(binary: &[u8]) -> Result<Vec<u8>, NotConverted> {
    // -63 is one byte in binary and four in text, its space with it; nothing grows more.
    converted(raw::to_text, binary, 4)
}

/// Converts with so many times the proof's length as room.
fn converted(convert: fn(&[u8], &mut [u8]) -> Converted, proof: &[u8], growth: usize) -> Result<Vec<u8>, NotConverted> {
    let mut out = vec![0; growth * proof.len()];
    let Converted { number, place, length } = convert(proof, &mut out);
    match Number::said(number) {
        Number::Refuted => {
            out.truncate(length);
            Ok(out)
        }
        number => Err(NotConverted { number, place }),
    }
}
