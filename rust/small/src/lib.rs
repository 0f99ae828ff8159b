//! The proved check of a formula of at most six variables by truth table: a second method beside the check over diagrams, with no
//! table. It needs neither crate `cablesalak` nor its archive.
//!
//! ```
//! use cablesalak_small::{small, Workspace};
//!
//! // Four clauses that no two truth values satisfy, and a proof of two lines: "x2", then 0.
//! let formula = b"p cnf 2 4\n1 2 0\n-1 2 0\n1 -2 0\n-1 -2 0\n";
//! let proof = b"\x4E\x02\0\0\x01\0\x52\x02\0\x52\0\0\x45";
//! let mut workspace = Workspace::new();
//! let verdict = small(&mut workspace, formula, proof);
//! assert!(verdict.refuted());
//! assert_eq!(verdict.to_string(), "0 12 2 1");
//!
//! // More than six variables are refused.
//! assert_eq!(small(&mut workspace, b"p cnf 7 0\n", b"\x45").number, 2);
//! ```
//!
//! A call takes less than 48 KiB of stack and keeps nothing between calls.

use std::fmt;

/// The least length of the member list, which has as many marks.
pub const MEMBERS: usize = 2_048;
/// The least length of the scratch list.
pub const SCRATCH: usize = 4_096;

/// The answer: the check's, without count and peak.
#[repr(C)]
#[derive(Clone, Copy, Debug, PartialEq, Eq, Hash)]
pub struct Verdict {
    /// 0: no assignment satisfies the formula; else why it is not shown, numbered as in documents 01 and 02.
    pub number: u8,
    /// Whether the place is in the proof; else it is in the formula, or the number is 7.
    pub in_proof: bool,
    /// Byte offset of what is refused, or with 0 of the end record.
    pub place: usize,
    /// The accepted lines.
    pub lines: usize,
    /// Their rounds of unit propagation.
    pub rounds: u64,
}

impl Verdict {
    /// Whether the formula is refuted: no assignment satisfies it.
    pub fn refuted(&self) -> bool {
        self.number == 0
    }
}

impl fmt::Display for Verdict {
    fn fmt(&self, out: &mut fmt::Formatter<'_>) -> fmt::Result {
        write!(out, "{} {} {} {}", self.number, self.place, self.lines, self.rounds)
    }
}

/// Owned lists of proper size.
pub struct Workspace {
    members: Vec<u64>,
    struck: Vec<u8>,
    scratch: Vec<u64>,
}

impl Workspace {
    /// Fifty kilobytes of zeros.
    pub fn new() -> Self {
        Workspace { members: vec![0; MEMBERS], struck: vec![0; MEMBERS], scratch: vec![0; SCRATCH] }
    }
}

impl Default for Workspace {
    fn default() -> Self {
        Workspace::new()
    }
}

/// The check of a formula of at most six variables and a proof in records.
pub fn small(workspace: &mut Workspace, formula: &[u8], proof: &[u8]) -> Verdict {
    let Workspace { members, struck, scratch } = workspace;
    small_lent(members, struck, scratch, formula, proof)
}

/// The same over lists of the caller's: 7 where one is of wrong size, and then nothing is changed; after every other number all three
/// hold zeros. Whatever they held before does not matter.
pub fn small_lent(
    members: &mut [u64],
    struck: &mut [u8],
    scratch: &mut [u64],
    formula: &[u8],
    proof: &[u8],
) -> Verdict {
    // SAFETY: the slices are valid for their lengths, and the lists, being `&mut`, overlap nothing; the call needs nothing more.
    unsafe {
        cablesalak_small(
            members.as_mut_ptr(),
            members.len(),
            struck.as_mut_ptr(),
            struck.len(),
            scratch.as_mut_ptr(),
            scratch.len(),
            formula.as_ptr(),
            formula.len(),
            proof.as_ptr(),
            proof.len(),
        )
    }
}

extern "C" {
    fn cablesalak_small(
        members: *mut u64,
        members_length: usize,
        struck: *mut u8,
        struck_length: usize,
        scratch: *mut u64,
        scratch_length: usize,
        formula: *const u8,
        formula_length: usize,
        proof: *const u8,
        proof_length: usize,
    ) -> Verdict;
}
