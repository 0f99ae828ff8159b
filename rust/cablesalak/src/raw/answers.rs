//! What the archive's calls answer, laid out as it was compiled.

use std::mem::{offset_of, size_of};

/// Evaluation's answer.
#[repr(C)]
#[derive(Clone, Copy, Debug, PartialEq, Eq)]
pub struct Evaluated {
    pub number: u8,
    pub yes: bool,
    pub count: usize,
}

/// The answer of a single call that makes nodes.
#[repr(C)]
#[derive(Clone, Copy, Debug, PartialEq, Eq)]
pub struct Single {
    pub number: u8,
    pub node: u16,
    pub count: usize,
}

/// The answer of the call for "at least k of a set".
#[repr(C)]
#[derive(Clone, Copy, Debug, PartialEq, Eq)]
pub struct AtLeast {
    pub number: u8,
    pub node: u16,
    pub count: usize,
    pub counted: bool,
    pub excluded: u64,
}

/// The answer of the check of a formula and a proof.
#[repr(C)]
#[derive(Clone, Copy, Debug, PartialEq, Eq)]
pub struct Checked {
    pub number: u8,
    /// Whether the place is in the proof; else it is in the formula, or the number is 7.
    pub in_proof: bool,
    pub place: usize,
    pub lines: usize,
    pub rounds: u64,
    pub count: usize,
    pub peak: usize,
}

/// The answer of a conversion.
#[repr(C)]
#[derive(Clone, Copy, Debug, PartialEq, Eq)]
pub struct Converted {
    pub number: u8,
    /// 0 if not refused, and with 7.
    pub place: usize,
    /// Of the result; 0 with a refusal.
    pub length: usize,
}

/// The answer of the call that explains a refusal.
#[repr(C)]
#[derive(Clone, Copy, Debug, PartialEq, Eq)]
pub struct Why {
    /// The check's, or 30 where it did not refuse.
    pub number: u8,
    /// Whether the piece is of the proof; else it is of the formula, or the number is 7 or 30.
    pub in_proof: bool,
    /// Where the piece starts, and the place behind its last byte.
    pub start: usize,
    pub end: usize,
    /// With 14: the record's variable, and that of the child that it is not before.
    pub variable: u8,
    pub child: u8,
    /// With 18: the assignment, bit i - 1 for variable i.
    pub word: u64,
    /// With 19: how many rounds fixed literals, two words each in the lent list.
    pub rounds: usize,
    pub has_member: bool,
    pub member: usize,
    /// The table's count; as lent with 7.
    pub count: usize,
}

/// How many bytes a line can have: see [`report`](super::report).
pub const LINE: usize = 105;

/// The answer of the report on two files.
#[repr(C)]
#[derive(Clone, Copy, Debug, PartialEq, Eq)]
pub struct Told {
    pub length: usize,
    pub status: u8,
}

// The C header asserts the same.
const _: () = {
    assert!(size_of::<usize>() == 8);
    assert!(size_of::<Evaluated>() == 16 && offset_of!(Evaluated, yes) == 1 && offset_of!(Evaluated, count) == 8);
    assert!(size_of::<Single>() == 16 && offset_of!(Single, node) == 2 && offset_of!(Single, count) == 8);
    assert!(size_of::<AtLeast>() == 32 && offset_of!(AtLeast, node) == 2 && offset_of!(AtLeast, count) == 8);
    assert!(offset_of!(AtLeast, counted) == 16 && offset_of!(AtLeast, excluded) == 24);
    assert!(size_of::<Checked>() == 48 && offset_of!(Checked, place) == 8 && offset_of!(Checked, lines) == 16);
    assert!(offset_of!(Checked, in_proof) == 1);
    assert!(offset_of!(Checked, rounds) == 24 && offset_of!(Checked, count) == 32 && offset_of!(Checked, peak) == 40);
    assert!(size_of::<Converted>() == 24 && offset_of!(Converted, place) == 8 && offset_of!(Converted, length) == 16);
    assert!(size_of::<Why>() == 72 && offset_of!(Why, in_proof) == 1 && offset_of!(Why, start) == 8);
    assert!(offset_of!(Why, end) == 16 && offset_of!(Why, variable) == 24 && offset_of!(Why, child) == 25);
    assert!(offset_of!(Why, word) == 32 && offset_of!(Why, rounds) == 40 && offset_of!(Why, has_member) == 48);
    assert!(offset_of!(Why, member) == 56 && offset_of!(Why, count) == 64);
    assert!(size_of::<Told>() == 16 && offset_of!(Told, length) == 0 && offset_of!(Told, status) == 8);
};
