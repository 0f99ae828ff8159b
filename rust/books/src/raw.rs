//! The archive's two calls, and a safe function over slices for each.
//!
//! Memory is safe whatever is lent here. But 0 says that no assignment satisfies a book's formula, and a book's answers are independent of
//! the other book, only while each call is lent what the opening or the last call of either book left, as [`Books`](crate::Books) does.

/// What is kept for a book.
#[repr(C)]
#[derive(Clone, Copy, Debug, Default, PartialEq, Eq, Hash)]
pub struct Kept {
    /// The book's share of places.
    pub share: usize,
    /// 0: its formula is still to be read; 1: lines are awaited; any other: it is bound, and repeats `number` and `place`.
    pub stage: u8,
    pub number: u8,
    pub place: usize,
    /// That the header names.
    pub variables: u8,
    pub clauses: usize,
    /// The accepted lines.
    pub lines: usize,
    /// Their rounds of unit propagation.
    pub rounds: u64,
    /// How many nodes are the book's own.
    pub charge: usize,
    /// The greatest charge so far, dropped nodes included.
    pub peak: usize,
    /// 0 unless an accepted line is the diagram 0.
    pub refuted: u8,
}

/// What a book's call answers.
#[repr(C)]
#[derive(Clone, Copy, Debug, PartialEq, Eq, Hash)]
pub struct Booked {
    pub number: u8,
    pub place: usize,
    pub lines: usize,
    pub rounds: u64,
    pub peak: usize,
    /// The shared table's count after the call.
    pub count: usize,
    pub book: Kept,
}

/// What the opening answers.
#[repr(C)]
#[derive(Clone, Copy, Debug, PartialEq, Eq, Hash)]
pub struct Opening {
    pub number: u8,
    pub count: usize,
    pub first: Kept,
    pub second: Kept,
}

/// The columns of a lent table, and its index.
pub struct TableMut<'a> {
    pub vars: &'a mut [u8],
    pub lows: &'a mut [u16],
    pub highs: &'a mut [u16],
    pub heads: &'a mut [u16],
    pub links: &'a mut [u16],
}

/// The lists that are lent for a book.
pub struct BookMut<'a> {
    /// The numbers of its own nodes.
    pub own: &'a mut [u16],
    pub members: &'a mut [u16],
    /// A mark for each place of the member list.
    pub struck: &'a mut [u8],
}

/// The opening for two books with these shares: 7 or 32, and nothing is changed; or 35.
pub fn open(
    table: &mut TableMut<'_>,
    books: [&mut BookMut<'_>; 2],
    scratch: &mut [u16],
    count: usize,
    kept: [Kept; 2],
    shares: [usize; 2],
) -> Opening {
    let TableMut { vars, lows, highs, heads, links } = table;
    let [first, second] = books;
    // SAFETY: the slices are valid for their lengths, and being `&mut` overlap nothing; the call needs nothing more.
    unsafe {
        cablesalak_open(
            vars.as_mut_ptr(),
            vars.len(),
            lows.as_mut_ptr(),
            lows.len(),
            highs.as_mut_ptr(),
            highs.len(),
            heads.as_mut_ptr(),
            heads.len(),
            links.as_mut_ptr(),
            links.len(),
            first.own.as_mut_ptr(),
            first.own.len(),
            first.members.as_mut_ptr(),
            first.members.len(),
            first.struck.as_mut_ptr(),
            first.struck.len(),
            second.own.as_mut_ptr(),
            second.own.len(),
            second.members.as_mut_ptr(),
            second.members.len(),
            second.struck.as_mut_ptr(),
            second.struck.len(),
            scratch.as_mut_ptr(),
            scratch.len(),
            count,
            kept[0],
            kept[1],
            shares[0],
            shares[1],
        )
    }
}

/// A book's call.
pub fn book(
    table: &mut TableMut<'_>,
    book: &mut BookMut<'_>,
    scratch: &mut [u16],
    count: usize,
    kept: Kept,
    bytes: &[u8],
) -> Booked {
    let TableMut { vars, lows, highs, heads, links } = table;
    // SAFETY: as in `open`; `bytes` is only read.
    unsafe {
        cablesalak_book(
            vars.as_mut_ptr(),
            vars.len(),
            lows.as_mut_ptr(),
            lows.len(),
            highs.as_mut_ptr(),
            highs.len(),
            heads.as_mut_ptr(),
            heads.len(),
            links.as_mut_ptr(),
            links.len(),
            book.own.as_mut_ptr(),
            book.own.len(),
            book.members.as_mut_ptr(),
            book.members.len(),
            book.struck.as_mut_ptr(),
            book.struck.len(),
            scratch.as_mut_ptr(),
            scratch.len(),
            count,
            kept,
            bytes.as_ptr(),
            bytes.len(),
        )
    }
}

extern "C" {
    fn cablesalak_open(
        vars: *mut u8,
        vars_length: usize,
        lows: *mut u16,
        lows_length: usize,
        highs: *mut u16,
        highs_length: usize,
        heads: *mut u16,
        heads_length: usize,
        links: *mut u16,
        links_length: usize,
        first_own: *mut u16,
        first_own_length: usize,
        first_members: *mut u16,
        first_members_length: usize,
        first_struck: *mut u8,
        first_struck_length: usize,
        second_own: *mut u16,
        second_own_length: usize,
        second_members: *mut u16,
        second_members_length: usize,
        second_struck: *mut u8,
        second_struck_length: usize,
        scratch: *mut u16,
        scratch_length: usize,
        count: usize,
        first: Kept,
        second: Kept,
        first_share: usize,
        second_share: usize,
    ) -> Opening;

    fn cablesalak_book(
        vars: *mut u8,
        vars_length: usize,
        lows: *mut u16,
        lows_length: usize,
        highs: *mut u16,
        highs_length: usize,
        heads: *mut u16,
        heads_length: usize,
        links: *mut u16,
        links_length: usize,
        own: *mut u16,
        own_length: usize,
        members: *mut u16,
        members_length: usize,
        struck: *mut u8,
        struck_length: usize,
        scratch: *mut u16,
        scratch_length: usize,
        count: usize,
        book: Kept,
        bytes: *const u8,
        bytes_length: usize,
    ) -> Booked;
}

/// The layout that the archive was compiled with, as `include/cablesalak_books.h` asserts it.
const _: () = {
    use std::mem::{offset_of, size_of};
    assert!(size_of::<Kept>() == 80 && size_of::<Booked>() == 128 && size_of::<Opening>() == 176);
    assert!(offset_of!(Kept, stage) == 8 && offset_of!(Kept, number) == 9 && offset_of!(Kept, place) == 16);
    assert!(offset_of!(Kept, variables) == 24 && offset_of!(Kept, clauses) == 32 && offset_of!(Kept, lines) == 40);
    assert!(offset_of!(Kept, rounds) == 48 && offset_of!(Kept, charge) == 56 && offset_of!(Kept, peak) == 64);
    assert!(offset_of!(Kept, refuted) == 72);
    assert!(offset_of!(Booked, place) == 8 && offset_of!(Booked, count) == 40 && offset_of!(Booked, book) == 48);
    assert!(offset_of!(Opening, count) == 8 && offset_of!(Opening, first) == 16 && offset_of!(Opening, second) == 96);
};
