//! Two rule books that share one table, checked call by call by the proved library. It needs neither crate `cablesalak` nor its archive.
//!
//! Each book has a fixed share of the table's places. Its first call reads its formula, each later one a whole line, with the records
//! before it, or the end; the calls of the two books come in any order.
//!
//! ```
//! use cablesalak_books::{Book, Books};
//!
//! // Four clauses that no two truth values satisfy; the lines "x2" and 0; the end.
//! let formula = b"p cnf 2 4\n1 2 0\n-1 2 0\n1 -2 0\n-1 -2 0\n";
//! let mut books = Books::open(22, [10, 10])?;
//! assert_eq!(books.call(Book::First, formula).to_string(), "35 38 0 0 6");
//! assert_eq!(books.call(Book::Second, formula).to_string(), "35 38 0 0 6");
//! assert_eq!(books.call(Book::First, b"\x4E\x02\0\0\x01\0\x52\x02\0").to_string(), "35 9 1 0 8");
//! assert_eq!(books.call(Book::First, b"\x52\0\0").to_string(), "35 3 2 1 8");
//! let answer = books.call(Book::First, b"\x45");
//! assert!(answer.refuted());
//! assert_eq!(answer.to_string(), "0 0 2 1 8");
//!
//! // The second book has no line of its own: what the first one has shown is none of its members.
//! assert_eq!(books.call(Book::Second, b"\x52\0\0").number, 19);
//! # Ok::<(), cablesalak_books::NotOpened>(())
//! ```
//!
//! # What may be relied on
//!
//! [`Books`] owns the table, its index, all lists and what is kept for both books, and shows none of them. So every call gets them as the
//! opening or the last call of either book left them, and safe code cannot change that. Then, as is proved:
//!
//! - a book's calls get the same answers whatever the other book's calls are;
//! - with number 0 no assignment satisfies the book's formula;
//! - no call gives 7 or 26.
//!
//! Module [`raw`] has the calls over lists of the caller's, for a caller who stores them himself.
//!
//! # Stack and threads
//!
//! A call takes less than 1.625 MiB of stack, whatever the table. [`Books`] can be sent to another thread; its calls follow one another.

#![deny(unsafe_code)]

#[allow(unsafe_code)]
pub mod raw;

use raw::{BookMut, Kept, TableMut};
use std::error::Error;
use std::fmt;
use std::ops::RangeInclusive;

/// The sizes that a table may have.
pub const PLACES: RangeInclusive<usize> = 2..=65_536;
/// The least length of a member list, which has as many marks.
pub const MEMBERS: usize = 2_048;
/// The least length of the scratch list.
pub const SCRATCH: usize = 4_096;
/// The number of a call that is accepted so far.
pub const ACCEPTED: u8 = 35;

/// One of the two books.
#[derive(Clone, Copy, Debug, PartialEq, Eq, Hash)]
pub enum Book {
    First,
    Second,
}

/// What a book's call answers. Lines, rounds and peak run on from the book's first call. Written out with `{}` it is the five numbers.
#[derive(Clone, Copy, Debug, PartialEq, Eq, Hash)]
pub struct Answer {
    /// 35: accepted so far; 0: no assignment satisfies the book's formula; else why it is refused, numbered as in documents 01 and 02.
    pub number: u8,
    /// Byte offset in the call's bytes of what is refused, or with 0 of the end record; their length with 35.
    pub place: usize,
    /// The book's accepted lines.
    pub lines: usize,
    /// Their rounds of unit propagation.
    pub rounds: u64,
    /// The greatest charge of the book: the most nodes that it had at once, whoever placed them.
    pub peak: usize,
}

impl Answer {
    /// Whether the book's formula is refuted: no assignment satisfies it.
    pub fn refuted(&self) -> bool {
        self.number == 0
    }

    /// Whether the call is accepted and the book goes on.
    pub fn accepted(&self) -> bool {
        self.number == ACCEPTED
    }
}

impl fmt::Display for Answer {
    fn fmt(&self, out: &mut fmt::Formatter<'_>) -> fmt::Result {
        write!(out, "{} {} {} {} {}", self.number, self.place, self.lines, self.rounds, self.peak)
    }
}

/// Why an opening is refused: 7, the table has fewer than 2 or more than 65,536 places; 32, the shares' sum plus 2 is greater than its places.
#[derive(Clone, Copy, Debug, PartialEq, Eq, Hash)]
pub struct NotOpened {
    pub number: u8,
}

impl fmt::Display for NotOpened {
    fn fmt(&self, out: &mut fmt::Formatter<'_>) -> fmt::Result {
        match self.number {
            7 => out.write_str("a table has 2 to 65,536 places"),
            32 => out.write_str("two books' shares do not fit the table"),
            number => write!(out, "not opened: {number}"),
        }
    }
}

impl Error for NotOpened {}

/// The lists of one book, and what is kept for it.
#[derive(Clone)]
struct Held {
    own: Vec<u16>,
    members: Vec<u16>,
    struck: Vec<u8>,
    kept: Kept,
}

impl Held {
    fn new(places: usize) -> Held {
        Held { own: vec![0; places], members: vec![0; MEMBERS], struck: vec![0; MEMBERS], kept: Kept::default() }
    }

    fn lend(&mut self) -> BookMut<'_> {
        let Held { own, members, struck, .. } = self;
        BookMut { own, members, struck }
    }
}

/// Two books on one table. All of it is private:
///
/// ```compile_fail
/// let mut books = cablesalak_books::Books::open(22, [10, 10]).unwrap();
/// books.count = 3;
/// ```
#[derive(Clone)]
pub struct Books {
    vars: Vec<u8>,
    lows: Vec<u16>,
    highs: Vec<u16>,
    heads: Vec<u16>,
    links: Vec<u16>,
    scratch: Vec<u16>,
    count: usize,
    held: [Held; 2],
}

impl Books {
    /// A table of so many places, opened for two books with these shares.
    pub fn open(places: usize, shares: [usize; 2]) -> Result<Books, NotOpened> {
        // A larger table is refused without the memory for it.
        let size = places.min(PLACES.end() + 1);
        let column = || vec![0; size];
        let mut books = Books {
            vars: vec![0; size],
            lows: column(),
            highs: column(),
            heads: vec![0; 2 * size],
            links: column(),
            scratch: vec![0; SCRATCH],
            count: 2,
            held: [Held::new(size), Held::new(size)],
        };
        books.reopen(shares)?;
        Ok(books)
    }

    /// The same table emptied, and opened for two other books. A refused opening leaves the books that are there.
    pub fn reopen(&mut self, shares: [usize; 2]) -> Result<(), NotOpened> {
        let Books { vars, lows, highs, heads, links, scratch, count, held } = self;
        let kept = [held[0].kept, held[1].kept];
        let [first, second] = held;
        let mut table = TableMut { vars, lows, highs, heads, links };
        let said = raw::open(&mut table, [&mut first.lend(), &mut second.lend()], scratch, *count, kept, shares);
        (*count, first.kept, second.kept) = (said.count, said.first, said.second);
        match said.number {
            ACCEPTED => Ok(()),
            number => Err(NotOpened { number }),
        }
    }

    /// A book's next call: its formula first, then a line or the end.
    pub fn call(&mut self, book: Book, bytes: &[u8]) -> Answer {
        let Books { vars, lows, highs, heads, links, scratch, count, held } = self;
        let held = &mut held[book as usize];
        let (kept, mut table) = (held.kept, TableMut { vars, lows, highs, heads, links });
        let said = raw::book(&mut table, &mut held.lend(), scratch, *count, kept, bytes);
        (*count, held.kept) = (said.count, said.book);
        Answer { number: said.number, place: said.place, lines: said.lines, rounds: said.rounds, peak: said.peak }
    }

    /// A book's share of places.
    pub fn share(&self, book: Book) -> usize {
        self.held[book as usize].kept.share
    }

    /// What binds a book that is refused or refuted: every later call of it gives this answer. `None` while it goes on.
    pub fn bound(&self, book: Book) -> Option<Answer> {
        let Kept { stage, number, place, lines, rounds, peak, .. } = self.held[book as usize].kept;
        (stage > 1).then_some(Answer { number, place, lines, rounds, peak })
    }
}

/// The places and the shares; neither the nodes nor the count, which are shown to neither book.
impl fmt::Debug for Books {
    fn fmt(&self, out: &mut fmt::Formatter<'_>) -> fmt::Result {
        let shares = [self.share(Book::First), self.share(Book::Second)];
        out.debug_struct("Books").field("places", &self.vars.len()).field("shares", &shares).finish_non_exhaustive()
    }
}
