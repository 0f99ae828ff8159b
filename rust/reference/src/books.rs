//! Two rule books on one table, "each with its own members and a fixed share of places".
//!
//! "A book's charge is what the count less 2 would be if it worked alone": each book is judged in a table of
//! its own with its share and 2 places more. What stays of a call that is accepted is placed in the shared
//! table too, which only shows where the nodes stand. All others drop "only what [their] own call placed".

use crate::check::{lists_are_right, read_formula};
use crate::index::Sizes;
use crate::judge::{Judge, Member, Profile};
use crate::operate::Diagrams;
use crate::records::{EntryId, Reader, Record};
use crate::table::{Full, NodeId, Table, ONE, SMALLEST, ZERO};
use crate::tally::{self, Tally};
use crate::why::Outcome;

/// Accepted so far.
const ACCEPTED: u32 = 35;

/// The sizes of the lent parts and the shares, of the first book and of the second.
pub struct Opening {
    pub table: Sizes,
    pub members: [u64; 2],
    pub scratch: u64,
    pub shares: [u64; 2],
}

/// What a call says: number, place, lines, rounds, peak.
#[derive(Clone, Copy, PartialEq, Eq, Debug, Default)]
pub struct Said {
    pub number: u32,
    pub place: usize,
    pub lines: usize,
    pub rounds: u64,
    pub peak: usize,
}

impl Said {
    pub fn early(number: u32) -> Said {
        Said { number, ..Said::default() }
    }
}

struct Book {
    alone: Diagrams,
    /// From the formula on.
    judge: Option<Judge>,
    /// The nodes of the members in the shared table.
    nodes: Vec<NodeId>,
    /// What every later call repeats.
    last: Option<Said>,
}

pub struct Books {
    shared: Diagrams,
    books: [Book; 2],
}

impl Books {
    /// "The opening refuses, after 7, shares that do not fit with 32, else gives 35 and zeros."
    pub fn open(opening: &Opening) -> Result<Books, Said> {
        let lists = opening.members.iter().all(|&members| lists_are_right(members, opening.scratch));
        if !opening.table.are_right() || !lists {
            return Err(Said::early(7));
        }
        let [a, b] = opening.shares;
        if a.saturating_add(b).saturating_add(SMALLEST) > opening.table.places {
            return Err(Said::early(32));
        }
        let mut shared = Diagrams::new();
        shared.reset(opening.table.places as usize);
        Ok(Books { shared, books: [Book::new(a), Book::new(b)] })
    }

    pub fn opened() -> Said {
        Said::early(ACCEPTED)
    }

    /// The next call of a book: "a book's first reading its formula, each later one a whole line or the end".
    pub fn call(&mut self, which: usize, bytes: &[u8]) -> Said {
        let (shared, book) = (&mut self.shared, &mut self.books[which]);
        if let Some(said) = book.last {
            return said;
        }
        let outcome = book.call(shared, bytes);
        let (lines, rounds) = book.judge.as_ref().map_or((0, 0), |judge| (judge.lines(), judge.rounds()));
        let peak = book.alone.table.peak() - SMALLEST as usize;
        let said = Said { number: outcome.number, place: outcome.place, lines, rounds, peak };
        if said.number != ACCEPTED {
            book.last = Some(said);
        }
        said
    }

    pub fn table(&self) -> &Table {
        &self.shared.table
    }

    /// The members of a book by their nodes in the shared table.
    pub fn members(&self, which: usize) -> Vec<Member> {
        let book = &self.books[which];
        let judged = book.judge.as_ref().map_or(&[][..], Judge::members);
        let shown = |(&node, member): (&NodeId, &Member)| Member { node, ..*member };
        book.nodes.iter().zip(judged).map(shown).collect()
    }
}

impl Book {
    fn new(share: u64) -> Book {
        let mut alone = Diagrams::new();
        alone.reset((share + SMALLEST) as usize);
        Book { alone, judge: None, nodes: Vec::new(), last: None }
    }

    fn call(&mut self, shared: &mut Diagrams, bytes: &[u8]) -> Outcome {
        let Some(judge) = &mut self.judge else {
            return self.formula(shared, bytes);
        };
        let outcome = judge.call(&mut self.alone, bytes);
        self.alone.drop_to(judge.kept());
        if outcome.number == ACCEPTED {
            self.nodes.push(place(shared, bytes).expect(FITS));
        }
        outcome
    }

    fn formula(&mut self, shared: &mut Diagrams, bytes: &[u8]) -> Outcome {
        match read_formula(&mut self.alone, bytes) {
            Err(refusal) => {
                self.alone.drop_to(SMALLEST as usize);
                Outcome::plain(refusal.number, refusal.place)
            }
            Ok((variables, members)) => {
                let count = self.alone.table.count();
                self.judge = Some(Judge::new(Profile::Redundance, variables, members, count));
                let (_, members) = read_formula(shared, bytes).expect(FITS);
                self.nodes = members.iter().map(|member| member.node).collect();
                Outcome::plain(ACCEPTED, bytes.len())
            }
        }
    }
}

/// "The shares' sum plus 2 is at most the size", and no charge passes its share.
const FITS: &str = "what two books keep fits their shares";

/// Places the nodes of an accepted line's entries, and gives the line's.
fn place(shared: &mut Diagrams, bytes: &[u8]) -> Result<NodeId, Full> {
    let mut reader = Reader::new(bytes);
    let mut entries = vec![ZERO, ONE];
    loop {
        let at = |entry: EntryId| entries[usize::from(entry.0)];
        let made = match reader.take() {
            Ok(Record::Node { variable, low, high }) => shared.table.make(variable.into(), at(low), at(high))?,
            Ok(Record::Parity { set, odd: 1 }) => tally::make(shared, set, Tally::Odd)?,
            Ok(Record::Parity { set, .. }) => tally::make(shared, set, Tally::Even)?,
            Ok(Record::AtLeast { set, least }) => tally::make(shared, set, Tally::AtLeast(least))?,
            Ok(Record::Rup { root } | Record::Pr { root } | Record::Path { root }) => return Ok(at(root)),
            Ok(Record::Witness { .. } | Record::Strike { .. }) => continue,
            Ok(Record::End) | Err(_) => unreachable!("an accepted call has its line"),
        };
        entries.push(made);
    }
}
