//! Small books by truth table: the check of a formula of up to six variables and of records, on words, with
//! no nodes. "It gives no count or peak."

use crate::dimacs::{Formula, Refusal};
use crate::judge::{ENTRIES, LINES};
use crate::records::{EntryId, MemberId, Reader, Record};
use crate::table::{bit, Literals};
use crate::truth::{self, Word, FALSE, TRUE, VARIABLES};

/// What the call says.
pub struct Verdict {
    pub number: u32,
    pub place: usize,
    pub lines: usize,
    pub rounds: u64,
}

/// The order of the check: formula, proof. The sizes of the lent lists are judged before.
pub fn check(formula: &[u8], proof: &[u8]) -> Verdict {
    match read_formula(formula) {
        Err(refusal) => Verdict { number: refusal.number, place: refusal.place, lines: 0, rounds: 0 },
        Ok(mut book) => {
            let (number, place) = book.records(proof);
            Verdict { number, place, lines: book.lines, rounds: book.rounds }
        }
    }
}

/// It "refuses more than six variables with 2".
fn read_formula(bytes: &[u8]) -> Result<Book, Refusal> {
    let mut formula = Formula::open(bytes, VARIABLES)?;
    let mut members = Vec::new();
    while let Some(clause) = formula.next_clause()? {
        members.push(Member { word: truth::clause(clause.literals), struck: false });
    }
    Ok(Book::new(formula.variables(), members))
}

struct Member {
    word: Word,
    struck: bool,
}

/// What stands between two records.
struct Book {
    variables: u32,
    members: Vec<Member>,
    entries: Vec<Word>,
    witness: Literals,
    lines: usize,
    rounds: u64,
    refuted: bool,
    /// Kept for the propagations, so that they need not ask for memory each time.
    working: Vec<Word>,
    sorted: Vec<Word>,
}

impl Book {
    fn new(variables: u32, members: Vec<Member>) -> Book {
        Book {
            variables,
            members,
            entries: vec![FALSE, TRUE],
            witness: Literals::default(),
            lines: 0,
            rounds: 0,
            refuted: false,
            working: Vec::new(),
            sorted: Vec::new(),
        }
    }

    /// Takes records up to the end record or a refusal: its number and place.
    fn records(&mut self, proof: &[u8]) -> (u32, usize) {
        let mut reader = Reader::new(proof);
        loop {
            let start = reader.place();
            match reader.take().and_then(|record| self.record(record).map(|()| record)) {
                Err(number) => return (number, start),
                Ok(Record::End) if !reader.at_end() => return (11, reader.place()),
                Ok(Record::End) => return (if self.refuted { 0 } else { 20 }, start),
                Ok(_) => (),
            }
        }
    }

    fn record(&mut self, record: Record) -> Result<(), u32> {
        match record {
            Record::Node { variable, low, high } => self.node(variable.into(), low, high),
            Record::Parity { set, odd } => self.parity(set, odd),
            Record::AtLeast { set, least } => {
                self.may_be_entry(set)?;
                self.entries.push(truth::at_least(set, least));
                Ok(())
            }
            Record::Witness { variable, value } => self.witness(variable.into(), value),
            Record::Strike { member } => self.strike(member),
            Record::Rup { root } => self.rup(root),
            Record::Pr { root } => self.pr(root),
            Record::Path { root } => self.path(root),
            Record::End => self.no_witness(),
        }
    }

    /// "Node: 10, 21, 12, 13, 14"; 23 cannot come.
    fn node(&mut self, variable: u32, low: EntryId, high: EntryId) -> Result<(), u32> {
        self.may_be_entry(0)?;
        self.known(variable)?;
        let (low, high) = (self.entry(low)?, self.entry(high)?);
        if [low, high].into_iter().filter_map(truth::root).any(|child| variable >= child) {
            return Err(14);
        }
        self.entries.push(truth::choice(variable, low, high));
        Ok(())
    }

    fn parity(&mut self, set: u64, odd: u8) -> Result<(), u32> {
        self.may_be_entry(set)?;
        let word = truth::odd(set);
        self.entries.push(match odd {
            0 => !word,
            1 => word,
            _ => return Err(29),
        });
        Ok(())
    }

    fn witness(&mut self, variable: u32, value: bool) -> Result<(), u32> {
        self.known(variable)?;
        if self.witness.variables() & bit(variable) != 0 {
            return Err(15);
        }
        self.witness = self.witness.with(variable, value);
        Ok(())
    }

    fn strike(&mut self, member: MemberId) -> Result<(), u32> {
        self.no_witness()?;
        let member = self.members.get_mut(usize::from(member.0)).filter(|member| !member.struck);
        member.ok_or(28u32)?.struck = true;
        Ok(())
    }

    fn rup(&mut self, root: EntryId) -> Result<(), u32> {
        let g = self.entry(root)?;
        self.no_witness()?;
        self.may_be_line(g)?;
        let live = self.live();
        let rounds = self.conflicting(&live, |f| truth::nearest(f, !g)).ok_or(19u32)?;
        self.accept(g, rounds)
    }

    fn path(&mut self, root: EntryId) -> Result<(), u32> {
        let g = self.entry(root)?;
        self.no_witness()?;
        self.may_be_line(g)?;
        let live = self.live();
        let mut rounds = 0;
        for way in truth::paths(g) {
            rounds += self.conflicting(&live, |f| truth::under(f, way)).ok_or(19u32)?;
        }
        self.accept(g, rounds)
    }

    fn pr(&mut self, root: EntryId) -> Result<(), u32> {
        let g = self.entry(root)?;
        self.may_be_line(g)?;
        if truth::under(g, self.witness) != TRUE {
            return Err(18);
        }
        let live = self.live();
        let first: Vec<Word> = live.iter().map(|&f| truth::nearest(f, !g)).collect();
        let mut rounds = 0;
        for &member in &live {
            let h = truth::under(member, self.witness);
            if h != TRUE {
                rounds += self.conflicting(&first, |f| truth::nearest(f, !h)).ok_or(19u32)?;
            }
        }
        self.accept(g, rounds)
    }

    /// The rounds of the propagation of changed members, where it conflicts.
    fn conflicting(&mut self, members: &[Word], change: impl Fn(Word) -> Word) -> Option<u64> {
        self.working.clear();
        self.working.extend(members.iter().map(|&f| change(f)));
        truth::propagate(&mut self.working, &mut self.sorted)
    }

    fn accept(&mut self, g: Word, rounds: u64) -> Result<(), u32> {
        self.lines += 1;
        self.rounds += rounds;
        self.refuted |= g == FALSE;
        self.members.push(Member { word: g, struck: false });
        self.entries.truncate(2);
        self.witness = Literals::default();
        Ok(())
    }

    fn live(&self) -> Vec<Word> {
        self.members.iter().filter(|member| !member.struck).map(|member| member.word).collect()
    }

    fn known(&self, variable: u32) -> Result<(), u32> {
        if variable == 0 || variable > self.variables {
            return Err(12);
        }
        Ok(())
    }

    /// Records of every kind that make an entry: 21, then 12 for a bit of a set beyond the header.
    fn may_be_entry(&self, set: u64) -> Result<(), u32> {
        if self.entries.len() - 2 == ENTRIES {
            return Err(21);
        }
        if set >> self.variables != 0 {
            return Err(12);
        }
        Ok(())
    }

    fn entry(&self, entry: EntryId) -> Result<Word, u32> {
        self.entries.get(usize::from(entry.0)).copied().ok_or(13)
    }

    fn no_witness(&self) -> Result<(), u32> {
        if !self.witness.is_empty() {
            return Err(16);
        }
        Ok(())
    }

    fn may_be_line(&self, g: Word) -> Result<(), u32> {
        if self.lines == LINES {
            return Err(22);
        }
        if g == TRUE {
            return Err(17);
        }
        Ok(())
    }
}
