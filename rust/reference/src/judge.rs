//! The proof, record by record: what stands between two records, and what each of them does.

use crate::operate::Diagrams;
use crate::paths;
use crate::records::{EntryId, MemberId, Reader, Record};
use crate::rules::{self, Fault};
use crate::table::{bit, Full, Literals, NodeId, ONE, ZERO};
use crate::tally::{self, Tally};
use crate::why::{Cause, Outcome, Refused};

pub const ENTRIES: usize = 4_096;
pub const LINES: usize = 1_024;
/// The most paths to 0 of a path line.
const PATHS: usize = 4_096;

/// A clause or an accepted line: "each member gains a mark in the list, 1 once struck, else 0".
#[derive(Clone, Copy, PartialEq, Eq, Debug)]
pub struct Member {
    pub node: NodeId,
    pub struck: bool,
}

impl Member {
    pub fn live(node: NodeId) -> Member {
        Member { node, struck: false }
    }
}

/// What lines may pass. "In this profile only RUP lines and strikings pass, and DRAT clauses only by their
/// first try"; it admits path lines.
#[derive(Clone, Copy, PartialEq, Eq, Debug)]
pub enum Profile {
    Redundance,
    Consequence,
}

pub struct Judge {
    profile: Profile,
    variables: u32,
    /// Clauses and accepted lines; "numbers are not reused", so struck ones keep their places.
    members: Vec<Member>,
    /// The nodes of the entries since the last accepted line, the constants first.
    entries: Vec<NodeId>,
    witness: Literals,
    /// The count at the last accepted line, or after the clauses.
    kept: usize,
    lines: usize,
    rounds: u64,
    /// Whether an accepted line is 0, struck later or not.
    refuted: bool,
}

impl Judge {
    /// After the clauses, which took the places below the count.
    pub fn new(profile: Profile, variables: u32, members: Vec<Member>, count: usize) -> Judge {
        Judge {
            profile,
            variables,
            members,
            entries: vec![ZERO, ONE],
            witness: Literals::default(),
            kept: count,
            lines: 0,
            rounds: 0,
            refuted: false,
        }
    }

    pub fn profile(&self) -> Profile {
        self.profile
    }

    pub fn variables(&self) -> u32 {
        self.variables
    }

    pub fn members(&self) -> &[Member] {
        &self.members
    }

    pub fn into_members(self) -> Vec<Member> {
        self.members
    }

    pub fn kept(&self) -> usize {
        self.kept
    }

    pub fn lines(&self) -> usize {
        self.lines
    }

    pub fn rounds(&self) -> u64 {
        self.rounds
    }

    pub fn refuted(&self) -> bool {
        self.refuted
    }

    /// Takes records up to the end record or a refusal: its number and place.
    pub fn records(&mut self, d: &mut Diagrams, proof: &[u8]) -> Outcome {
        let mut reader = Reader::new(proof);
        loop {
            let start = reader.place();
            let taken = match reader.take() {
                Err(number) => Err(number.into()),
                Ok(Record::End) => return self.end(&reader, start),
                Ok(record) => self.record(d, record),
            };
            if let Err(refused) = taken {
                return refused.at(start);
            }
        }
    }

    /// Takes the records of a book's call, "a whole line or the end": "35, at the length of the call's bytes,
    /// means accepted so far; bytes after a line are 11, just after 10".
    pub fn call(&mut self, d: &mut Diagrams, bytes: &[u8]) -> Outcome {
        let mut reader = Reader::new(bytes);
        loop {
            let start = reader.place();
            let record = match reader.take() {
                Err(number) => return Outcome::plain(number, start),
                Ok(Record::End) => return self.end(&reader, start),
                Ok(record) => record,
            };
            if record.is_line() && !reader.at_end() {
                return Outcome::plain(11, reader.place());
            }
            match self.record(d, record) {
                Err(refused) => return refused.at(start),
                Ok(()) if record.is_line() => return Outcome::plain(35, bytes.len()),
                Ok(()) => (),
            }
        }
    }

    /// Takes a record other than the end.
    fn record(&mut self, d: &mut Diagrams, record: Record) -> Result<(), Refused> {
        match record {
            Record::Node { variable, low, high } => self.node(d, variable.into(), low, high),
            Record::Witness { variable, value } => Ok(self.witness(variable.into(), value)?),
            Record::Rup { root } => self.rup(d, root),
            Record::Pr { root } => self.pr(d, root),
            Record::Path { root } => self.path(d, root),
            Record::Strike { member } => Ok(self.strike(member)?),
            Record::Parity { set, odd } => self.parity(d, set, odd),
            Record::AtLeast { set, least } => self.at_least(d, set, least),
            Record::End => Ok(()),
        }
    }

    /// "Node: 10, 21, 12, 13, 14, 23."
    fn node(&mut self, d: &mut Diagrams, variable: u32, low: EntryId, high: EntryId) -> Result<(), Refused> {
        self.may_be_entry()?;
        self.known_variable(variable)?;
        let (low, high) = (self.entry(low)?, self.entry(high)?);
        let mut levels = [low, high].into_iter().map(|child| d.table.level(child));
        if let Some(level) = levels.find(|&level| variable >= level) {
            return Err(Refused { number: 14, cause: Cause::Variables(variable, level) });
        }
        let node = d.table.make(variable, low, high).map_err(|Full| 23u32)?;
        self.entries.push(node);
        Ok(())
    }

    /// "It refuses, after 10 and 21, a set bit beyond the header with 12, a parity byte above 1 with 29,
    /// then 23."
    fn parity(&mut self, d: &mut Diagrams, set: u64, odd: u8) -> Result<(), Refused> {
        self.may_be_entry()?;
        self.known_set(set)?;
        let tally = match odd {
            0 => Tally::Even,
            1 => Tally::Odd,
            _ => return Err(29.into()),
        };
        self.tally(d, set, tally)
    }

    fn at_least(&mut self, d: &mut Diagrams, set: u64, least: u8) -> Result<(), Refused> {
        self.may_be_entry()?;
        self.known_set(set)?;
        self.tally(d, set, Tally::AtLeast(least))
    }

    fn tally(&mut self, d: &mut Diagrams, set: u64, tally: Tally) -> Result<(), Refused> {
        let node = tally::make(d, set, tally).map_err(|Full| 23u32)?;
        self.entries.push(node);
        Ok(())
    }

    /// "Witness: 10, 12, 15."
    fn witness(&mut self, variable: u32, value: bool) -> Result<(), u32> {
        self.known_variable(variable)?;
        if self.witness.variables() & bit(variable) != 0 {
            return Err(15);
        }
        self.witness = self.witness.with(variable, value);
        Ok(())
    }

    /// "RUP: 10, 13, 16, 22, 17, then 19 or 23, the one met first."
    fn rup(&mut self, d: &mut Diagrams, root: EntryId) -> Result<(), Refused> {
        let g = self.entry(root)?;
        self.no_witness()?;
        self.may_be_line(g == ONE)?;
        let kept = d.table.count();
        let shown = rules::rup(d, &self.live(), g);
        self.close(d, g, kept, shown)
    }

    /// "PR: 10, 13, 22, 17, 18, then the same." The consequence profile "refuses a PR record with 33 before
    /// all but 10".
    fn pr(&mut self, d: &mut Diagrams, root: EntryId) -> Result<(), Refused> {
        if self.profile == Profile::Consequence {
            return Err(33.into());
        }
        let g = self.entry(root)?;
        self.may_be_line(g == ONE)?;
        if let Some(word) = d.false_under(g, self.witness) {
            return Err(Refused { number: 18, cause: Cause::Assignment(word) });
        }
        let kept = d.table.count();
        let shown = rules::pr(d, &self.live(), g, self.witness);
        self.close(d, g, kept, shown)
    }

    /// "It refuses as a RUP line does, and with 34, just after 17, a diagram with more than 4,096 such
    /// paths."
    fn path(&mut self, d: &mut Diagrams, root: EntryId) -> Result<(), Refused> {
        let g = self.entry(root)?;
        self.no_witness()?;
        self.may_be_line(g == ONE)?;
        if paths::more_than(&d.table, g, PATHS) {
            return Err(34.into());
        }
        let kept = d.table.count();
        let shown = rules::path(d, &self.live(), g);
        self.close(d, g, kept, shown)
    }

    /// "It refuses with 28 a member that does not exist or is struck already, after 10 and then 16 for a
    /// waiting witness." It is no line: entries go on and nodes stay.
    fn strike(&mut self, member: MemberId) -> Result<(), u32> {
        self.no_witness()?;
        let member = self.members.get_mut(member.0 as usize).filter(|member| !member.struck).ok_or(28u32)?;
        member.struck = true;
        Ok(())
    }

    /// "A `d` line strikes the live member of lowest place that is the same diagram."
    pub fn strike_same(&mut self, node: Option<NodeId>) -> Result<(), u32> {
        let node = node.ok_or(28u32)?;
        let same = self.members.iter_mut().find(|member| member.node == node && !member.struck);
        same.ok_or(28u32)?.struck = true;
        Ok(())
    }

    /// "End: 16, 11, 20."
    fn end(&self, reader: &Reader, start: usize) -> Outcome {
        let (number, place) = if self.no_witness().is_err() {
            (16, start)
        } else if !reader.at_end() {
            (11, reader.place())
        } else if !self.refuted {
            (20, start)
        } else {
            (0, start)
        };
        Outcome::plain(number, place)
    }

    /// "Making, propagation and PR pass over struck members."
    pub fn live(&self) -> Vec<NodeId> {
        self.members.iter().filter(|member| !member.struck).map(|member| member.node).collect()
    }

    fn known_variable(&self, variable: u32) -> Result<(), u32> {
        if variable == 0 || variable > self.variables {
            return Err(12);
        }
        Ok(())
    }

    fn known_set(&self, set: u64) -> Result<(), u32> {
        if u64::BITS - set.leading_zeros() > self.variables {
            return Err(12);
        }
        Ok(())
    }

    /// Records of every kind that make an entry share the limit.
    fn may_be_entry(&self) -> Result<(), u32> {
        if self.entries.len() - 2 == ENTRIES {
            return Err(21);
        }
        Ok(())
    }

    fn entry(&self, entry: EntryId) -> Result<NodeId, u32> {
        self.entries.get(entry.0 as usize).copied().ok_or(13)
    }

    fn no_witness(&self) -> Result<(), u32> {
        if !self.witness.is_empty() {
            return Err(16);
        }
        Ok(())
    }

    pub fn may_be_line(&self, always_true: bool) -> Result<(), u32> {
        if self.lines == LINES {
            return Err(22);
        }
        if always_true {
            return Err(17);
        }
        Ok(())
    }

    /// "At a line's end all nodes since its last entry are dropped", and "after an accepted line its root
    /// is the next member and entries and witness start anew". Only accepted lines' rounds count.
    pub fn close(
        &mut self,
        d: &mut Diagrams,
        g: NodeId,
        kept: usize,
        shown: Result<u64, Fault>,
    ) -> Result<(), Refused> {
        let rounds = shown.map_err(|fault| self.refused(fault))?;
        d.drop_to(kept);
        self.kept = kept;
        self.lines += 1;
        self.rounds += rounds;
        self.refuted |= g == ZERO;
        self.members.push(Member::live(g));
        self.entries.truncate(2);
        self.witness = Literals::default();
        Ok(())
    }

    /// "19 or 23"; the member of a turn by its number, struck ones counted.
    fn refused(&self, fault: Fault) -> Refused {
        let Fault::Unshown(unshown) = fault else {
            return Refused::from(23);
        };
        let mut live = (0..self.members.len()).filter(|&at| !self.members[at].struck);
        let member = unshown.turn.and_then(|turn| live.nth(turn));
        Refused { number: 19, cause: Cause::Unshown { fixed: unshown.fixed, member } }
    }
}
