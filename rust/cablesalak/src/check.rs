//! The check of a formula and a proof.

use crate::raw::{self, Checked, ListsMut};
use crate::{Mode, NodeNo, Number, Table, TableMut};
use std::fmt;

/// The least length of the member list, and of the marks beside it.
pub const MEMBERS: usize = 2_048;
/// The least length of the scratch list.
pub const SCRATCH: usize = 4_096;

/// The text that a place is a byte offset in.
#[derive(Clone, Copy, Debug, PartialEq, Eq)]
pub enum Text {
    Formula,
    Proof,
}

/// What a check says. Written out with `{}` it is the program's line: number, place, lines, rounds, peak.
#[derive(Clone, Copy, Debug, PartialEq, Eq)]
#[non_exhaustive]
pub struct Verdict {
    /// Refuted, or why not.
    pub number: Number,
    /// The text that the place is in; none with [`Number::WrongSize`]. In a check of a DRAT proof a number alone does not tell it.
    pub text: Option<Text>,
    /// A byte offset: what is refused, or the end record; the text's length where it has none.
    pub place: usize,
    /// The accepted lines.
    pub lines: usize,
    /// Their rounds of unit propagation.
    pub rounds: u64,
    /// The table's count.
    pub count: usize,
    /// The greatest count that the check reached, dropped nodes included: what a table must hold for it. 0 with [`Number::WrongSize`].
    pub peak: usize,
}

impl Verdict {
    /// Whether it is shown that no assignment satisfies the formula.
    pub fn refuted(&self) -> bool {
        self.number == Number::Refuted
    }

    pub(crate) fn of(said: Checked) -> Verdict {
        let Checked { number, in_proof, place, lines, rounds, count, peak } = said;
        let number = Number::said(number);
        let text = match number {
            Number::WrongSize => None,
            _ if in_proof => Some(Text::Proof),
            _ => Some(Text::Formula),
        };
        Verdict { number, text, place, lines, rounds, count, peak }
    }
}

impl fmt::Display for Verdict {
    fn fmt(&self, out: &mut fmt::Formatter<'_>) -> fmt::Result {
        write!(out, "{} {} {} {} {}", self.number.code(), self.place, self.lines, self.rounds, self.peak)
    }
}

/// The places that a check works on: a table, the member list with its marks, and the scratch list. It can be used again and
/// again: a check empties it first.
#[derive(Clone, Debug)]
pub struct Workspace {
    table: Table,
    members: Vec<u16>,
    /// A mark for each member: 1 once it is struck out.
    struck: Vec<u8>,
    /// How many of them the last check left: one for each clause and for each accepted line.
    member_count: usize,
    scratch: Vec<u16>,
}

impl Workspace {
    /// A workspace whose table has so many places; 7 where they are not 2 to 65,536. The program has 4,096.
    pub fn new(size: usize) -> Result<Workspace, Number> {
        Ok(Workspace {
            table: Table::new(size)?,
            members: vec![0; MEMBERS],
            struck: vec![0; MEMBERS],
            member_count: 0,
            scratch: vec![0; SCRATCH],
        })
    }

    /// The table as the last check left it: the nodes of the clauses and of the accepted lines, or the constants alone where
    /// the formula was refused.
    pub fn table(&self) -> &Table {
        &self.table
    }

    /// The same, for single calls on those nodes.
    pub fn table_mut(&mut self) -> &mut Table {
        &mut self.table
    }

    /// The members as the last check left them: the clauses in their order, then the accepted lines, struck out or not. There are
    /// none where the formula was refused.
    pub fn members(&self) -> impl ExactSizeIterator<Item = NodeNo> + '_ {
        self.members[..self.member_count].iter().copied().map(NodeNo)
    }

    /// The member of this place; `None` where there is none. A member that is the diagram 0 is `Some(NodeNo::ZERO)`.
    pub fn member(&self, place: usize) -> Option<NodeNo> {
        self.members().nth(place)
    }

    /// Whether the proof struck out the member of this place; `None` where there is none.
    pub fn is_struck(&self, place: usize) -> Option<bool> {
        self.member(place).map(|_| self.struck[place] != 0)
    }

    /// The members that the proof did not strike out, each with its place: what the next line would be judged by.
    pub fn live_members(&self) -> impl Iterator<Item = (usize, NodeNo)> + '_ {
        self.members().enumerate().filter(|(place, _)| self.struck[*place] == 0)
    }

    /// Checks a proof of a formula, of the form and in the profile that the mode names. Refuted: no assignment satisfies the
    /// formula, whatever the proof's bytes and whatever the workspace held before.
    ///
    /// ```
    /// use cablesalak::{Mode, Number, Workspace};
    ///
    /// let formula = b"p cnf 2 1\n1 2 0\n";
    /// let mut workspace = Workspace::new(4_096)?;
    /// // "1" in binary DRAT: RUP does not show it, RAT on 1 does.
    /// let verdict = workspace.check(Mode::BINARY, formula, b"\x61\x02\0");
    /// assert_eq!((verdict.number, verdict.lines), (Number::NoZeroLine, 1));
    /// // It does not follow from the formula, so the consequence profile refuses it.
    /// let verdict = workspace.check(Mode::BINARY.in_consequence_profile(), formula, b"\x61\x02\0");
    /// assert_eq!((verdict.number, verdict.lines), (Number::NotShown, 0));
    /// # Ok::<(), Number>(())
    /// ```
    pub fn check(&mut self, mode: Mode, formula: &[u8], proof: &[u8]) -> Verdict {
        let (mut table, mut lists) = self.lend();
        let verdict = check_lent_in(mode, &mut table, &mut lists, formula, proof);
        self.member_count = match verdict.text {
            Some(Text::Proof) => (clause_count(formula) + verdict.lines).min(self.members.len()),
            _ => 0,
        };
        verdict
    }

    pub(crate) fn lend(&mut self) -> (TableMut<'_>, ListsMut<'_>) {
        let Workspace { table, members, struck, scratch, .. } = self;
        (table.lend(), ListsMut { members, struck, scratch })
    }

    /// Leaves the constants alone, and no member.
    pub(crate) fn clear(&mut self) {
        self.table.clear();
        self.members.fill(0);
        self.struck.fill(0);
        self.member_count = 0;
    }
}

/// [`Workspace::check`] of a proof in records.
pub fn check(workspace: &mut Workspace, formula: &[u8], proof: &[u8]) -> Verdict {
    workspace.check(Mode::RECORDS, formula, proof)
}

/// [`Workspace::check`] of a proof that is a DRAT text.
///
/// ```
/// use cablesalak::{check_text, Number, Text, Workspace};
///
/// let formula = b"p cnf 2 4\n1 2 0\n-1 2 0\n1 -2 0\n-1 -2 0\n";
/// let mut workspace = Workspace::new(4_096)?;
/// let verdict = check_text(&mut workspace, formula, b"2 0\nd 1 2 0\n0\n");
/// assert!(verdict.refuted());
/// assert_eq!(verdict.to_string(), "0 14 2 1 10");
///
/// // 3 is said of the formula and of the proof.
/// let verdict = check_text(&mut workspace, formula, b"2 0\nx\n");
/// assert_eq!((verdict.number, verdict.place, verdict.text), (Number::NotANumber, 4, Some(Text::Proof)));
/// # Ok::<(), Number>(())
/// ```
pub fn check_text(workspace: &mut Workspace, formula: &[u8], proof: &[u8]) -> Verdict {
    workspace.check(Mode::TEXT, formula, proof)
}

/// The header's number of clauses, in a formula that the check has read: the fourth word of the first line that is neither blank
/// nor a comment.
fn clause_count(formula: &[u8]) -> usize {
    let mut lines = formula.split(|&byte| byte == b'\n').filter(|line| line.first() != Some(&b'c'));
    let header = lines.find(|line| !line.trim_ascii().is_empty()).unwrap_or_default();
    let clauses = std::str::from_utf8(header).ok().and_then(|words| words.split_ascii_whitespace().nth(3));
    clauses.and_then(|word| word.parse().ok()).unwrap_or(0)
}

/// [`Workspace::check`] over lists of the caller's, whatever they hold. 7, and nothing is changed, where the member list has fewer than
/// 2,048 places, `struck` has more or fewer than the member list, or the scratch list has fewer than 4,096. Else the scratch
/// list ends as zeros, and the table, the member list and the marks hold what [`Workspace`] tells, with zeros above the members.
pub fn check_lent_in(
    mode: Mode,
    table: &mut TableMut<'_>,
    lists: &mut ListsMut<'_>,
    formula: &[u8],
    proof: &[u8],
) -> Verdict {
    let said = raw::check_in(mode.raw(), &mut table.lists, *table.count, lists, formula, proof);
    *table.count = said.count;
    Verdict::of(said)
}

/// [`check_lent_in`] of a proof in records.
pub fn check_lent(
    table: &mut TableMut<'_>,
    members: &mut [u16],
    struck: &mut [u8],
    scratch: &mut [u16],
    formula: &[u8],
    proof: &[u8],
) -> Verdict {
    check_lent_in(Mode::RECORDS, table, &mut ListsMut { members, struck, scratch }, formula, proof)
}

/// [`check_lent_in`] of a proof that is a DRAT text.
pub fn check_text_lent(
    table: &mut TableMut<'_>,
    members: &mut [u16],
    struck: &mut [u8],
    scratch: &mut [u16],
    formula: &[u8],
    proof: &[u8],
) -> Verdict {
    check_lent_in(Mode::TEXT, table, &mut ListsMut { members, struck, scratch }, formula, proof)
}
