//! The check of a formula and a proof.

use crate::binary;
use crate::dimacs::{Clauses, Formula, Refusal};
use crate::drat;
use crate::index::Sizes;
use crate::judge::{Judge, Member, Profile};
use crate::operate::Diagrams;
use crate::table::{Full, SMALLEST, VARIABLES};
use crate::why::Cause;

const MEMBERS: u64 = 2_048;
const SCRATCH: u64 = 4_096;

/// The sizes of the lent parts.
pub struct Lent {
    pub table: Sizes,
    pub members: u64,
    pub scratch: u64,
}

impl Lent {
    fn are_right(&self) -> bool {
        self.table.are_right() && lists_are_right(self.members, self.scratch)
    }
}

/// "The member list has 2,048 or more, the scratch list 4,096 or more."
pub fn lists_are_right(members: u64, scratch: u64) -> bool {
    members >= MEMBERS && scratch >= SCRATCH
}

/// What the call says, and the member list as it leaves it; the table is left in the diagrams.
pub struct Verdict {
    pub number: u32,
    pub place: usize,
    pub lines: usize,
    pub rounds: u64,
    /// "The greatest count reached, dropped nodes included. On a refusal that count covers all that was
    /// placed before; with 7 [..] it is 0."
    pub peak: usize,
    pub members: Vec<Member>,
    /// Whether the place is one of the proof.
    pub in_proof: bool,
    pub cause: Cause,
}

/// The form of a proof.
#[derive(Clone, Copy, PartialEq, Eq, Debug)]
pub enum Form {
    Records,
    Text,
    Binary,
}

/// What is to be checked, and how.
pub struct Task {
    pub form: Form,
    pub profile: Profile,
    pub formula: Vec<u8>,
    pub proof: Vec<u8>,
}

/// "Order: 7, formula, proof."
pub fn check(d: &mut Diagrams, lent: &Lent, task: &Task) -> Verdict {
    let sizes = lent.are_right();
    d.reset(if sizes { lent.table.places as usize } else { SMALLEST as usize });
    if !sizes {
        return refused_early(Refusal { number: 7, place: 0 }, 0);
    }
    match read_formula(d, &task.formula) {
        Err(refusal) => {
            // "A refused formula leaves table and lists all zero, count 2."
            d.drop_to(2);
            refused_early(refusal, d.table.peak())
        }
        Ok((variables, members)) => judge(d, Judge::new(task.profile, variables, members, d.table.count()), task),
    }
}

fn refused_early(refusal: Refusal, peak: usize) -> Verdict {
    Verdict {
        number: refusal.number,
        place: refusal.place,
        lines: 0,
        rounds: 0,
        peak,
        members: Vec::new(),
        in_proof: false,
        cause: Cause::None,
    }
}

/// The number of variables and the members; "a clause is made as it closes".
pub fn read_formula(d: &mut Diagrams, bytes: &[u8]) -> Result<(u32, Vec<Member>), Refusal> {
    let mut formula = Formula::open(bytes, VARIABLES)?;
    let mut members = Vec::new();
    while let Some(clause) = formula.next_clause()? {
        let node = d.clause(clause.literals).map_err(|Full| Refusal { number: 8, place: clause.place })?;
        members.push(Member::live(node));
    }
    Ok((formula.variables(), members))
}

fn judge(d: &mut Diagrams, mut judge: Judge, task: &Task) -> Verdict {
    let (proof, variables) = (&task.proof, judge.variables());
    let outcome = match task.form {
        Form::Records => judge.records(d, proof),
        Form::Text => {
            let mut clauses = Clauses::new(proof, variables);
            drat::judge(d, &mut judge, proof.len(), || drat::take(&mut clauses))
        }
        Form::Binary => {
            let mut clauses = binary::Reader::new(proof, variables);
            drat::judge(d, &mut judge, proof.len(), || clauses.take())
        }
    };
    // "Nodes of entries after the last accepted line are dropped in both."
    d.drop_to(judge.kept());
    Verdict {
        number: outcome.number,
        place: outcome.place,
        lines: judge.lines(),
        rounds: judge.rounds(),
        peak: d.table.peak(),
        members: judge.into_members(),
        in_proof: true,
        cause: outcome.cause,
    }
}
