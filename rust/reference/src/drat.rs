//! DRAT proofs, clause by clause, and their text form: "literals parted as in the formula and closed by 0, the first being the pivot; a
//! leading `d`, parted likewise, strikes out; lines beginning with `c` are skipped".

use crate::dimacs::{Clause, Clauses, Refusal};
use crate::judge::{Judge, Profile};
use crate::operate::Diagrams;
use crate::rules::{self, Fault};
use crate::table::{Full, Literals};
use crate::why::{Outcome, Refused};

/// A clause of the text, to be added or to be struck.
pub struct Step {
    pub clause: Clause,
    pub strikes: bool,
}

/// The next clause of a text as it closes; none at the text's end.
pub fn take(text: &mut Clauses) -> Result<Option<Step>, Refusal> {
    let Some((place, token)) = text.token() else {
        return Ok(None);
    };
    let strikes = token == b"d";
    let first = if strikes { text.token() } else { Some((place, token)) };
    Ok(Some(Step { clause: text.clause(place, first)?, strikes }))
}

/// Takes the clauses of a proof up to its end or a refusal: its number and place. "A text that never
/// reaches the empty clause" is refused "with 20, at its length as is 0".
pub fn judge(
    d: &mut Diagrams,
    judge: &mut Judge,
    length: usize,
    mut take: impl FnMut() -> Result<Option<Step>, Refusal>,
) -> Outcome {
    loop {
        let step = match take() {
            Err(refusal) => return Outcome::plain(refusal.number, refusal.place),
            Ok(None) => return Outcome::plain(if judge.refuted() { 0 } else { 20 }, length),
            Ok(Some(step)) => step,
        };
        let taken = match step.strikes {
            true => judge.strike_same(d.find_clause(step.clause.literals)).map_err(Refused::from),
            false => add(d, judge, &step.clause),
        };
        if let Err(refused) = taken {
            return refused.at(step.clause.place);
        }
    }
}

/// "22, 17, then 23 or 19." The clause "is tried as a RUP line; failing with 19, as a PR line [..], the
/// first try's nodes dropped"; its diagram "is made before the tries and counts as its line's last
/// entry".
fn add(d: &mut Diagrams, judge: &mut Judge, clause: &Clause) -> Result<(), Refused> {
    judge.may_be_line(clause.literals.clash())?;
    let g = d.clause(clause.literals).map_err(|Full| 23u32)?;
    let kept = d.table.count();
    let live = judge.live();
    let mut shown = rules::rup(d, &live, g);
    // "The empty clause has no pivot", hence no second try.
    let again = judge.profile() == Profile::Redundance && !clause.pivot.is_empty();
    if again && matches!(shown, Err(Fault::Unshown(_))) {
        d.drop_to(kept);
        shown = rules::pr(d, &live, g, witness(clause));
    }
    judge.close(d, g, kept, shown)
}

/// "A PR line whose witness makes the pivot true and every other literal of it false."
fn witness(clause: &Clause) -> Literals {
    let (all, pivot) = (clause.literals, clause.pivot);
    Literals { yes: pivot.yes | (all.no & !pivot.no), no: pivot.no | (all.yes & !pivot.yes) }
}
