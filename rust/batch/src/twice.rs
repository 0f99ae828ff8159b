//! The second method: the check by truth table, for formulas of at most six variables and proofs in records (02, 14/14). It is proved that its
//! number, place, lines and rounds are those of the check over diagrams, wherever neither gives 7, 8 or 23. So a pair on which they differ shows a
//! fault of the machine, of the compiler or of what links the two archives.

use crate::check::Answer;
use cablesalak_small::{small, Workspace};
use std::fmt;

/// What the second method gives beside the first.
#[derive(Clone, Copy, Debug, Default, PartialEq, Eq)]
pub enum Second {
    /// It was not asked, or no check was made.
    #[default]
    NotAsked,
    Agrees,
    /// The first gives 7, 8 or 23, which are about a table; the second has none.
    NoTable,
    /// The formula has more than six variables.
    OverSix,
    /// The proof is DRAT.
    NoRecords,
    /// The second gives 7, 8 or 23, which its workspace excludes.
    NoAnswer,
    Differs(Line),
}

/// The second method's line.
#[derive(Clone, Copy, Debug, PartialEq, Eq)]
pub struct Line {
    pub number: u8,
    pub place: u64,
    pub lines: u64,
    pub rounds: u64,
}

impl fmt::Display for Line {
    fn fmt(&self, out: &mut fmt::Formatter<'_>) -> fmt::Result {
        write!(out, "{} {} {} {}", self.number, self.place, self.lines, self.rounds)
    }
}

impl Second {
    /// Why the pair could not be checked twice; none where it could, or was not to be.
    pub fn lacks(self) -> Option<&'static str> {
        match self {
            Second::OverSix => Some("over six variables"),
            Second::NoRecords => Some("no records"),
            Second::NoAnswer => Some("no second answer"),
            Second::NotAsked | Second::Agrees | Second::NoTable | Second::Differs(_) => None,
        }
    }
}

/// Whether the number is about room or a lent list, so that the methods need not agree.
fn is_about_room(number: u8) -> bool {
    matches!(number, 7 | 8 | 23)
}

/// The second method's line compared with the first's.
fn compared(first: &Answer, line: Line) -> Second {
    let first = Line { number: first.number, place: first.place, lines: first.lines, rounds: first.rounds };
    match (first.number, line.number) {
        (number, _) if is_about_room(number) => Second::NoTable,
        (_, number) if is_about_room(number) => Second::NoAnswer,
        _ if first == line => Second::Agrees,
        // The first takes up to 64 variables.
        (number, 2) if number != 2 => Second::OverSix,
        _ => Second::Differs(line),
    }
}

/// The second method's room.
#[derive(Default)]
pub struct Table(Workspace);

impl Table {
    /// The second method's answer on the two texts, beside the first's.
    pub fn second(&mut self, first: &Answer, formula: &[u8], proof: &[u8]) -> Second {
        let said = small(&mut self.0, formula, proof);
        let (place, lines) = (said.place as u64, said.lines as u64);
        compared(first, Line { number: said.number, place, lines, rounds: said.rounds })
    }
}

#[cfg(test)]
mod tests {
    use super::*;
    use crate::check::Place;
    use crate::files::Source;

    #[test]
    fn two_lines_are_compared() {
        let (formula, proof) = (Source::default(), Source::default());
        let line = Line { number: 19, place: 9, lines: 1, rounds: 3 };
        let first = Answer {
            number: 19,
            file: Place::Proof,
            place: 9,
            lines: 1,
            rounds: 3,
            peak: 40,
            nanoseconds: 0,
            second: Second::NotAsked,
            formula,
            proof,
            known: false,
        };
        let of = |number| Answer { number, ..first };
        assert_eq!(compared(&first, line), Second::Agrees);
        for wrong in [
            Line { number: 0, ..line },
            Line { place: 8, ..line },
            Line { lines: 2, ..line },
            Line { rounds: 4, ..line },
        ] {
            assert_eq!(compared(&first, wrong), Second::Differs(wrong));
        }
        // More than six variables, and more than 64.
        assert_eq!(compared(&first, Line { number: 2, ..line }), Second::OverSix);
        assert_eq!(compared(&of(2), Line { number: 2, ..line }), Second::Agrees);
        assert_eq!(compared(&of(2), line), Second::Differs(line));
        assert!(matches!(compared(&of(2), Line { number: 2, place: 0, ..line }), Second::Differs(_)));
        for number in [7, 8, 23] {
            assert_eq!(compared(&of(number), line), Second::NoTable);
            assert_eq!(compared(&first, Line { number, ..line }), Second::NoAnswer);
        }
    }
}
