//! Why a check is refused: the offending piece, as a part of the caller's own bytes, and the true cause.

use crate::raw;
use crate::{Mode, Number, Text, Variables, Workspace};

/// The least length of the list for the literals: two words for each of at most 64 rounds.
pub const FIXED: usize = 128;

/// The literals that a round of unit propagation fixes.
#[derive(Clone, Copy, Debug, PartialEq, Eq)]
pub struct Round {
    /// The variables made true.
    pub positive: Variables,
    /// The variables made false.
    pub negative: Variables,
}

impl Round {
    /// The literals by variable, as in DIMACS: 3 for variable 3, -3 for its negation.
    pub fn literals(self) -> impl Iterator<Item = i8> {
        let has = |set: Variables, v: i8| set.0 >> (v - 1) & 1 == 1;
        (1..=64).flat_map(move |v| {
            let positive = has(self.positive, v).then_some(v);
            positive.into_iter().chain(has(self.negative, v).then_some(-v))
        })
    }
}

/// What there is to say of a refusal besides its number.
#[derive(Clone, Debug, PartialEq, Eq)]
#[non_exhaustive]
pub enum Cause {
    /// The number alone tells it.
    Plain,
    /// With [`Number::VariableOrder`]: the record's variable, and the variable of the child that it is not before; the low child's if it is
    /// before neither.
    Variables { variable: u8, child: u8 },
    /// With [`Number::WitnessFails`]: the variables that are true in the assignment that agrees with the witness and makes the line false;
    /// of all such the smallest, read with variable 1 as the top digit.
    Assignment(Variables),
    /// With [`Number::NotShown`]: the literals fixed in the last propagation, round by round. Of a PR line, and of a DRAT clause tried as one,
    /// also the lowest live member that was not shown.
    NotShown { rounds: Vec<Round>, member: Option<usize> },
}

/// Why a check is refused.
#[derive(Clone, Debug, PartialEq, Eq)]
#[non_exhaustive]
pub struct Explanation<'a> {
    /// The check's number; [`Number::NotRefused`] where the check did not refuse.
    pub number: Number,
    /// The text that the piece is of; none with [`Number::WrongSize`] and [`Number::NotRefused`].
    pub text: Option<Text>,
    /// Where the piece starts: the check's place.
    pub place: usize,
    /// The line, token, record or clause at fault, as a part of the formula or of the proof; empty at a file's end.
    pub piece: &'a [u8],
    pub cause: Cause,
}

impl Workspace {
    /// Why the check of a proof is refused. The workspace is left as [`Workspace::check`] leaves it.
    ///
    /// ```
    /// use cablesalak::{Cause, Mode, Number, Text, Workspace};
    ///
    /// // "1 or 2", and the line "1", which does not follow: 2 alone is fixed.
    /// let (formula, proof) = (b"p cnf 2 1\n1 2 0\n", b"1 0\n");
    /// let mode = Mode::TEXT.in_consequence_profile();
    /// let mut workspace = Workspace::new(4_096)?;
    /// let why = workspace.why(mode, formula, proof);
    /// assert_eq!((why.number, why.text, why.piece), (Number::NotShown, Some(Text::Proof), &proof[..3]));
    /// let Cause::NotShown { rounds, member: None } = why.cause else { panic!("19 has this cause") };
    /// assert_eq!(rounds.iter().map(|round| round.literals().collect()).collect::<Vec<Vec<i8>>>(), [[2]]);
    ///
    /// let why = workspace.why(Mode::TEXT, b"p cnf 1 2\n1 0\n-1 0\n", b"0\n");
    /// assert_eq!((why.number, why.piece), (Number::NotRefused, &b""[..]));
    /// # Ok::<(), Number>(())
    /// ```
    pub fn why<'a>(&mut self, mode: Mode, formula: &'a [u8], proof: &'a [u8]) -> Explanation<'a> {
        let mut fixed = [0; FIXED];
        // Members are counted by a check; the call that explains it leaves the same lists.
        self.check(mode, formula, proof);
        let (mut table, mut lists) = self.lend();
        let said = raw::why(mode.raw(), &mut table.lists, *table.count, &mut lists, &mut fixed, formula, proof);
        *table.count = said.count;
        explanation(&said, &fixed, formula, proof)
    }
}

fn explanation<'a>(said: &raw::Why, fixed: &[u64], formula: &'a [u8], proof: &'a [u8]) -> Explanation<'a> {
    let number = Number::said(said.number);
    let (text, bytes) = match number {
        Number::WrongSize | Number::NotRefused => (None, &formula[..0]),
        _ if said.in_proof => (Some(Text::Proof), proof),
        _ => (Some(Text::Formula), formula),
    };
    let piece = bytes.get(said.start..said.end).unwrap_or_default();
    Explanation { number, text, place: said.start, piece, cause: cause(number, said, fixed) }
}

fn cause(number: Number, said: &raw::Why, fixed: &[u64]) -> Cause {
    match number {
        Number::VariableOrder => Cause::Variables { variable: said.variable, child: said.child },
        Number::WitnessFails => Cause::Assignment(Variables(said.word)),
        Number::NotShown => Cause::NotShown {
            rounds: fixed
                .chunks_exact(2)
                .take(said.rounds)
                .map(|words| Round { positive: Variables(words[0]), negative: Variables(words[1]) })
                .collect(),
            member: said.has_member.then_some(said.member),
        },
        _ => Cause::Plain,
    }
}
