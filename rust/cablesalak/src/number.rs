//! The numbers that the calls and the programs give.

use std::cmp::Ordering;
use std::error::Error;
use std::fmt;

/// Says the numbers once: each with its code, the documents' words for it and what it is.
macro_rules! numbers {
    ($($(#[$about:meta])* $name:ident = $code:literal, $words:literal;)+) => {
        /// What is said of a call, numbered and worded as in documents 01 and 02. Written out with `{}` it is its meaning in words.
        /// Later versions of the library have more of them.
        #[derive(Clone, Copy, Debug, PartialEq, Eq, Hash)]
        #[non_exhaustive]
        pub enum Number {
            $($(#[$about])* $name,)+
            /// A number that this version of the crate does not know, of an archive that is newer.
            Other(OtherNumber),
        }

        /// All numbers with a name, in their order.
        const KNOWN: &[Number] = &[$(Number::$name),+];

        impl Number {
            /// The number itself.
            pub fn code(self) -> u8 {
                match self {
                    $(Number::$name => $code,)+
                    Number::Other(other) => other.0,
                }
            }

            fn words(self) -> Option<&'static str> {
                match self {
                    $(Number::$name => Some($words),)+
                    Number::Other(_) => None,
                }
            }
        }
    };
}

/// The code of a number without a name.
#[derive(Clone, Copy, Debug, PartialEq, Eq, PartialOrd, Ord, Hash)]
pub struct OtherNumber(u8);

numbers! {
    /// No assignment satisfies the formula. (Of a single call: not refused, which comes back as `Ok` here.)
    Refuted = 0, "refuted";
    /// The first line of the formula that is neither blank nor a comment is no header `p cnf VARIABLES CLAUSES`.
    NoHeader = 1, "no proper header";
    /// The header names more than 64 variables or more than 1,024 clauses.
    HeaderTooLarge = 2, "over 64 variables or 1,024 clauses";
    /// A token behind the header, or of a DRAT text, is neither `0` nor an optional minus with digits that do not start with 0, nor a
    /// text's `d` before a clause. Lines whose first byte is `c` are comments, wherever they stand, and have no tokens.
    NotANumber = 3, "not a number";
    /// A literal's variable, in the formula or in a DRAT proof, is greater than the header's number of variables; in a
    /// conversion, greater than 64.
    LiteralBeyondHeader = 4, "literal beyond the header";
    /// The formula has fewer clauses than the header names, or a token after the last one.
    ClauseCount = 5, "clauses too few or too many";
    /// The formula, or a DRAT proof, ends within a clause.
    ClauseOpen = 6, "last clause open";
    /// A lent part is too short or too long, or columns that belong together differ in length; a conversion's output is too short.
    WrongSize = 7, "a lent part of wrong size";
    /// A clause wants a new node and every place of the table, or of the book's share, is taken.
    FullAtClause = 8, "table full at a clause";
    /// A record's first byte is none of `4E`, `58`, `4B`, `54`, `46`, `52`, `50`, `51`, `44`, `45`; a clause of a binary DRAT
    /// proof opens with neither `61` nor `64`.
    UnknownKind = 9, "unknown kind";
    /// The proof ends within a record, or without an end record; a book's call within a record, or without a line and without the end.
    CutShort = 10, "record cut short, or no end record";
    /// A byte follows the end record; in a book's call also: a line.
    BytesAfterEnd = 11, "bytes after the end";
    /// A record names variable 0, or one greater than the header's number of variables, be it in a set.
    NoSuchVariable = 12, "variable 0 or beyond the header";
    /// A record names an entry not made yet; a single call is handed a node number that is not below the count.
    NoSuchNode = 13, "no such entry or node";
    /// A node record's variable is not smaller than the variables of its children.
    VariableOrder = 14, "variable not before its children's";
    /// A witness names a variable twice; the two sets of a cofactor by literals share a variable.
    VariableTwice = 15, "witness names a variable twice";
    /// A witness stands before a RUP line, a path line, a striking or the end record, where none may.
    WitnessLeft = 16, "witness left at a RUP line, a path line, a striking or the end";
    /// The line's diagram is 1, so that the line says nothing; a DRAT clause with both signs of a variable.
    AlwaysTrue = 17, "line is always true";
    /// The PR line's diagram under its witness is not 1.
    WitnessFails = 18, "witness does not make the line 1";
    /// Unit propagation meets no conflict, so that the line is not shown, a path line at one of its paths; a DRAT clause by
    /// neither of its tries.
    NotShown = 19, "not shown: no conflict";
    /// The proof ends and no accepted line was the diagram 0.
    NoZeroLine = 20, "end without a 0 line";
    /// A line has more than 4,096 entries, each made by a record `4E`, `58` or `4B`.
    TooManyEntries = 21, "over 4,096 entries";
    /// The proof has more than 1,024 lines; a DRAT proof more than 1,024 clauses to add.
    TooManyLines = 22, "over 1,024 lines";
    /// An entry, a DRAT clause, a line's work or a single call wants a new node and every place of the table, or of the book's share, is
    /// taken.
    TableFull = 23, "table full elsewhere";
    /// Of a program: a file is longer than 65,536 bytes.
    FileTooLong = 24, "a file over 65,536 bytes";
    /// Of a program: a file cannot be read.
    FileUnreadable = 25, "a file cannot be read";
    /// Of a single call and a book's call: the lent table is not in good order, or its index is not right. Of a book's call also: what
    /// is kept for the book does not fit.
    NotInOrder = 26, "table not in good order";
    /// Of a single call: a cofactor by the diagram 0 has no value.
    CofactorByZero = 27, "cofactor by 0";
    /// A record strikes out a member that does not exist or is struck out already; a DRAT proof a clause that is no live member.
    NoSuchMember = 28, "no such member, or struck already";
    /// A parity record's last byte is neither 1 (odd) nor 0 (even).
    NoSuchParity = 29, "parity byte above 1";
    /// Of the call that explains a refusal: the check did not refuse.
    NotRefused = 30, "the check did not refuse";
    /// A literal of a binary DRAT proof has surplus groups (more than one, and the last is 0), or is the literal 1.
    WrongGroups = 31, "surplus groups, or a literal 1";
    /// Of the opening for two books: their shares' sum plus 2 is greater than the table's places.
    SharesDoNotFit = 32, "two books' shares do not fit the table";
    /// In the consequence profile: a PR line.
    PrInProfile = 33, "a PR line in the consequence profile";
    /// A path line's diagram has more than 4,096 paths to 0.
    TooManyPaths = 34, "over 4,096 paths";
    /// Of the opening for two books and of a book's call: not refused, and not yet refuted.
    AcceptedSoFar = 35, "accepted so far";
}

impl Number {
    /// All numbers with a name, in their order.
    pub fn all() -> impl Iterator<Item = Number> {
        KNOWN.iter().copied()
    }

    /// What the library said, whatever it is.
    pub(crate) fn said(code: u8) -> Number {
        Number::try_from(code).unwrap_or(Number::Other(OtherNumber(code)))
    }
}

impl PartialOrd for Number {
    fn partial_cmp(&self, other: &Number) -> Option<Ordering> {
        Some(self.cmp(other))
    }
}

impl Ord for Number {
    fn cmp(&self, other: &Number) -> Ordering {
        self.code().cmp(&other.code())
    }
}

impl fmt::Display for Number {
    fn fmt(&self, out: &mut fmt::Formatter<'_>) -> fmt::Result {
        match self.words() {
            Some(words) => out.pad(words),
            None => out.pad(&format!("number {}, which this version does not know", self.code())),
        }
    }
}

/// So that a refusal can be passed on with `?`.
impl Error for Number {}

/// There is no number of this code with a name.
#[derive(Clone, Copy, Debug, PartialEq, Eq)]
pub struct NoSuchNumber(pub u8);

impl fmt::Display for NoSuchNumber {
    fn fmt(&self, out: &mut fmt::Formatter<'_>) -> fmt::Result {
        write!(out, "there is no number {}", self.0)
    }
}

impl Error for NoSuchNumber {}

impl TryFrom<u8> for Number {
    type Error = NoSuchNumber;

    fn try_from(code: u8) -> Result<Number, NoSuchNumber> {
        Number::all().find(|number| number.code() == code).ok_or(NoSuchNumber(code))
    }
}

#[cfg(test)]
mod tests {
    use super::*;

    /// What an archive may say: every byte is a number, and none panics.
    #[test]
    fn every_byte() {
        for code in 0..=u8::MAX {
            let number = Number::said(code);
            assert_eq!(number.code(), code);
            assert_eq!(matches!(number, Number::Other(_)), Number::try_from(code).is_err());
            assert!(!number.to_string().is_empty());
        }
        assert_eq!(Number::said(36).to_string(), "number 36, which this version does not know");
        assert!(Number::said(36) > Number::AcceptedSoFar && Number::said(36) < Number::said(37));
    }
}
