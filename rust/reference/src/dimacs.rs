//! "The formula": the header, then clause by clause in file order.

use crate::table::Literals;

const CLAUSES: u64 = 1_024;

/// A number of the table of numbers and the byte offset that goes with it.
#[derive(Clone, Copy, PartialEq, Eq, Debug)]
pub struct Refusal {
    pub number: u32,
    pub place: usize,
}

/// A clause as it closes.
pub struct Clause {
    pub literals: Literals,
    /// The first literal as written, in its set; none of an empty clause.
    pub pivot: Literals,
    /// The offset of its first token, or of the `d` before it.
    pub place: usize,
}

impl Clause {
    /// Adds a literal that is alone in its set.
    pub fn add(&mut self, literal: Literals) {
        if self.pivot.is_empty() {
            self.pivot = literal;
        }
        self.literals.yes |= literal.yes;
        self.literals.no |= literal.no;
    }
}

/// Takes tokens and clauses from the formula behind its header, or from a DRAT text.
pub struct Clauses<'a> {
    bytes: &'a [u8],
    place: usize,
    variables: u64,
}

type Token<'a> = (usize, &'a [u8]);

impl<'a> Clauses<'a> {
    pub fn new(bytes: &'a [u8], variables: u32) -> Clauses<'a> {
        Clauses::at(bytes, 0, variables)
    }

    /// From a place on.
    pub fn at(bytes: &'a [u8], place: usize, variables: u32) -> Clauses<'a> {
        Clauses { bytes, place, variables: variables.into() }
    }

    /// The clause that was opened at a place, from its first token on.
    pub fn clause(&mut self, place: usize, first: Option<Token>) -> Result<Clause, Refusal> {
        let mut clause = Clause { literals: Literals::default(), pivot: Literals::default(), place };
        let mut token = first;
        loop {
            let literal = self.literal(token.ok_or(Refusal { number: 6, place })?)?;
            if literal.is_empty() {
                return Ok(clause);
            }
            clause.add(literal);
            token = self.token();
        }
    }

    /// The literal of a token, alone in its set; none for the closing `0`.
    pub fn literal(&self, (place, token): Token) -> Result<Literals, Refusal> {
        let (minus, digits) = match token {
            [b'-', digits @ ..] => (true, digits),
            _ => (false, token),
        };
        let value = number(digits).filter(|&value| value != 0 || !minus);
        Ok(match value.ok_or(Refusal { number: 3, place })? {
            0 => Literals::default(),
            value if value > self.variables => return Err(Refusal { number: 4, place }),
            value => Literals::default().with(value as u32, !minus),
        })
    }

    /// The next run of bytes between spaces, tabs, CR and LF, outside comment lines: "a line whose first
    /// byte is `c` is now skipped anywhere", "also inside an open clause". A text may begin with one.
    pub fn token(&mut self) -> Option<Token<'a>> {
        loop {
            let skipped = self.bytes[self.place..].iter().position(|&b| !is_apart(b))?;
            let start = self.place + skipped;
            let (before, rest) = self.bytes.split_at(start);
            let comment = rest[0] == b'c' && before.last().is_none_or(|&b| b == b'\n');
            let end =
                if comment { rest.iter().position(|&b| b == b'\n') } else { rest.iter().position(|&b| is_apart(b)) };
            let length = end.unwrap_or(rest.len());
            self.place = start + length;
            if !comment {
                return Some((start, &rest[..length]));
            }
        }
    }
}

pub struct Formula<'a> {
    clauses: Clauses<'a>,
    clauses_left: u64,
}

impl<'a> Formula<'a> {
    /// Reads up to the end of the header line, which may name so many variables.
    pub fn open(bytes: &'a [u8], most: u32) -> Result<Formula<'a>, Refusal> {
        let mut start = 0;
        while start < bytes.len() {
            let rest = &bytes[start..];
            let line = &rest[..rest.iter().position(|&b| b == b'\n').unwrap_or(rest.len())];
            let next = start + line.len() + 1;
            if line.first() == Some(&b'c') || line.iter().all(|&b| is_trailing(b)) {
                start = next;
                continue;
            }
            let (variables, clauses_left) = header(line).ok_or(Refusal { number: 1, place: start })?;
            if variables > most.into() || clauses_left > CLAUSES {
                return Err(Refusal { number: 2, place: start });
            }
            let clauses = Clauses { bytes, place: next.min(bytes.len()), variables };
            return Ok(Formula { clauses, clauses_left });
        }
        Err(Refusal { number: 1, place: bytes.len() })
    }

    pub fn variables(&self) -> u32 {
        self.clauses.variables as u32
    }

    /// The next clause as it closes; none after the last one, where nothing may follow.
    pub fn next_clause(&mut self) -> Result<Option<Clause>, Refusal> {
        let first = self.clauses.token();
        let place = first.map_or(self.clauses.bytes.len(), |(place, _)| place);
        if first.is_none() && self.clauses_left == 0 {
            return Ok(None);
        }
        if first.is_none() || self.clauses_left == 0 {
            return Err(Refusal { number: 5, place });
        }
        self.clauses_left -= 1;
        self.clauses.clause(place, first).map(Some)
    }
}

/// What parts two tokens.
pub fn is_apart(b: u8) -> bool {
    is_trailing(b) || b == b'\n'
}

fn is_trailing(b: u8) -> bool {
    matches!(b, b' ' | b'\t' | b'\r')
}

/// "`p`, `cnf`, variables, clauses, parted by spaces or tabs; `p` stands first in its line and only
/// spaces, tabs or CR may follow."
fn header(line: &[u8]) -> Option<(u64, u64)> {
    let end = line.iter().rposition(|&b| !is_trailing(b))? + 1;
    let mut words = line[..end].split(|&b| b == b' ' || b == b'\t').filter(|word| !word.is_empty());
    let proper = line[0] == b'p' && words.next()? == b"p" && words.next()? == b"cnf";
    let numbers = (number(words.next()?)?, number(words.next()?)?);
    (proper && words.next().is_none()).then_some(numbers)
}

/// "A number is `0`, or [..] digits not starting with 0", here without its minus. Values too large to
/// hold stay at the greatest, which is beyond every bound.
fn number(digits: &[u8]) -> Option<u64> {
    let plain = !digits.is_empty() && digits.iter().all(u8::is_ascii_digit);
    if !plain || (digits[0] == b'0' && digits.len() > 1) {
        return None;
    }
    let append = |value: u64, digit: &u8| value.saturating_mul(10).saturating_add((digit - b'0') as u64);
    Some(digits.iter().fold(0, append))
}
