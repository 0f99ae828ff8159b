//! What is written of a run: a line for each pair, and the records of the results file, which are JSON, one a line.

use crate::check::{meaning, Answer, Place, Settings};
use crate::files::Source;
use crate::json::Quoted;
use crate::pairs::Pair;
use crate::pool::Outcome;
use crate::sha256::put_hex;
use crate::twice::{Line, Second};
use std::borrow::Cow;
use std::fmt::{self, Write};
use std::path::PathBuf;
use std::time::{Duration, SystemTime, UNIX_EPOCH};

/// The archive that is linked, and that of the check by truth table, by their SHA-256, and the commit that they were built at.
pub const ARCHIVE: &str = env!("ARCHIVE");
pub const SMALL_ARCHIVE: &str = env!("SMALL_ARCHIVE");
pub const COMMIT: &str = env!("COMMIT");

/// How pairs are counted.
#[derive(Clone, Copy, Debug, PartialEq, Eq)]
pub enum Class {
    Refuted,
    Refused,
    /// A file was not taken, the time limit was reached, the worker ended, or the pair could not be checked twice.
    NoVerdict,
    /// The two methods disagree.
    Disagreed,
}

impl Outcome {
    /// Its name in a record.
    pub fn name(&self) -> &'static str {
        match self {
            Outcome::Answered(Answer { second: Second::Differs(_), .. }) => "disagreed",
            Outcome::Answered(answer) if answer.second.lacks().is_some() => "not twice",
            Outcome::Answered(answer) => match answer.number {
                0 => "refuted",
                24 | 25 => "not taken",
                _ => "refused",
            },
            Outcome::TimeLimit => "time limit",
            Outcome::Ended(_) => "ended",
        }
    }
}

impl Class {
    /// The class of an outcome, by its name.
    pub fn of(outcome: &str) -> Class {
        match outcome {
            "refuted" => Class::Refuted,
            "refused" => Class::Refused,
            "disagreed" => Class::Disagreed,
            _ => Class::NoVerdict,
        }
    }
}

#[derive(Clone, Copy, Debug, Default, PartialEq, Eq)]
pub struct Counts {
    pub refuted: usize,
    pub refused: usize,
    pub no_verdict: usize,
    pub disagreed: usize,
    /// What could not be read on the way to the pairs.
    pub faults: usize,
}

impl Counts {
    pub fn add(&mut self, class: Class) {
        match class {
            Class::Refuted => self.refuted += 1,
            Class::Refused => self.refused += 1,
            Class::NoVerdict => self.no_verdict += 1,
            Class::Disagreed => self.disagreed += 1,
        }
    }

    pub fn pairs(&self) -> usize {
        self.refuted + self.refused + self.no_verdict + self.disagreed
    }

    /// 0 where there are pairs, all of them are refuted and nothing was left out; never otherwise.
    pub fn status(&self) -> u8 {
        match *self {
            Counts { disagreed: 1.., .. } => 4,
            Counts { no_verdict: 1.., .. } | Counts { faults: 1.., .. } => 2,
            Counts { refused: 1.., .. } => 1,
            Counts { refuted: 1.., .. } => 0,
            _ => 2,
        }
    }
}

/// A name as the records have it.
pub fn name(path: &Option<PathBuf>) -> Cow<'_, str> {
    path.as_ref().map_or(Cow::Borrowed(""), |path| path.to_string_lossy())
}

/// A name in a line: without what would end the line, part it, or be obeyed by a terminal.
struct Plain<'a>(&'a str);

impl fmt::Display for Plain<'_> {
    fn fmt(&self, out: &mut fmt::Formatter<'_>) -> fmt::Result {
        for c in self.0.chars() {
            match c {
                '\\' => out.write_str("\\\\")?,
                c if c.is_control() => write!(out, "\\x{:02x}", u32::from(c))?,
                c => out.write_char(c)?,
            }
        }
        Ok(())
    }
}

/// The program's line, or why there is none; then the pair's names. (To write into a text does not fail.)
pub fn put_line(out: &mut String, pair: &Pair, outcome: &Outcome) {
    let _ = match outcome {
        Outcome::Answered(answer) => put_numbers(out, answer),
        Outcome::TimeLimit => write!(out, "- time limit"),
        Outcome::Ended(Some(signal)) => write!(out, "- ended by signal {signal}"),
        Outcome::Ended(None) => write!(out, "- ended"),
    };
    let _ = writeln!(out, "\t{}\t{}", Plain(&name(&pair.formula)), Plain(&name(&pair.proof)));
}

/// The five numbers; or both methods' where they disagree; or why the pair could not be checked twice.
fn put_numbers(out: &mut String, answer: &Answer) -> fmt::Result {
    let Answer { number, place, lines, rounds, peak, second, .. } = answer;
    let line = format_args!("{number} {place} {lines} {rounds} {peak}");
    match (second, second.lacks()) {
        (Second::Differs(other), _) => {
            write!(out, "- the two methods disagree: '{line}' over diagrams, '{other}' by truth table")
        }
        (_, Some(why)) => write!(out, "- not twice: {why}"),
        _ => write!(out, "{line}"),
    }
}

pub fn put_pair(out: &mut String, pair: &Pair, outcome: &Outcome) {
    let (formula, proof) = (name(&pair.formula), name(&pair.proof));
    let (formula, proof, form, outcome_name) = (Quoted(&formula), Quoted(&proof), pair.form.name(), outcome.name());
    let _ = write!(
        out,
        r#"{{"type":"pair","formula":{formula},"proof":{proof},"form":"{form}","outcome":"{outcome_name}""#
    );
    match outcome {
        Outcome::Answered(answer) => put_answer(out, answer),
        Outcome::Ended(Some(signal)) => {
            let _ = write!(out, r#","signal":{signal}"#);
        }
        Outcome::Ended(None) | Outcome::TimeLimit => {}
    }
    out.push_str("}\n");
}

fn put_answer(out: &mut String, answer: &Answer) {
    let Answer { nanoseconds, second, formula, proof, .. } = answer;
    match second.lacks() {
        // As in the program, there is no line then.
        Some(why) => drop(write!(out, r#","why":"{why}""#)),
        None => put_verdict(out, answer),
    }
    let names = [(r#","formula_sha256":""#, r#"","formula_bytes":"#), (r#","proof_sha256":""#, r#"","proof_bytes":"#)];
    for ((before, after), source) in names.into_iter().zip([formula, proof]) {
        if let Source { digest: Some(digest), bytes } = source {
            out.push_str(before);
            put_hex(out, digest);
            put_number(out, after, *bytes);
        }
    }
    let _ = write!(out, r#","seconds":{}.{:06}"#, nanoseconds / 1_000_000_000, nanoseconds / 1_000 % 1_000_000);
}

/// A name and a number. There are many of them, and `write!` takes three times as long.
fn put_number(out: &mut String, name: &str, number: u64) {
    let (mut digits, mut at, mut rest) = ([0; 20], 20, number);
    while at == 20 || rest > 0 {
        at -= 1;
        digits[at] = b'0' + (rest % 10) as u8;
        rest /= 10;
    }
    out.push_str(name);
    out.extend(str::from_utf8(&digits[at..]));
}

fn put_verdict(out: &mut String, answer: &Answer) {
    let Answer { number, file, place, lines, rounds, peak, second, .. } = answer;
    put_number(out, r#","number":"#, (*number).into());
    if let Some(meaning) = meaning(*number) {
        let _ = write!(out, r#","meaning":{}"#, Quoted(&meaning));
    }
    out.push_str(match file {
        Place::Nowhere => r#","file":null"#,
        Place::Formula => r#","file":"formula""#,
        Place::Proof => r#","file":"proof""#,
    });
    put_number(out, r#","place":"#, *place);
    put_number(out, r#","lines":"#, *lines);
    put_number(out, r#","rounds":"#, *rounds);
    put_number(out, r#","peak":"#, *peak);
    let _ = match second {
        Second::Agrees => write!(out, r#","second":"agrees""#),
        Second::NoTable => write!(out, r#","second":"none""#),
        Second::Differs(Line { number, place, lines, rounds }) => {
            write!(out, r#","second":{{"number":{number},"place":{place},"lines":{lines},"rounds":{rounds}}}"#)
        }
        _ => Ok(()),
    };
}

pub fn put_run(out: &mut String, settings: Settings, limit: Option<Duration>, workers: usize, pairs: usize) {
    let Settings { places, consequence, twice } = settings;
    let limit = limit.map_or("null".into(), |limit| limit.as_secs_f64().to_string());
    let commit = Quoted(COMMIT);
    let _ = write!(out, r#"{{"type":"run","checker":"cablesalak","commit":{commit},"archive_sha256":"{ARCHIVE}""#);
    if twice {
        let _ = write!(out, r#","small_archive_sha256":"{SMALL_ARCHIVE}""#);
    }
    let _ = write!(out, r#","places":{places},"consequence":{consequence},"twice":{twice},"limit_seconds":{limit}"#);
    let _ = writeln!(out, r#","workers":{workers},"pairs":{pairs},"began":"{}"}}"#, now());
}

/// What could not be read on the way to the pairs.
pub fn put_fault(out: &mut String, what: &str) {
    let _ = writeln!(out, r#"{{"type":"fault","what":{}}}"#, Quoted(what));
}

pub fn put_end(out: &mut String, counts: &Counts) {
    let Counts { refuted, refused, no_verdict, disagreed, faults } = counts;
    let _ = write!(out, r#"{{"type":"end","refuted":{refuted},"refused":{refused},"no_verdict":{no_verdict}"#);
    let (status, ended) = (counts.status(), now());
    let _ = writeln!(out, r#","disagreed":{disagreed},"faults":{faults},"status":{status},"ended":"{ended}"}}"#);
}

fn now() -> String {
    date(SystemTime::now().duration_since(UNIX_EPOCH).map_or(0, |since| since.as_secs()))
}

/// Coordinated universal time, of the seconds since 1970 began.
fn date(seconds: u64) -> String {
    let (mut days, second) = (seconds / 86_400, seconds % 86_400);
    let leap = |year: u64| u64::from(year.is_multiple_of(4) && (!year.is_multiple_of(100) || year.is_multiple_of(400)));
    let mut year = 1970;
    while days >= 365 + leap(year) {
        days -= 365 + leap(year);
        year += 1;
    }
    let lengths = [31, 28 + leap(year), 31, 30, 31, 30, 31, 31, 30, 31, 30, 31];
    let mut month = 0;
    while days >= lengths[month] {
        days -= lengths[month];
        month += 1;
    }
    let (hour, minute, second) = (second / 3600, second / 60 % 60, second % 60);
    format!("{year}-{:02}-{:02}T{hour:02}:{minute:02}:{second:02}Z", month + 1, days + 1)
}

#[cfg(test)]
mod tests {
    use super::*;
    use crate::form::Form;
    use crate::json::Value;

    #[test]
    fn dates() {
        // As `date -u -d @SECONDS` has them.
        assert_eq!(date(0), "1970-01-01T00:00:00Z");
        assert_eq!(date(951_782_400), "2000-02-29T00:00:00Z");
        assert_eq!(date(4_107_542_399), "2100-02-28T23:59:59Z");
        assert_eq!(date(1_794_926_596), "2026-11-17T14:43:16Z");
    }

    #[test]
    fn numbers() {
        let mut out = String::new();
        for number in [0, 9, 10, 4_096, u64::MAX] {
            put_number(&mut out, " ", number);
        }
        assert_eq!(out, " 0 9 10 4096 18446744073709551615");
    }

    #[test]
    fn a_hostile_name_stays_in_its_line() {
        let pair = Pair { formula: Some("a\n0 1 1 1 1\tb\u{1b}[2J\\".into()), proof: None, form: Form::Records };
        let mut line = String::new();
        put_line(&mut line, &pair, &Outcome::TimeLimit);
        assert_eq!(line, "- time limit\ta\\x0a0 1 1 1 1\\x09b\\x1b[2J\\\\\t\n");
        let mut record = String::new();
        put_pair(&mut record, &pair, &Outcome::Ended(Some(9)));
        let read = Value::read(record.trim_end()).unwrap();
        assert_eq!(record.lines().count(), 1);
        assert_eq!((read.text("formula"), read.number("signal")), (Some("a\n0 1 1 1 1\tb\u{1b}[2J\\"), Some(9)));
    }

    #[test]
    fn zero_is_for_refuted_pairs_alone() {
        let of = |refuted, refused, no_verdict, faults| Counts { refuted, refused, no_verdict, faults, disagreed: 0 };
        let counts = |refuted, refused, no_verdict, faults| of(refuted, refused, no_verdict, faults).status();
        assert_eq!([counts(3, 0, 0, 0), counts(3, 1, 0, 0), counts(3, 1, 1, 0)], [0, 1, 2]);
        assert_eq!([counts(0, 0, 0, 0), counts(3, 0, 0, 1), counts(0, 1, 0, 1)], [2, 2, 2]);
        for other in [of(3, 0, 0, 0), of(0, 1, 1, 1)] {
            assert_eq!(Counts { disagreed: 1, ..other }.status(), 4);
        }
    }
}
