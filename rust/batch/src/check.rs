//! The check of one pair. Every call of the proved library is here and in `twice.rs`.

use crate::files::{Refusal, Room, Source, LONGEST};
use crate::form::Form;
use crate::pairs::Pair;
use crate::sha256::hex;
use crate::twice::{Second, Table};
use cablesalak::{Explanation, Mode, Number, Text, Workspace};
use std::time::Instant;

pub use cablesalak::{PLACES, VERSION};

fn mode(settings: Settings, form: Form) -> Mode {
    let form = match form {
        Form::Records => cablesalak::Form::Records,
        Form::Text => cablesalak::Form::Text,
        Form::Binary => cablesalak::Form::Binary,
    };
    Mode { form, consequence: settings.consequence }
}

/// Why a check is refused (02, 8/14). None where the table cannot have so many places.
pub fn explained<'a>(settings: Settings, form: Form, formula: &'a [u8], proof: &'a [u8]) -> Option<Explanation<'a>> {
    Some(Workspace::new(settings.places).ok()?.why(mode(settings, form), formula, proof))
}

/// What a verdict depends on besides the two files and the proof's form.
#[derive(Clone, Copy, Debug, PartialEq, Eq)]
pub struct Settings {
    /// The places of the table.
    pub places: usize,
    /// Whether only lines pass that follow from the formula (02, 11/14).
    pub consequence: bool,
    /// Whether each pair is checked by truth table too (02, 14/14).
    pub twice: bool,
}

impl Default for Settings {
    /// Those of the programs.
    fn default() -> Settings {
        Settings { places: 4_096, consequence: false, twice: false }
    }
}

/// The file that a place is in.
#[derive(Clone, Copy, Debug, PartialEq, Eq)]
pub enum Place {
    Nowhere,
    Formula,
    Proof,
}

/// The answer on a pair: the program's line, the file that its place is in, and the two files.
#[derive(Clone, Copy, Debug, PartialEq, Eq)]
pub struct Answer {
    pub number: u8,
    pub file: Place,
    pub place: u64,
    pub lines: u64,
    pub rounds: u64,
    pub peak: u64,
    /// How long the check took, or both; 0 where none was made.
    pub nanoseconds: u64,
    /// What the check by truth table gives.
    pub second: Second,
    pub formula: Source,
    pub proof: Source,
    /// The two files are those of an earlier verdict, so that they were not checked again.
    pub known: bool,
}

impl Answer {
    /// Before a check.
    fn of(formula: Source, proof: Source) -> Answer {
        let (number, file) = (0, Place::Nowhere);
        let (place, lines, rounds, peak, nanoseconds) = (0, 0, 0, 0, 0);
        let second = Second::NotAsked;
        Answer { number, file, place, lines, rounds, peak, nanoseconds, second, formula, proof, known: false }
    }

    /// The two digests in hex; nothing where a file was not read.
    fn digests(&self) -> Option<String> {
        Some(hex(&self.formula.digest?) + &hex(&self.proof.digest?))
    }
}

/// A number's meaning in a few words.
pub fn meaning(number: u8) -> Option<String> {
    Number::try_from(number).ok().map(|number| number.to_string())
}

/// What a worker keeps from pair to pair: only room. A check empties it first.
pub struct Checker {
    settings: Settings,
    workspace: Workspace,
    truth_table: Table,
    formula: Room,
    proof: Room,
}

impl Checker {
    /// None where the table cannot have so many places.
    pub fn new(settings: Settings) -> Option<Checker> {
        let workspace = Workspace::new(settings.places).ok()?;
        let (truth_table, formula, proof) = (Table::default(), Room::default(), Room::default());
        Some(Checker { settings, workspace, truth_table, formula, proof })
    }

    /// The answer on the pair, with the program's line. `known` is the two digests, in hex, of a verdict that is known; or nothing.
    pub fn check(&mut self, pair: &Pair, known: &str) -> Answer {
        let sources = [self.formula.read(pair.formula.as_deref()), self.proof.read(pair.proof.as_deref())];
        let [formula, proof] = sources.map(Result::unwrap_or_default);
        let mut answer = Answer::of(formula, proof);
        // The formula's refusal comes first, as in the program.
        if let Some(refusal) = sources.iter().find_map(|source| source.err()) {
            (answer.number, answer.place) = match refusal {
                Refusal::TooLong => (Number::FileTooLong.code(), LONGEST as u64),
                Refusal::Unreadable => (Number::FileUnreadable.code(), 0),
            };
            return answer;
        }
        if !known.is_empty() && answer.digests().as_deref() == Some(known) {
            answer.known = true;
            return answer;
        }
        if self.settings.twice && pair.form != Form::Records {
            answer.second = Second::NoRecords;
            return answer;
        }
        let began = Instant::now();
        self.judge(pair.form, &mut answer);
        if self.settings.twice {
            answer.second = self.truth_table.second(&answer, self.formula.text(), self.proof.text());
        }
        answer.nanoseconds = began.elapsed().as_nanos() as u64;
        answer
    }

    /// The call of the library on the two files that were read.
    fn judge(&mut self, form: Form, answer: &mut Answer) {
        let mode = mode(self.settings, form);
        let said = self.workspace.check(mode, self.formula.text(), self.proof.text());
        answer.number = said.number.code();
        answer.file = match said.text {
            None => Place::Nowhere,
            Some(Text::Formula) => Place::Formula,
            Some(Text::Proof) => Place::Proof,
        };
        (answer.place, answer.lines) = (said.place as u64, said.lines as u64);
        (answer.rounds, answer.peak) = (said.rounds, said.peak as u64);
    }
}
