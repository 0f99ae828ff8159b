//! The results of one file or of several.

use crate::pair::Pair;
use crate::question::Question;
use batch::check::Settings;
use batch::json::Value;
use batch::record::Class;
use batch::results::explained;
use std::collections::BTreeMap;
use std::ffi::OsString;
use std::fs;
use std::io;
use std::path::Path;

/// A run, and what it could not read.
pub struct Run {
    pub record: Value,
    pub faults: Vec<String>,
    /// Whether it wrote its last record.
    pub ended: bool,
    /// Whether another run follows it in its file.
    pub followed: bool,
}

#[derive(Default)]
pub struct Results {
    pub runs: Vec<Run>,
    /// Those that are not refuted come first.
    pub questions: Vec<Question>,
}

/// Names, form, profile, and whether by two methods: of each the last result counts.
type Key = (String, String, String, bool, bool);

#[derive(Default)]
struct Reading {
    runs: Vec<Run>,
    /// The run that the next record is of; none where that is not known.
    run: Option<usize>,
    pairs: BTreeMap<Key, (Value, Option<usize>)>,
}

impl Reading {
    fn take(&mut self, value: Value) {
        match value.text("type") {
            Some("run") => {
                if let Some(last) = self.run {
                    self.runs[last].followed = true;
                }
                self.run = Some(self.runs.len());
                self.runs.push(Run { record: value, faults: Vec::new(), ended: false, followed: false });
            }
            Some("pair") => {
                let word = |name| value.text(name).unwrap_or("").to_string();
                let is = |what: fn(&Value) -> bool| self.run.is_some_and(|run| what(&self.runs[run].record));
                let key = (word("formula"), word("proof"), word("form"), is(is_in_profile), is(is_twice));
                self.pairs.insert(key, (value, self.run));
            }
            Some(kind @ ("fault" | "end")) => {
                let Some(run) = self.run else { return };
                self.runs[run].ended |= kind == "end";
                self.runs[run].faults.extend(value.text("what").map(String::from));
            }
            _ => {}
        }
    }

    /// The pairs by formula and its digest; one whose check did not come to its end has no digest, and joins the others of the formula. A
    /// proof without a formula is a question of its own.
    fn questions(self) -> Results {
        let word = |value: &Value, name| value.text(name).unwrap_or("").to_string();
        let read = self.pairs.values().filter(|(value, _)| value.text("formula_sha256").is_some());
        let digests: BTreeMap<String, String> =
            read.map(|(value, _)| (word(value, "formula"), word(value, "formula_sha256"))).collect();
        let mut questions: BTreeMap<(String, String), Question> = BTreeMap::new();
        for (value, run) in self.pairs.into_values() {
            let (formula, proof) = (word(&value, "formula"), word(&value, "proof"));
            let digest = value.text("formula_sha256").or(digests.get(&formula).map(String::as_str)).unwrap_or("");
            let key = (formula.clone(), if formula.is_empty() { proof } else { digest.to_string() });
            let question = questions.entry(key).or_insert(Question { pairs: Vec::new() });
            let settings = run.and_then(|run| settings(&self.runs[run].record));
            question.pairs.push(Pair::new(value, run.map(|run| run + 1), settings));
        }
        let mut questions: Vec<Question> = questions.into_values().collect();
        let ranks = [Class::Disagreed, Class::Refused, Class::NoVerdict, Class::Refuted];
        let rank = |class| ranks.iter().position(|&other| other == class);
        questions.sort_by_key(|question| rank(question.class()));
        Results { runs: self.runs, questions }
    }
}

/// What the run's verdicts depend on besides the files.
fn settings(run: &Value) -> Option<Settings> {
    let places = run.number("places").and_then(|places| places.try_into().ok())?;
    Some(Settings { places, consequence: is_in_profile(run), twice: is_twice(run) })
}

pub fn is_in_profile(run: &Value) -> bool {
    run.get("consequence") == Some(&Value::Truth(true))
}

pub fn is_twice(run: &Value) -> bool {
    run.get("twice") == Some(&Value::Truth(true))
}

pub fn read(names: &[OsString]) -> io::Result<Results> {
    let mut reading = Reading::default();
    for name in names {
        let bytes = fs::read(name).map_err(|error| explained(Path::new(name), error))?;
        reading.run = None;
        for line in String::from_utf8_lossy(&bytes).lines() {
            match Value::read(line) {
                Some(value) => reading.take(value),
                // The line may have had the next run's record.
                None => reading.run = None,
            }
        }
    }
    Ok(reading.questions())
}
