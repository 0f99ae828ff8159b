//! A pair of the results: its outcome, and its files as far as they are still those that were checked.

use crate::refusal;
use crate::sentence::sentence;
use batch::check::Settings;
use batch::files::Room;
use batch::json::Value;
use batch::record::Class;
use batch::sha256;
use explain::text::escaped;
use explain::words::Words;
use std::fmt::Write;
use std::path::Path;

const DISAGREED: &str = "The check over diagrams and the check by truth table give different lines. It is proved that they never do. So the \
machine, the compiler or the linking of the program is at fault. Rely on no result of this program on this machine until that is settled.";

const NOT_TWICE: &str =
    "The check by truth table takes formulas of at most six variables, and proofs in records. Check it by one method.";

pub struct Pair {
    result: Value,
    /// The number of its run on the page, where that is known.
    run: Option<usize>,
    /// What its verdict depends on besides the files, where its run is known.
    pub settings: Option<Settings>,
    pub formula: Option<Vec<u8>>,
    pub proof: Option<Vec<u8>>,
    pub words: Words,
}

/// A file's bytes, where they have the digest, or none is asked for.
fn quoted(name: Option<&str>, digest: Option<&str>) -> Option<Vec<u8>> {
    let mut room = Room::default();
    let source = room.read(Some(Path::new(name?))).ok()?;
    let is_right = digest.is_none_or(|digest| source.digest.is_some_and(|found| sha256::hex(&found) == digest));
    is_right.then(|| room.text().to_vec())
}

impl Pair {
    pub fn new(result: Value, run: Option<usize>, settings: Option<Settings>) -> Pair {
        // Where no check came to its end there is no digest and no verdict on any bytes: the question is quoted as it is now.
        let is_unread = matches!(result.text("outcome"), Some("time limit" | "ended"));
        let digest = |name| result.text(name).or((!is_unread).then_some("not read"));
        let formula = quoted(result.text("formula"), digest("formula_sha256"));
        let proof = quoted(result.text("proof"), Some(result.text("proof_sha256").unwrap_or("not read")));
        let words = Words::of(&formula.as_deref().map_or("".into(), String::from_utf8_lossy));
        Pair { result, run, settings, formula, proof, words }
    }

    pub fn text(&self, name: &str) -> &str {
        self.result.text(name).unwrap_or("")
    }

    pub fn number(&self, name: &str) -> u64 {
        self.result.number(name).unwrap_or(0)
    }

    /// How long the check took.
    pub fn seconds(&self) -> f64 {
        match self.result.get("seconds") {
            Some(Value::Number(seconds)) => *seconds,
            _ => 0.0,
        }
    }

    pub fn class(&self) -> Class {
        Class::of(self.text("outcome"))
    }

    /// A file's name and digest.
    pub fn file(&self, name: &str) -> String {
        let digest = match self.text(&format!("{name}_sha256")) {
            "" => "not read".into(),
            digest => format!("SHA-256 <code>{}</code>", escaped(digest)),
        };
        let file = escaped(self.text(name));
        format!("<dt>{name}</dt><dd>{file}<br><span class=\"soft\">{digest}</span></dd>")
    }

    /// What came of the proof. `id` is the section's own.
    pub fn section(&self, id: usize) -> String {
        let class = class_name(self.class());
        let mut out =
            format!("<section class=\"{class}\">\n<h4 class=\"is\">{}</h4>\n{}<dl>", self.said(), self.why(id));
        if !self.text("proof").is_empty() {
            out += &self.file("proof");
        }
        if self.class() != Class::NoVerdict {
            let fields = ["number", "place", "lines", "rounds", "peak"].map(|name| self.number(name).to_string());
            let run = self.run.map_or("of no known run".into(), |run| format!("run {run}"));
            let form = escaped(self.text("form"));
            let _ = write!(out, "<dt>checker’s line</dt><dd><code>{}</code>, {form}, {run}</dd>", fields.join(" "));
        }
        if let Some(second) = self.second() {
            let _ = write!(out, "<dt>by truth table</dt><dd>{second}</dd>");
        }
        out + "</dl>\n</section>\n"
    }

    /// What the second method gave, where it was asked.
    fn second(&self) -> Option<String> {
        match self.result.get("second")? {
            Value::Text(word) if word == "agrees" => Some("the same number, place, lines and rounds".into()),
            Value::Text(word) if word == "none" => {
                Some("no answer: the number is about a table, and it has none".into())
            }
            line @ Value::Object(_) => {
                let fields =
                    ["number", "place", "lines", "rounds"].map(|name| line.number(name).unwrap_or(0).to_string());
                Some(format!("<code>{}</code>", fields.join(" ")))
            }
            _ => None,
        }
    }

    fn said(&self) -> &'static str {
        match self.class() {
            Class::Refuted => "✓ accepted: it shows that no case can meet every rule",
            Class::Refused => "✗ refused: it does not show it",
            Class::NoVerdict if self.text("outcome") == "not twice" => "– not checked by two methods, as it was to be",
            Class::NoVerdict if self.text("proof").is_empty() => "– nothing to check",
            Class::NoVerdict if self.text("formula").is_empty() => "– nothing to check it against",
            Class::NoVerdict => "– not checked to its end",
            Class::Disagreed => "‼ the two methods disagree",
        }
    }

    fn why(&self, id: usize) -> String {
        match self.text("outcome") {
            "refuted" => String::new(),
            "refused" => refusal::refusal(self, id),
            "time limit" => "<p>The time limit was reached.</p>\n".into(),
            "ended" => "<p>The checking process was ended from outside, or by a fault of the machine.</p>\n".into(),
            "disagreed" => format!("<p>{DISAGREED}</p>\n"),
            "not twice" => format!("<p>{NOT_TWICE} <span class=\"soft\">({})</span></p>\n", escaped(self.text("why"))),
            _ if self.text("proof").is_empty() => "<p>There is no proof for this question.</p>\n".into(),
            _ if self.text("formula").is_empty() => "<p>There is no formula for this proof.</p>\n".into(),
            _ => format!("<p>{}</p>\n", escaped(sentence(self.number("number")))),
        }
    }
}

/// The class that colours.
pub fn class_name(class: Class) -> &'static str {
    match class {
        Class::Refuted => "refuted",
        Class::Refused => "refused",
        Class::NoVerdict => "none",
        Class::Disagreed => "alarm",
    }
}
