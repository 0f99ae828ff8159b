//! The cause of a refusal (02, 8/14), by the proved library.

use crate::pair::Pair;
use batch::check::explained;
use batch::form::Form;
use explain::line::{self, Found};
use explain::text::escaped;
use proof::Record;

/// A check that took longer than this many seconds is not made again for its cause, which takes two more.
const LONGEST: f64 = 2.0;

/// The cause in sentences, where there is more to say than the number and both files are those that were checked.
pub fn cause(pair: &Pair) -> Option<String> {
    let (formula, proof, settings) = (pair.formula.as_ref()?, pair.proof.as_ref()?, pair.settings?);
    let form = Form::named(pair.text("form").as_bytes())?;
    if pair.seconds() > LONGEST {
        let said = "The check took long, so that the cause is not on this page";
        return Some(format!("\n<p class=\"soft\">{said}: bin/refute --why tells it.</p>"));
    }
    let why = explained(settings, form, formula, proof)?;
    if u64::from(why.number.code()) != pair.number("number") || why.place as u64 != pair.number("place") {
        return None;
    }
    let found = if form == Form::Records { line::find(proof, why.place) } else { None };
    let is_path = matches!(found, Some(Found { record: Some(Record::Path { .. }), .. }));
    let lines = explain::cause::sentences(&pair.words, &why.cause, is_path);
    let said: Vec<String> = lines.iter().map(|line| escaped(line.trim_start())).collect();
    (!said.is_empty()).then(|| format!("\n<p>{}</p>", said.join("<br>\n")))
}
