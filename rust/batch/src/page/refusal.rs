//! Why a proof is refused: the sentence, the place, and what stands there.

use crate::cause::cause;
use crate::pair::Pair;
use crate::sentence::sentence;
use explain::line::{self, Found};
use explain::text::escaped;
use explain::{binary, picture};
use proof::{Diagram, Diagrams};

/// The most bytes of a text that are quoted before the place, and after it.
const BEFORE: usize = 200;
const AFTER: usize = 400;
/// A claim with more nodes is not put in words, which would take long.
const MOST_IN_WORDS: usize = 1_000;
/// The most bytes that are quoted in hex.
const MOST_HEX: usize = 64;

const CAPTION: &str =
    "The claim as a diagram. From the top: where the fact holds follow the full line, else the broken one. At 1 the \
claim holds, at 0 it does not.";

/// Numbers about a whole clause of a DRAT proof, which can be put in words.
fn is_about_a_clause(number: u64) -> bool {
    matches!(number, 17 | 19 | 22 | 23 | 28)
}

pub fn refusal(pair: &Pair, id: usize) -> String {
    let (number, place, file) = (pair.number("number"), pair.number("place") as usize, pair.text("file"));
    let said = escaped(sentence(number));
    let head = format!("<p>{said} <span class=\"soft\">(number {number})</span></p>\n");
    let (bytes, file) = if file == "formula" { (&pair.formula, "formula") } else { (&pair.proof, "proof") };
    let body = match bytes {
        None => format!("<p>It is at byte {place} of the {file}, which is no longer there as it was checked.</p>"),
        Some(bytes) if place >= bytes.len() => format!("<p>It is at the end of the {file}, byte {place}.</p>"),
        Some(bytes) if file == "formula" || pair.text("form") == "text" => in_text(pair, bytes, place, file, id),
        Some(bytes) if pair.text("form") == "binary" => in_binary(pair, bytes, place, id),
        Some(bytes) => match line::find(bytes, place) {
            None => format!("<p>It is at byte {place} of the proof.</p>"),
            Some(found) => in_records(pair, found, place, id),
        },
    };
    format!("{head}{body}{}\n", cause(pair).unwrap_or_default())
}

/// The line of a text that has the place, and the word there marked.
fn in_text(pair: &Pair, bytes: &[u8], place: usize, file: &str, id: usize) -> String {
    let start = bytes[..place].iter().rposition(|&byte| byte == b'\n').map_or(0, |at| at + 1);
    let end = bytes[place..].iter().position(|&byte| byte == b'\n').map_or(bytes.len(), |more| place + more);
    let word = bytes[place..end].iter().position(u8::is_ascii_whitespace).map_or(end, |more| place + more);
    let row = 1 + bytes[..place].iter().filter(|&&byte| byte == b'\n').count();
    let part = |from: usize, to: usize| escaped(&String::from_utf8_lossy(&bytes[from..to.min(from + AFTER)]));
    let (before, marked, after) =
        (part(start.max(place.saturating_sub(BEFORE)), place), part(place, word), part(word, end));
    let quoted = format!("<p class=\"bytes\">{before}<mark>{marked}</mark>{after}</p>");
    let clause = if file == "proof" { explain::text::clause(&bytes[place..]) } else { Vec::new() };
    format!("<p>It is in line {row} of the {file}, byte {place}:</p>\n{quoted}{}", in_words(pair, file, &clause, id))
}

/// The bytes of the clause or literal at the place.
fn in_binary(pair: &Pair, bytes: &[u8], place: usize, id: usize) -> String {
    let clause = binary::clause(&bytes[place..]);
    let marked = hex(&bytes[place..place + clause.length]);
    let words = in_words(pair, "proof", &clause.literals, id);
    format!("<p>It is at byte {place} of the proof:</p>\n<p class=\"bytes\"><mark>{marked}</mark></p>{words}")
}

/// A clause of a DRAT proof in words and as a picture, where the number is about a clause.
fn in_words(pair: &Pair, file: &str, clause: &[i64], id: usize) -> String {
    if file != "proof" || !is_about_a_clause(pair.number("number")) {
        return String::new();
    }
    let said = if clause.is_empty() { "the contradiction itself".into() } else { pair.words.clause(clause) };
    let drawn = line::clause(clause).map(|(diagrams, f)| figure(pair, &diagrams, f, &said, id));
    format!("\n<p>In words: {}.</p>{}", escaped(&said), drawn.unwrap_or_default())
}

/// A claim's diagram with its caption; nothing for a constant, and where it has too many nodes.
fn figure(pair: &Pair, diagrams: &Diagrams, f: Diagram, said: &str, id: usize) -> String {
    match picture::picture(diagrams, f, &pair.words, said, id) {
        Some(drawn) if f > 1 => format!("\n<figure>{drawn}<figcaption>{CAPTION}</figcaption></figure>"),
        _ => String::new(),
    }
}

fn hex(bytes: &[u8]) -> String {
    let shown = bytes.iter().take(MOST_HEX).map(|byte| format!("{byte:02X}")).collect::<Vec<_>>().join(" ");
    if bytes.len() > MOST_HEX {
        shown + " .."
    } else {
        shown
    }
}

/// The record at the place in words, and the diagram that it is about as a picture.
fn in_records(pair: &Pair, mut found: Found, place: usize, id: usize) -> String {
    let (line, kind, marked) = (found.line, line::kind(found.record), hex(&found.bytes));
    let mut out = format!(
        "<p>It is at byte {place} of the proof, in its line {line}: {kind}.</p>\n<p class=\"bytes\"><mark>{marked}</mark></p>"
    );
    if !found.witness.is_empty() {
        let literals: Vec<String> = found.witness.iter().map(|&literal| pair.words.literal(literal)).collect();
        out += &format!("\n<p>Its witness: {}.</p>", escaped(&literals.join(", ")));
    }
    let Some(f) = found.diagram else { return out };
    let said = picture::below(&found.diagrams, f, MOST_IN_WORDS).and_then(|_| found.diagrams.tell(f));
    let words = match (f, said) {
        (0, _) => "the contradiction itself: what the whole proof is for".into(),
        (1, _) => "nothing: it is always true".into(),
        (_, Some(said)) => pair.words.named(&said),
        _ if picture::below(&found.diagrams, f, picture::MOST_NODES).is_some() => "what the picture shows".into(),
        _ => "what its diagram says, which is too large to be shown".into(),
    };
    out += &format!("\n<p>It claims: {}.</p>", escaped(&words));
    out + &figure(pair, &found.diagrams, f, &words, id)
}
