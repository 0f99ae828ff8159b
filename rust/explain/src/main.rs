//! `refute-why MODE FORMULA PROOF [PICTURE]`: why the check of two files is refused, in words: the piece at fault and the cause. MODE is the form
//! of the proof, r, t or b, with c behind it in the consequence profile. PICTURE is a file for the diagram at fault (SVG). `bin/refute --why`
//! starts it.
//!
//! Status: 1 it is told, 0 the check does not refuse, 2 wrong use or a file was not taken, 3 the words or the picture could not be written.

use cablesalak::{Explanation, Form, Mode, Number, Text, Workspace};
use explain::line::{self, Found};
use explain::words::Words;
use explain::{binary, cause, picture};
use proof::Record;
use std::env;
use std::fs;
use std::io::{self, Read, Write};
use std::process::ExitCode;

/// The table of the programs.
const PLACES: usize = 4_096;
/// The most bytes of a file.
const LONGEST: u64 = 65_536;
/// The most bytes of a piece that are quoted.
const MOST_QUOTED: usize = 400;
/// A diagram with more nodes is not put in words, which would take long.
const MOST_IN_WORDS: usize = 1_000;

/// The form and the profile that a word names.
fn mode(word: &str) -> Option<Mode> {
    let (form, consequence) = word.strip_suffix('c').map_or((word, false), |form| (form, true));
    let form = match form {
        "r" => Form::Records,
        "t" => Form::Text,
        "b" => Form::Binary,
        _ => return None,
    };
    Some(Mode { form, consequence })
}

/// A file of at most so many bytes.
fn read(name: &str) -> Option<Vec<u8>> {
    let mut bytes = Vec::new();
    fs::File::open(name).ok()?.take(LONGEST + 1).read_to_end(&mut bytes).ok()?;
    (bytes.len() as u64 <= LONGEST).then_some(bytes)
}

/// The piece as it stands: text in quotes, other bytes in hex.
fn quoted(piece: &[u8], is_text: bool) -> String {
    let shown = &piece[..piece.len().min(MOST_QUOTED)];
    let more = if shown.len() < piece.len() { " .." } else { "" };
    if is_text {
        let text = explain::text::visible(&String::from_utf8_lossy(shown));
        return format!("“{}”{more}", text.replace('\n', " ⏎ "));
    }
    shown.iter().map(|byte| format!("{byte:02X}")).collect::<Vec<_>>().join(" ") + more
}

/// The record at fault in words: which line it belongs to, what it is, what it claims.
fn in_records(words: &Words, found: &mut Found) -> String {
    let claim = found.diagram.and_then(|f| match f {
        0 => Some("0, the contradiction itself".into()),
        1 => Some("1, which is always true".into()),
        _ => {
            picture::below(&found.diagrams, f, MOST_IN_WORDS)?;
            found.diagrams.tell(f).map(|said| words.named(&said))
        }
    });
    let claim = claim.map_or(String::new(), |claim| format!("\n  It says: {claim}."));
    format!("  It is in line {} of the proof: {}.{claim}", found.line, line::kind(found.record))
}

/// The literals of a clause of a DRAT proof.
fn in_drat(words: &Words, explanation: &Explanation, form: Form) -> Option<String> {
    if !matches!(explanation.number.code(), 17 | 19 | 22 | 23 | 28) {
        return None;
    }
    let literals = match form {
        Form::Binary => binary::clause(explanation.piece).literals,
        _ => explain::text::clause(explanation.piece),
    };
    (!words.facts.is_empty() && !literals.is_empty()).then(|| format!("  In words: {}.", words.clause(&literals)))
}

fn told(explanation: &Explanation, mode: Mode, formula: &[u8], found: Option<&mut Found>) -> String {
    let words = Words::of(&String::from_utf8_lossy(formula));
    let is_text = explanation.text == Some(Text::Formula) || mode.form == Form::Text;
    let mut lines = vec![match explanation.piece {
        [] => "  It is at the end of the file.".to_string(),
        piece => format!("  {}", quoted(piece, is_text)),
    }];
    let is_path = matches!(found, Some(Found { record: Some(Record::Path { .. }), .. }));
    match found {
        Some(found) => lines.push(in_records(&words, found)),
        None if explanation.text == Some(Text::Proof) => lines.extend(in_drat(&words, explanation, mode.form)),
        None => {}
    }
    lines.extend(cause::sentences(&words, &explanation.cause, is_path).into_iter().map(|line| format!("  {line}")));
    lines.join("\n") + "\n"
}

/// The diagram of the record at fault, as a file of its own.
fn drawn(found: Option<&Found>, formula: &[u8]) -> Option<String> {
    let found = found?;
    let words = Words::of(&String::from_utf8_lossy(formula));
    picture::file(&found.diagrams, found.diagram.filter(|&f| f > 1)?, &words, line::kind(found.record))
}

fn main() -> ExitCode {
    let given: Vec<String> = env::args().skip(1).collect();
    let (asked, picture) = match &given[..] {
        [asked @ .., picture] if given.len() == 4 => (asked, Some(picture)),
        asked => (asked, None),
    };
    let files = match asked {
        [word, formula, proof] => mode(word).zip(read(formula).zip(read(proof))),
        _ => None,
    };
    let Some((mode, (formula, proof))) = files else {
        eprintln!("refute-why MODE FORMULA PROOF [PICTURE]: r, t or b, and c for the profile; two files of at most 65,536 bytes");
        return ExitCode::from(2);
    };
    let mut workspace = Workspace::new(PLACES).expect("a table of 4,096 places");
    let explanation = workspace.why(mode, &formula, &proof);
    if explanation.number == Number::NotRefused {
        return ExitCode::SUCCESS;
    }
    let has_record = explanation.text == Some(Text::Proof) && mode.form == Form::Records && !explanation.piece.is_empty();
    let mut found = has_record.then(|| line::find(&proof, explanation.place)).flatten();
    let said = told(&explanation, mode, &formula, found.as_mut());
    if let Some(name) = picture {
        match drawn(found.as_ref(), &formula) {
            None => eprintln!("refute-why: there is no diagram to draw, or it has too many nodes"),
            Some(drawn) => {
                if let Err(error) = fs::write(name, drawn) {
                    eprintln!("refute-why: {name}: {error}");
                    return ExitCode::from(3);
                }
            }
        }
    }
    let mut out = io::stdout();
    match out.write_all(said.as_bytes()).and_then(|()| out.flush()) {
        Ok(()) => ExitCode::from(1),
        Err(_) => ExitCode::from(3),
    }
}
