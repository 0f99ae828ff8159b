//! Verdicts of earlier runs, from a results file.

use crate::check::Settings;
use crate::json::Value;
use crate::pairs::Pair;
use crate::record::{name, Class, ARCHIVE, SMALL_ARCHIVE};
use std::collections::HashMap;

/// Two SHA-256 in hex.
const DIGESTS: usize = 128;

/// By names and form: the two digests and the class. A verdict is a function of the two files' bytes, the form, the settings and the
/// archive, so only runs of this archive with these settings count, and only where there was a verdict.
#[derive(Default)]
pub struct Known(HashMap<(String, String, String), (String, Class)>);

impl Known {
    pub fn read(text: &str, settings: Settings) -> Known {
        let mut known = HashMap::new();
        let mut counts = false;
        for line in text.lines() {
            // Where a file that was cut short is followed by another, the other's run may be in the broken line: what follows does not count.
            let Some(value) = Value::read(line) else {
                counts = false;
                continue;
            };
            match value.text("type") {
                Some("run") => counts = is_of(&value, settings),
                Some("pair") if counts => {
                    let word = |name| value.text(name).unwrap_or_default().to_string();
                    let digests = word("formula_sha256") + &word("proof_sha256");
                    let class = Class::of(&word("outcome"));
                    if matches!(class, Class::Refuted | Class::Refused) && digests.len() == DIGESTS {
                        known.insert((word("formula"), word("proof"), word("form")), (digests, class));
                    }
                }
                _ => {}
            }
        }
        Known(known)
    }

    /// The digests and the class of the pair's known verdict.
    pub fn get(&self, pair: &Pair) -> Option<(&str, Class)> {
        if self.0.is_empty() {
            return None;
        }
        let key = (name(&pair.formula).into(), name(&pair.proof).into(), pair.form.name().into());
        self.0.get(&key).map(|(digests, class)| (digests.as_str(), *class))
    }
}

/// Whether the run was of this archive, or of these two, with these settings.
fn is_of(run: &Value, settings: Settings) -> bool {
    run.text("archive_sha256") == Some(ARCHIVE)
        && run.number("places") == Some(settings.places as u64)
        && run.get("consequence") == Some(&Value::Truth(settings.consequence))
        && (run.get("twice") == Some(&Value::Truth(true))) == settings.twice
        && (!settings.twice || run.text("small_archive_sha256") == Some(SMALL_ARCHIVE))
}

#[cfg(test)]
mod tests {
    use super::*;
    use crate::form::Form;
    use crate::record::put_run;

    /// A run's record, then one of a refuted pair.
    fn results(settings: Settings, digit: &str) -> String {
        let mut text = String::new();
        put_run(&mut text, settings, None, 1, 1);
        let digest = digit.repeat(64);
        text + &format!(
            "{{\"type\":\"pair\",\"formula\":\"a\",\"proof\":\"b\",\"form\":\"text\",\"outcome\":\"refuted\",\
             \"formula_sha256\":\"{digest}\",\"proof_sha256\":\"{digest}\"}}\n"
        )
    }

    #[test]
    fn only_verdicts_of_this_checker_count() {
        let (usual, profile) = (Settings::default(), Settings { consequence: true, ..Settings::default() });
        let pair = Pair { formula: Some("a".into()), proof: Some("b".into()), form: Form::Text };
        let known =
            |text: &str, settings| Known::read(text, settings).get(&pair).map(|(digests, _)| digests[..1].to_string());
        let text = results(usual, "1");
        assert_eq!(known(&text, usual).as_deref(), Some("1"));
        assert_eq!(known(&text, profile), None);
        assert_eq!(known(&text, Settings { places: 64, ..usual }), None);
        assert_eq!(known(&text.replace(ARCHIVE, &"0".repeat(64)), usual), None);
        for outcome in ["time limit", "not twice", "disagreed"] {
            assert_eq!(known(&text.replace("refuted", outcome), usual), None);
        }
        assert_eq!(known(&text.replace("\"text\"", "\"binary\""), usual), None);
        assert_eq!(known(&(text.clone() + &results(usual, "2")), usual).as_deref(), Some("2"));
        // By both methods, and of both archives.
        let twice = Settings { twice: true, ..usual };
        let both = results(twice, "4");
        assert_eq!([known(&both, twice).as_deref(), known(&both, usual).as_deref()], [Some("4"), None]);
        assert_eq!([known(&text, twice), known(&both.replace(SMALL_ARCHIVE, &"0".repeat(64)), twice)], [None, None]);
        // A cut line that has swallowed the next run's.
        let cut = format!("{}{}", &text[..text.len() - 9], results(profile, "3"));
        assert_eq!(known(&cut, usual), None);
    }
}
