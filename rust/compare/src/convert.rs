//! Commands of the two conversions, what they must give, and commands that follow from an answer: there and back, and the check of a proof
//! in the other form.

use crate::binary;
use crate::check::{self, hex};
use crate::clausal::{bytes, Asked};
use crate::drat;
use crate::formula;
use crate::outside;
use crate::random::Random;
use crate::read::{read, to_bytes, to_text, Form};

/// A conversion with outputs of a few sizes.
pub fn commands(random: &mut Random) -> Vec<String> {
    let (word, proof) = if random.percent(50) { ("tobin", text(random)) } else { ("totext", binary(random)) };
    let wanted = converted(word, &proof).map_or(proof.len(), |result| result.len());
    let mut sizes = vec![wanted, wanted + random.pick(&[1, 2, 100])];
    if random.percent(60) {
        sizes.push(wanted.saturating_sub(1));
    }
    if random.percent(30) {
        sizes.push(random.below(wanted + 1));
    }
    sizes.into_iter().map(|size| format!("{word} {size} {}", hex(&proof))).collect()
}

/// A text that is fine, with one token at fault, or with bytes changed; variables up to 64 and beyond.
fn text(random: &mut Random) -> Vec<u8> {
    let problem = problem(random);
    let mut tokens = problem.tokens();
    match random.below(5) {
        0 => formula::replace(random, &mut tokens, &formula::NO_NUMBERS),
        1 => {
            let beyond = ["65", "-65", "64", "-64", "99999999999999999999", "-128", "63"];
            formula::replace(random, &mut tokens, &beyond);
        }
        2 => tokens.truncate(random.below(tokens.len() + 1)),
        _ => {}
    }
    let mut text = drat::strewn(random, &tokens);
    if random.percent(15) {
        check::mutate(random, &mut text, check::LETTERS);
    }
    text
}

fn binary(random: &mut Random) -> Vec<u8> {
    let problem = problem(random);
    let mut proof = match random.below(3) {
        0 => binary::with_fault(random, &problem.steps, 64),
        _ => binary::of_steps(&problem.steps),
    };
    if random.percent(15) {
        binary::mutate(random, &mut proof);
    }
    proof
}

/// Both signs of a variable and repeats are in some of them; conversions do not mind.
fn problem(random: &mut Random) -> drat::Problem {
    match random.below(10) {
        0 => outside::damaged(random),
        1 => drat::long(random),
        _ => drat::small(random),
    }
}

/// The result of a conversion with room for it, or number and place of the fault.
fn converted(word: &str, proof: &[u8]) -> Result<Vec<u8>, (u8, usize)> {
    let form = if word == "tobin" { Form::Text } else { Form::Binary };
    let read = read(form, proof, 64);
    match (read.fault, form) {
        (Some(fault), _) => Err(fault),
        (None, Form::Text) => Ok(to_bytes(&read.clauses)),
        (None, Form::Binary) => Ok(to_text(&read.clauses)),
    }
}

/// Whether a conversion's answer is as document 02 has it: number, place, length and every byte of the output. None of other commands.
pub fn hold(command: &str, answer: &str) -> Option<bool> {
    let [word @ ("tobin" | "totext"), size, proof] = command.split(' ').collect::<Vec<_>>()[..] else { return None };
    let size: usize = size.parse().ok()?;
    let zeros = |length| hex(&vec![0; length]);
    let wanted = match converted(word, &bytes(proof)?) {
        Err((number, place)) => format!("{number} {place} 0 | {}", zeros(size)),
        Ok(result) if result.len() > size => format!("7 0 0 | {}", zeros(size)),
        Ok(result) => format!("0 0 {} | {}", result.len(), hex(&[&result[..], &vec![0; size - result.len()]].concat())),
    };
    Some(answer == wanted)
}

/// The conversion back of a result, with just the room that it needs or one byte less.
pub fn back(random: &mut Random, command: &str, answer: &str) -> Option<String> {
    let word = match command.split(' ').next()? {
        "tobin" => "totext",
        "totext" => "tobin",
        _ => return None,
    };
    let (numbers, output) = answer.split_once(" | ")?;
    let length: usize = numbers.strip_prefix("0 0 ")?.parse().ok()?;
    let result = bytes(output)?.get(..length)?.to_vec();
    let size = converted(word, &result).ok()?.len();
    Some(format!("{word} {} {}", size.saturating_sub(random.below(4) / 3), hex(&result)))
}

/// The same check with its proof in the other form, and the answer to it without its place. None where the proof cannot be converted.
pub fn in_other_form(command: &str, answer: &str) -> Option<(String, String)> {
    let asked = Asked::of(command)?;
    let (from, to, conversion) = match asked.form {
        Form::Text => ("drat", "dratb", "tobin"),
        Form::Binary => ("dratb", "drat", "totext"),
    };
    let mut words: Vec<String> = command.split(' ').map(String::from).collect();
    let at = words.iter().position(|word| word == from)?;
    let proof = converted(conversion, &bytes(&words[at + 5])?).ok()?;
    words[at] = to.into();
    words[at + 5] = hex(&proof);
    Some((words.join(" "), placeless(answer)?))
}

/// An answer of a check without its place.
pub fn placeless(answer: &str) -> Option<String> {
    let mut words: Vec<&str> = answer.split(' ').collect();
    if words.len() < 3 {
        return None;
    }
    words.remove(1);
    Some(words.join(" "))
}

#[cfg(test)]
mod tests {
    use super::*;

    /// Document 02's rows.
    #[test]
    fn answers_are_held() {
        // "-64 0"
        assert_eq!(hold("tobin 4 2d36342030", "0 0 4 | 61810100"), Some(true));
        assert_eq!(hold("tobin 5 2d36342030", "0 0 4 | 6181010000"), Some(true));
        assert_eq!(hold("tobin 5 2d36342030", "0 0 4 | 61810100a5"), Some(false));
        assert_eq!(hold("tobin 3 2d36342030", "7 0 0 | 000000"), Some(true));
        assert_eq!(hold("tobin 3 2d36342030", "7 0 3 | 618101"), Some(false));
        assert_eq!(hold("tobin 0 -", "0 0 0 | -"), Some(true));
        assert_eq!(hold("tobin 2 36352030", "4 0 0 | 0000"), Some(true));
        assert_eq!(hold("totext 6 61810100", "0 0 6 | 2d363420300a"), Some(true));
        assert_eq!(hold("totext 1 618000", "31 1 0 | 00"), Some(true));
        // The fault comes before the room.
        assert_eq!(hold("totext 0 61020062", "9 3 0 | -"), Some(true));
        assert_eq!(hold("eval 4 3 - 0 0", "0 0 3"), None);
    }

    #[test]
    fn what_follows() {
        let random = &mut Random::new(1);
        let back = |command, answer| super::back(&mut Random::new(1), command, answer);
        assert!(back("tobin 5 2d36342030", "0 0 4 | 6181010000").unwrap().starts_with("totext "));
        assert_eq!(back("tobin 3 2d36342030", "7 0 0 | 000000"), None);
        let (command, answer) =
            in_other_form("cons drat 64 2048 4096 70 2d36342030 !HS=3", "19 0 0 0 3 4 | - | 2 | 0").unwrap();
        assert_eq!(command, "cons dratb 64 2048 4096 70 61810100 !HS=3");
        assert_eq!(answer, "19 0 0 3 4 | - | 2 | 0");
        assert_eq!(in_other_form("drat 64 2048 4096 70 78", "3 0 0 0 3 4 | - | 2 | 0"), None);
        let mut seen = [0; 32];
        for command in (0..2_000).flat_map(|_| commands(random)) {
            let [word, size, proof] = command.split(' ').collect::<Vec<_>>()[..] else { panic!("{command}") };
            let number = match converted(word, &bytes(proof).unwrap()) {
                Err((number, _)) => number,
                Ok(result) if result.len() > size.parse().unwrap() => 7,
                Ok(_) => 0,
            };
            seen[usize::from(number)] += 1;
        }
        assert!([0, 3, 4, 6, 7, 9, 31].iter().all(|number| seen[*number] > 20), "{seen:?}");
    }
}
