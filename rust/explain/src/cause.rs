//! The cause of a refusal in sentences.

use crate::words::Words;
use cablesalak::{Cause, Round, Variables};

/// A literal as DIMACS writes it, with the fact's name where the formula has one.
pub fn literal(words: &Words, literal: i8) -> String {
    let variable = literal.unsigned_abs();
    match words.facts.get(&variable) {
        None => literal.to_string(),
        Some(_) => format!("{literal} ({})", words.literal(literal.into())),
    }
}

fn joined(words: &Words, literals: impl Iterator<Item = i8>) -> String {
    literals.map(|l| literal(words, l)).collect::<Vec<_>>().join(", ")
}

/// A member by its number from 0: a clause of the formula, or a line of the proof, both counted from 1.
pub fn member(words: &Words, number: usize) -> String {
    let clauses: Vec<&Vec<i64>> = words.rules.iter().flat_map(|(_, clauses)| clauses).collect();
    match clauses.get(number) {
        Some(clause) if words.facts.is_empty() => {
            let literals = clause.iter().map(|literal| format!("{literal} ")).collect::<String>();
            format!("member {number}, clause {} of the formula: {literals}0", number + 1)
        }
        Some(clause) => format!("member {number}, clause {} of the formula: {}", number + 1, words.clause(clause)),
        None => format!("member {number}, line {} of the proof", number - clauses.len() + 1),
    }
}

/// What each round fixes, and how it ends.
fn rounds(words: &Words, suppose: &str, rounds: &[Round]) -> Vec<String> {
    let mut said = Vec::new();
    if rounds.is_empty() {
        said.push(format!("{suppose}, no literal follows by unit propagation, and there is no conflict."));
        return said;
    }
    said.push(format!("{suppose}, these literals follow by unit propagation:"));
    for (number, round) in rounds.iter().enumerate() {
        said.push(format!("  round {}: {}", number + 1, joined(words, round.literals())));
    }
    said.push("Then nothing more follows, and there is no conflict.".into());
    said
}

fn assignment(words: &Words, set: Variables) -> String {
    let all = Round { positive: set, negative: Variables::NONE };
    match set {
        Variables::NONE => "where no fact is true".into(),
        _ => format!("where these facts are true and no others: {}", joined(words, all.literals())),
    }
}

/// The cause in sentences, one a line; none where the number alone tells it. `path` says that the line is a path line.
pub fn sentences(words: &Words, cause: &Cause, path: bool) -> Vec<String> {
    match cause {
        Cause::Variables { variable, child } => {
            let of = |v: u8| literal(words, v as i8);
            vec![format!("Its variable {} does not come before its child's, {}.", of(*variable), of(*child))]
        }
        Cause::Assignment(set) => {
            vec![format!("The witness does not make the line true: it is false {}.", assignment(words, *set))]
        }
        Cause::NotShown { rounds: found, member: None } if path => {
            rounds(words, "On the first path to 0 that fails", found)
        }
        Cause::NotShown { rounds: found, member: None } => rounds(words, "Where the line is false", found),
        Cause::NotShown { rounds: found, member: Some(number) } => {
            let mut said = vec![format!("Under the witness this is not shown: {}.", member(words, *number))];
            said.extend(rounds(words, "Where the line is false, and so is this under the witness", found));
            said
        }
        _ => Vec::new(),
    }
}

#[cfg(test)]
mod tests {
    use super::*;

    const NAMED: &str = "c fact 1 a cat\nc fact 2 has fur\np cnf 3 2\n-1 2 0\n1 3 0\n";

    fn round(positive: &[u8], negative: &[u8]) -> Round {
        Round { positive: Variables::of(positive).unwrap(), negative: Variables::of(negative).unwrap() }
    }

    #[test]
    fn in_words() {
        let words = Words::of(NAMED);
        let said = sentences(&words, &Cause::Variables { variable: 2, child: 1 }, false);
        assert_eq!(said, ["Its variable 2 (“has fur”) does not come before its child's, 1 (“a cat”)."]);
        let said = sentences(&words, &Cause::Assignment(Variables(5)), false);
        let wanted = "The witness does not make the line true: it is false where these facts are true and no others: 1 (“a cat”), 3.";
        assert_eq!(said, [wanted]);
        let said = sentences(&words, &Cause::Assignment(Variables::NONE), false);
        assert_eq!(said, ["The witness does not make the line true: it is false where no fact is true."]);
    }

    #[test]
    fn by_round_then_by_variable() {
        let cause = Cause::NotShown { rounds: vec![round(&[3], &[1]), round(&[2], &[])], member: None };
        let said = sentences(&Words::of("p cnf 3 1\n1 0\n"), &cause, false);
        assert_eq!(said[1..3], ["  round 1: -1, 3", "  round 2: 2"]);
        assert!(said[0].starts_with("Where the line is false, these") && said[3].ends_with("no conflict."));
        let said = sentences(&Words::default(), &Cause::NotShown { rounds: vec![], member: None }, true);
        assert_eq!(said.len(), 1);
        assert!(said[0].starts_with("On the first path"));
    }

    #[test]
    fn members() {
        let words = Words::of(NAMED);
        assert_eq!(member(&words, 0), "member 0, clause 1 of the formula: if “a cat”, then “has fur”");
        assert_eq!(member(&words, 2), "member 2, line 1 of the proof");
        let plain = Words::of("p cnf 2 1\n1 -2 0\n");
        assert_eq!(member(&plain, 0), "member 0, clause 1 of the formula: 1 -2 0");
        let cause = Cause::NotShown { rounds: vec![], member: Some(0) };
        assert!(sentences(&plain, &cause, false)[0]
            .ends_with("this is not shown: member 0, clause 1 of the formula: 1 -2 0."));
    }
}
