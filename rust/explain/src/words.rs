//! A formula in words: what its comment lines say of the question, the facts and the clauses.
//!
//! `c question TEXT` asks, `c fact N TEXT` names a fact (and so does `c N TEXT` before the header, as exporters of feature models write it),
//! and any other comment is the heading of the clauses after it. Nothing here is judged: the check passes over comments.

use std::collections::BTreeMap;

/// A comment and the clauses after it.
pub type Rule = (String, Vec<Vec<i64>>);

#[derive(Default)]
pub struct Words {
    pub question: String,
    pub facts: BTreeMap<u8, String>,
    /// The clauses before the first comment have an empty one.
    pub rules: Vec<Rule>,
}

/// "N TEXT", and further facts of the same line after two blanks or more.
fn facts(text: &str) -> Option<Vec<(u8, String)>> {
    let mut found: Vec<(u8, String)> = Vec::new();
    for part in text.split("  ").map(str::trim).filter(|part| !part.is_empty()) {
        let (number, name) = part.split_once(' ')?;
        let number = number.parse().ok().filter(|number| (1..=64).contains(number))?;
        found.push((number, name.trim().to_string()));
    }
    (!found.is_empty()).then_some(found)
}

/// Adds a text after a blank.
fn append(to: &mut String, text: &str) {
    if !to.is_empty() {
        to.push(' ');
    }
    to.push_str(text);
}

impl Words {
    /// Of a formula, read by lines and as far as it can be read.
    pub fn of(formula: &str) -> Words {
        let mut words = Words::default();
        let (mut clause, mut headed) = (Vec::new(), false);
        for line in formula.lines() {
            if let Some(comment) = line.strip_prefix('c') {
                words.comment(comment.trim(), headed);
            } else if line.starts_with('p') {
                headed = true;
            } else {
                words.literals(line, &mut clause);
            }
        }
        words
    }

    fn comment(&mut self, text: &str, headed: bool) {
        let fact = text.strip_prefix("fact ").or((!headed).then_some(text));
        if let Some(asked) = text.strip_prefix("question ") {
            append(&mut self.question, asked.trim());
        } else if let Some(named) = fact.and_then(facts) {
            named.into_iter().for_each(|(number, name)| self.name(number, name));
        } else if !text.is_empty() {
            match self.rules.last_mut() {
                Some((said, clauses)) if clauses.is_empty() => append(said, text),
                _ => self.rules.push((text.to_string(), Vec::new())),
            }
        }
    }

    /// A fact that is named twice has both names.
    fn name(&mut self, number: u8, name: String) {
        let known = self.facts.entry(number).or_default();
        if known.is_empty() {
            *known = name;
        } else if *known != name {
            *known += &format!(" / {name}");
        }
    }

    /// Takes a line of literals; `clause` is the one that is open.
    fn literals(&mut self, line: &str, clause: &mut Vec<i64>) {
        for literal in line.split_ascii_whitespace().filter_map(|token| token.parse::<i64>().ok()) {
            if literal != 0 {
                clause.push(literal);
                continue;
            }
            if self.rules.is_empty() {
                self.rules.push((String::new(), Vec::new()));
            }
            if let Some((_, clauses)) = self.rules.last_mut() {
                clauses.push(std::mem::take(clause));
            }
        }
    }

    pub fn fact(&self, variable: u64) -> String {
        let named = u8::try_from(variable).ok().and_then(|variable| self.facts.get(&variable));
        named.map_or(format!("fact {variable}"), |name| format!("“{name}”"))
    }

    pub fn literal(&self, literal: i64) -> String {
        format!("{}{}", if literal < 0 { "not " } else { "" }, self.fact(literal.unsigned_abs()))
    }

    /// A clause as a rule: whoever has all of these has one of those.
    pub fn clause(&self, literals: &[i64]) -> String {
        let facts = |positive: bool, by: &str| {
            let chosen = literals.iter().filter(|&&literal| (literal > 0) == positive);
            chosen.map(|literal| self.fact(literal.unsigned_abs())).collect::<Vec<_>>().join(by)
        };
        let negative = literals.iter().filter(|&&literal| literal < 0).count();
        match (negative, literals.len() - negative) {
            (0, 0) => "never".into(),
            (0, 1) => format!("always {}", facts(true, "")),
            (0, _) => format!("always one of {}", facts(true, ", ")),
            (1, 0) => format!("never {}", facts(false, "")),
            (_, 0) => format!("never all of {}", facts(false, ", ")),
            (_, 1) => format!("if {}, then {}", facts(false, " and "), facts(true, "")),
            _ => format!("if {}, then one of {}", facts(false, " and "), facts(true, ", ")),
        }
    }

    /// A text of `rust/proof`, whose facts are x1, x2 and so on, with the facts' names.
    pub fn named(&self, text: &str) -> String {
        let name = |word: &str| {
            let (word, comma) = word.strip_suffix(',').map_or((word, ""), |word| (word, ","));
            match word.strip_prefix('x').and_then(|digits| digits.parse().ok()) {
                Some(variable) => self.fact(variable) + comma,
                None => word.to_string() + comma,
            }
        };
        text.split(' ').map(name).collect::<Vec<_>>().join(" ")
    }
}

#[cfg(test)]
mod tests {
    use super::*;

    #[test]
    fn comments_are_sorted() {
        let words = Words::of(
            "c question Can it\nc question be?\nc 1 a man   2 a cat\nc fact 3 has fur\np cnf 3 3\n-2 3 0\nc No man has.\n-1 -3 0 1\n 0\n",
        );
        assert_eq!(words.question, "Can it be?");
        assert_eq!(words.facts.len(), 3);
        assert_eq!(words.rules, [("".into(), vec![vec![-2, 3]]), ("No man has.".into(), vec![vec![-1, -3], vec![1]])]);
        assert_eq!(words.clause(&[-2, 3]), "if “a cat”, then “has fur”");
        assert_eq!(words.clause(&[-1, -3]), "never all of “a man”, “has fur”");
        assert_eq!(words.literal(-1), "not “a man”");
        assert_eq!(words.named("at least 2 of x1, x2, x64"), "at least 2 of “a man”, “a cat”, fact 64");
        // After the header a number begins a rule; a name never takes another's place.
        let words = Words::of("c fact 2 a cat\np cnf 2 1\nc 2 cats are enough.\n1 2 0\nc fact 2 a dog\n");
        assert_eq!(words.rules, [("2 cats are enough.".into(), vec![vec![1, 2]])]);
        assert_eq!(words.fact(2), "“a cat / a dog”");
    }
}
