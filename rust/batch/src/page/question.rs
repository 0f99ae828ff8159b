//! A question: a formula with all of its proofs.

use crate::pair::{class_name, Pair};
use batch::record::Class;
use explain::text::escaped;
use std::collections::HashSet;
use std::fmt::Write;

/// At least one pair. The formula is refuted where one of its proofs is accepted, and the methods disagree on none.
pub struct Question {
    pub pairs: Vec<Pair>,
}

impl Question {
    pub fn class(&self) -> Class {
        let has = |class: Class| self.pairs.iter().any(|pair| pair.class() == class);
        let classes = [Class::Disagreed, Class::Refuted, Class::Refused];
        classes.into_iter().find(|&class| has(class)).unwrap_or(Class::NoVerdict)
    }

    /// A pair whose formula can be quoted, if there is one.
    fn first(&self) -> &Pair {
        self.pairs.iter().find(|pair| pair.formula.is_some()).unwrap_or(&self.pairs[0])
    }

    pub fn words(&self) -> String {
        let first = self.first();
        match first.words.question.as_str() {
            "" if first.text("formula").is_empty() => format!("The proof {} has no formula", first.text("proof")),
            "" => format!("Can the rules of {} all be met?", first.text("formula")),
            question => question.to_string(),
        }
    }

    /// How many proofs there are, however often each was checked.
    pub fn proofs(&self) -> usize {
        let names: HashSet<&str> = self.pairs.iter().map(|pair| pair.text("proof")).collect();
        names.iter().filter(|name| !name.is_empty()).count()
    }

    /// Its row of the table of questions.
    pub fn row(&self, id: usize) -> String {
        let (words, class, proofs) = (escaped(&self.words()), class_name(self.class()), self.proofs());
        let result = match self.class() {
            Class::Refuted => "✓ refuted",
            Class::Refused => "✗ not shown",
            Class::NoVerdict => "– no verdict",
            Class::Disagreed => "‼ disagree",
        };
        format!(
            "<tr><td><a href=\"#q{id}\">{words}</a></td><td class=\"n\">{proofs}</td><td class=\"is {class}\">{result}</td></tr>\n"
        )
    }

    fn verdict(&self) -> &'static str {
        match self.class() {
            Class::Refuted => "✓ Refuted: no case at all can meet every rule.",
            Class::Refused => "✗ Not shown. No proof was accepted. That does not say that such a case exists.",
            Class::NoVerdict if self.proofs() == 0 => "– No verdict: nobody has handed in a proof.",
            Class::NoVerdict => "– No verdict: no proof was checked to its end, as it was to be.",
            Class::Disagreed => "‼ No verdict: the two methods disagree, which must never be. Act on neither.",
        }
    }

    /// All about the question; in a brief page without the rules of what is refuted.
    pub fn article(&self, id: usize, brief: bool) -> String {
        let (class, words, verdict) = (self.class(), escaped(&self.words()), self.verdict());
        let name = class_name(class);
        let mut out =
            format!("<article class=\"{name}\" id=\"q{id}\">\n<h3>{words}</h3>\n<p class=\"verdict\">{verdict}</p>\n");
        let first = self.first();
        if !first.text("formula").is_empty() {
            let rules = if brief && class == Class::Refuted { String::new() } else { self.rules() };
            let _ = writeln!(out, "<dl>{}</dl>\n{rules}", first.file("formula"));
        }
        let mut pairs: Vec<&Pair> = self.pairs.iter().collect();
        pairs.sort_by_key(|pair| (pair.class() != Class::Disagreed, pair.class() != Class::Refuted));
        for (at, pair) in pairs.iter().enumerate() {
            out += &pair.section(1_000 * id + at);
        }
        out + "</article>\n"
    }

    /// Every clause in words, under its comment.
    fn rules(&self) -> String {
        let words = &self.first().words;
        let count: usize = words.rules.iter().map(|(_, clauses)| clauses.len()).sum();
        if count == 0 {
            return String::new();
        }
        let clauses = if count == 1 { "clause" } else { "clauses" };
        let mut out = format!(
            "<details><summary>{count} {clauses}, one by one</summary>\n<table><thead><tr>\
             <th scope=\"col\">Rule, and its clauses in words</th><th scope=\"col\" class=\"n\">clause</th></tr></thead>\n<tbody>"
        );
        for (said, clauses) in words.rules.iter().filter(|(_, clauses)| !clauses.is_empty()) {
            if !said.is_empty() {
                let _ = writeln!(out, "<tr><th colspan=\"2\" scope=\"rowgroup\">{}</th></tr>", escaped(said));
            }
            for clause in clauses {
                let literals: Vec<String> = clause.iter().map(i64::to_string).collect();
                let (said, literals) = (escaped(&words.clause(clause)), literals.join(" "));
                let _ = writeln!(out, "<tr><td>{said}</td><td class=\"n\"><code>{literals}</code></td></tr>");
            }
        }
        out + "</tbody></table></details>\n"
    }
}
