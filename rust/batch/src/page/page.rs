//! The page as a whole.

use crate::question::Question;
use crate::read::{is_in_profile, is_twice, Results, Run};
use batch::record::Class;
use explain::text::escaped;
use std::fmt::Write;

const STYLE: &str = include_str!("style.css");

/// A page of more questions than this would be too large for a browser with every rule in it.
const MOST_IN_FULL: usize = 500;

const INTRODUCTION: &str =
    "<p>Each question below asks whether some case can meet all rules of a rule book. A solver said \
“impossible” and sent a proof. A checker whose own correctness is proved by machine checked the proofs";

const RELIED_ON: &str = "<h2>What may be relied on</h2>
<p><strong>Refuted</strong> (number 0) means: no assignment at all satisfies the formula as it was handed in. It is proved that the \
checker says so only where it is true, for every formula and every proof, damaged or hostile ones too.</p>
<p><strong>Not shown</strong> means only that these proofs do not show it. Do not act on a refused proof as if it were half a proof.</p>
<p><strong>Nobody shows here</strong> that the formula says what the scheme’s rules mean. Read the rules in words for that: the words \
are the author’s own comments in the formula, which the checker passes over. Under each of them its clauses are put in words by their \
literals alone.</p>
";

const FUNCTION: &str = "<p class=\"soft\">A verdict is a function of the bytes of formula and proof, the proof’s form, the table’s \
places, the profile and the checker: whoever has the two files, with these sums, gets the same line from the same checker. This page \
repeats what the results file says; where somebody else made that file, check the proofs anew.</p>
";

pub fn page(results: &Results) -> String {
    let questions = &results.questions;
    let brief = questions.len() > MOST_IN_FULL;
    let mut out = head(questions);
    out += &notices(&results.runs);
    out += RELIED_ON;
    out += "<h2>The questions</h2>\n<table><caption>Those that are not refuted come first.</caption>\n\
            <thead><tr><th scope=\"col\">Question</th><th scope=\"col\" class=\"n\">Proofs</th>\
            <th scope=\"col\">Result</th></tr></thead>\n<tbody>\n";
    questions.iter().enumerate().for_each(|(at, question)| out += &question.row(at));
    out += "</tbody></table>\n<h2>One by one</h2>\n";
    questions.iter().enumerate().for_each(|(at, question)| out += &question.article(at, brief));
    out += &checkers(&results.runs);
    out + FUNCTION + "</main>\n</body>\n</html>\n"
}

fn head(questions: &[Question]) -> String {
    let count = |class| questions.iter().filter(|question| question.class() == class).count();
    let (refuted, refused, none) = (count(Class::Refuted), count(Class::Refused), count(Class::NoVerdict));
    let (all, proofs) = (questions.len(), questions.iter().map(Question::proofs).sum::<usize>());
    let alarm = match count(Class::Disagreed) {
        0 => String::new(),
        count => format!("<li class=\"alarm\"><b>{count}</b> ‼ methods disagree</li>\n"),
    };
    format!(
        "<!DOCTYPE html>\n<html lang=\"en\">\n<head>\n<meta charset=\"utf-8\">\n\
         <meta name=\"viewport\" content=\"width=device-width, initial-scale=1\">\n\
         <meta http-equiv=\"Content-Security-Policy\" content=\"default-src 'none'; style-src 'unsafe-inline'\">\n\
         <title>Refutations: {refuted} of {all} questions</title>\n<style>\n{STYLE}</style>\n</head>\n<body>\n<main>\n\
         <h1>What the proofs show</h1>\n{INTRODUCTION}: {proofs} in all.</p>\n<ul class=\"all\">\n{alarm}\
         <li class=\"refuted\"><b>{refuted}</b> ✓ refuted</li>\n<li class=\"refused\"><b>{refused}</b> ✗ not shown</li>\n\
         <li class=\"none\"><b>{none}</b> – without a verdict</li>\n</ul>\n"
    )
}

/// What the last run of each file could not read, and whether it was interrupted: then questions may be missing on the page.
fn notices(runs: &[Run]) -> String {
    let mut found = Vec::new();
    for (at, run) in runs.iter().enumerate().filter(|(_, run)| !run.followed) {
        if !run.ended {
            found.push(format!("Run {} was interrupted: what it had not checked yet is not on this page.", at + 1));
        }
        found.extend(run.faults.iter().map(|fault| format!("Not read: {}", escaped(fault))));
    }
    if found.is_empty() {
        return String::new();
    }
    format!("<h2>What is missing</h2>\n<ul>\n<li>{}</li>\n</ul>\n", found.join("</li>\n<li>"))
}

/// Each run: when it began, the checker, and what else its verdicts depend on.
fn checkers(runs: &[Run]) -> String {
    let mut out = String::from("<h2>By which checker</h2>\n<dl>\n");
    for (at, run) in runs.iter().enumerate() {
        let text = |name| escaped(run.record.text(name).unwrap_or(""));
        let profile = if is_in_profile(&run.record) { "consequence profile" } else { "all rules" };
        let methods = if is_twice(&run.record) { ", by two methods" } else { "" };
        let (began, places) = (text("began").replace('T', " "), run.record.number("places").unwrap_or(0));
        let _ = writeln!(
            out,
            "<dt>run {}</dt><dd>{} {}, began {began}; {profile}{methods}; {places} places{}{}</dd>",
            at + 1,
            text("checker"),
            text("commit"),
            sum("archive", &text("archive_sha256")),
            sum("archive of the truth table", &text("small_archive_sha256")),
        );
    }
    out + "</dl>\n"
}

/// An archive's digest, where there is one.
fn sum(of: &str, digest: &str) -> String {
    match digest {
        "" => String::new(),
        _ => format!("<br><span class=\"soft\">{of}, SHA-256 <code>{digest}</code></span>"),
    }
}
