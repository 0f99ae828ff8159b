//! The examples of document 01, each row of its table of numbers but 24 and 25, and the edges of its
//! sentences and of document 02's, asked of the filter itself.

mod base;
mod binary;
mod books;
mod drat;
mod formula;
mod index;
mod paths;
mod profile;
mod room;
mod single;
mod small;
mod striking;
mod tallies;
mod why;

use std::io::{BufRead, BufReader, Write};
use std::process::{Command, Stdio};

/// Starts the filter, asks each command and gives the answers.
fn ask(commands: &[String]) -> Vec<String> {
    let mut filter =
        Command::new(env!("CARGO_BIN_EXE_reference")).stdin(Stdio::piped()).stdout(Stdio::piped()).spawn().unwrap();
    let mut input = filter.stdin.take().unwrap();
    let text = commands.join("\n") + "\n";
    let writer = std::thread::spawn(move || input.write_all(text.as_bytes()).unwrap());
    let answers = BufReader::new(filter.stdout.take().unwrap()).lines().map(Result::unwrap).collect();
    writer.join().unwrap();
    assert!(filter.wait().unwrap().success());
    answers
}

/// Asks commands and compares answers, as far as each expectation goes: whole words from the start.
fn expect(rows: Vec<(String, String)>) {
    let (commands, wanted): (Vec<String>, Vec<String>) = rows.into_iter().unzip();
    let answers = ask(&commands);
    assert_eq!(answers.len(), commands.len());
    for ((command, answer), wanted) in commands.iter().zip(&answers).zip(&wanted) {
        let same = answer == wanted || answer.starts_with(&format!("{wanted} "));
        let shown: String = command.chars().take(300).collect();
        assert!(same, "\n  asked    {shown}\n  answered {answer}\n  wanted   {wanted}");
    }
}

fn hex(bytes: &[u8]) -> String {
    if bytes.is_empty() {
        return "-".into();
    }
    bytes.iter().map(|byte| format!("{byte:02x}")).collect()
}

fn sized(size: u64, formula: &str, proof: &str) -> String {
    let bytes: String = proof.split_whitespace().collect();
    let proof = if bytes.is_empty() { "-".into() } else { bytes.to_lowercase() };
    format!("check {size} 2048 4096 {} {proof}", hex(formula.as_bytes()))
}

fn check(formula: &str, proof: &str) -> String {
    sized(4096, formula, proof)
}

fn rows(rows: &[(&str, &str, &str)]) -> Vec<(String, String)> {
    rows.iter().map(|(formula, proof, wanted)| (check(formula, proof), wanted.to_string())).collect()
}

const FOUR: &str = "p cnf 2 4\n1 2 0\n-1 2 0\n1 -2 0\n-1 -2 0\n";
const ONE: &str = "p cnf 2 1\n1 2 0\n";
const A: &str = "4E 02 00 00 01 00 52 02 00 52 00 00 45";

const AT_LEAST_TWO: &str = "4E 03 00 00 01 00 4E 02 00 00 02 00 4E 02 02 00 01 00 4E 01 03 00 04 00 52 05 00 45";
