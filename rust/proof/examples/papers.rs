//! `papers FILE`: writes the proof of examples/papers.cnf, "at least three of these four papers", to the file.
//!
//! Papers are facts 1 to 4, 5 is a newcomer, 6 in the express lane, 7 paid already. The clauses say that who is in the express lane has one
//! of any two of the papers. The proof makes one rule of them, strikes them out, and makes another one of the rules that shut papers out.

use proof::{Entry, Writer};
use std::process::ExitCode;

const PAPERS: [u8; 4] = [1, 2, 3, 4];
const EXPRESS: i8 = 6;
/// The formula's clauses are members 0 to 10, of which the first six are about the papers; the proof's lines go on from 11.
const CLAUSES: u16 = 11;
const ABOUT_PAPERS: u16 = 6;

fn proof() -> Vec<u8> {
    let mut proof = Writer::new();
    // Not in the express lane, or at least two of these three: from three of the clauses.
    for three in [[1, 2, 3], [1, 3, 4], [2, 3, 4]] {
        let outside = proof.clause(&[-EXPRESS]);
        let line = proof.at_least_or(2, &three, outside);
        proof.rup(line);
    }
    // Not in the express lane, or at least three of the four: from the three lines above.
    let outside = proof.clause(&[-EXPRESS]);
    let line = proof.at_least_or(3, &PAPERS, outside);
    proof.rup(line);
    // That line says what the six clauses and the three lines say: no later one needs them.
    for member in (0..ABOUT_PAPERS).chain(CLAUSES..CLAUSES + 3) {
        proof.strike(member);
    }
    // A newcomer has at most two of them.
    let line = proof.at_most(2, &PAPERS);
    proof.rup(line);
    // For a newcomer in the express lane the last two lines are each other's negation.
    proof.rup(Entry::ZERO);
    proof.finish()
}

fn main() -> ExitCode {
    let Some(name) = std::env::args_os().nth(1) else {
        eprintln!("papers FILE");
        return ExitCode::from(2);
    };
    match std::fs::write(&name, proof()) {
        Ok(()) => ExitCode::SUCCESS,
        Err(error) => {
            eprintln!("papers: {}: {error}", name.to_string_lossy());
            ExitCode::FAILURE
        }
    }
}
