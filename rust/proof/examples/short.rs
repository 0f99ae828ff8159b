//! `short FOLDER`: writes papers-short.proof and two-bands-short.proof, proofs of examples/papers.cnf and examples/two-bands.cnf whose lines
//! are "at least so many" or "an odd number" of some facts: one record each in place of a node record for each node.

use proof::{Entry, Writer};
use std::path::Path;
use std::process::ExitCode;

/// Facts 1 to 4 are the papers. That 5, a newcomer, and 6, in the express lane, are asserted makes the clauses about them plain ones.
fn papers() -> Vec<u8> {
    let mut proof = Writer::new();
    // One of any two of three papers: at least two of the three.
    for three in [[1, 2, 3], [1, 3, 4], [2, 3, 4]] {
        let line = proof.at_least(2, &three);
        proof.rup(line);
    }
    // At least three of these four papers.
    let line = proof.at_least(3, &[1, 2, 3, 4]);
    proof.rup(line);
    // Who has the passport has no work permit, and so both other papers, which no newcomer has.
    let line = proof.clause(&[-1]);
    proof.rup(line);
    // Who has no passport has the three others.
    proof.rup(Entry::ZERO);
    proof.finish()
}

/// Facts 4 licensed, 5 supervised, 6 an apprentice.
fn two_bands() -> Vec<u8> {
    let mut proof = Writer::new();
    // Exactly one of 4 and 5, exactly one of 4 and 6, so 5 exactly when 6; and exactly one of 5 and 6.
    for (facts, odd) in [([4, 5], true), ([4, 6], true), ([5, 6], false), ([5, 6], true)] {
        let line = proof.parity(&facts, odd);
        proof.rup(line);
    }
    // The last two lines are each other's negation.
    proof.rup(Entry::ZERO);
    proof.finish()
}

fn main() -> ExitCode {
    let Some(folder) = std::env::args_os().nth(1) else {
        eprintln!("short FOLDER");
        return ExitCode::from(2);
    };
    for (name, proof) in [("papers-short.proof", papers()), ("two-bands-short.proof", two_bands())] {
        let file = Path::new(&folder).join(name);
        if let Err(error) = std::fs::write(&file, proof) {
            eprintln!("short: {}: {error}", file.display());
            return ExitCode::FAILURE;
        }
    }
    ExitCode::SUCCESS
}
