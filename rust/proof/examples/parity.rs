//! `parity FOLDER`: writes parity-rup.proof and parity.proof, two proofs of examples/parity.cnf, to the folder. They differ in the kind of their
//! first two lines alone: "an odd number" of three facts from its four clauses is no RUP line, and is a path line.
//!
//! And allowance.proof, of examples/allowance.cnf: a PR line that cuts off a case which the formula allows.

use proof::{Entry, Writer};
use std::path::Path;
use std::process::ExitCode;

/// Facts 1 and 2 are changes of shift, 3 and 4 "ends early" in one hall and in the other.
fn parity(close: fn(&mut Writer, Entry)) -> Vec<u8> {
    let mut proof = Writer::new();
    // Who starts early and changes twice, or not at all, ends early: in each hall.
    for facts in [[1, 2, 3], [1, 2, 4]] {
        let line = proof.parity(&facts, true);
        close(&mut proof, line);
    }
    // The sum of the two: 3 exactly when 4. Asked is for exactly one of them.
    for odd in [false, true] {
        let line = proof.parity(&[3, 4], odd);
        proof.rup(line);
    }
    proof.rup(Entry::ZERO);
    proof.finish()
}

/// "Works nights", assumed without loss: with the witness that he does.
fn allowance() -> Vec<u8> {
    let mut proof = Writer::new();
    let line = proof.clause(&[1]);
    proof.pr(line, &[1]);
    proof.finish()
}

fn main() -> ExitCode {
    let Some(folder) = std::env::args_os().nth(1) else {
        eprintln!("parity FOLDER");
        return ExitCode::from(2);
    };
    let files = [
        ("parity-rup.proof", parity(Writer::rup)),
        ("parity.proof", parity(Writer::path)),
        ("allowance.proof", allowance()),
    ];
    for (name, proof) in files {
        let file = Path::new(&folder).join(name);
        if let Err(error) = std::fs::write(&file, proof) {
            eprintln!("parity: {}: {error}", file.display());
            return ExitCode::FAILURE;
        }
    }
    ExitCode::SUCCESS
}
