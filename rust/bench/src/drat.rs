//! DRAT proofs: those from outside, text and binary, proofs in records whose lines are clauses, written as texts, and conversions.

use crate::workloads::{self, Workload};
use compare::diagram::{Diagrams, Node};
use compare::families::{self, Problem};
use compare::outside::PROOFS;
use compare::random::Random;
use compare::read::{read, to_bytes, Form};

const NAMES: [&str; 7] = [
    "pigeons, CaDiCaL",
    "pigeons, CryptoMiniSat",
    "parities, CaDiCaL",
    "rota, CaDiCaL",
    "rota, CryptoMiniSat",
    "three-sat, CaDiCaL",
    "pigeons, by extension",
];

pub fn all() -> Vec<Workload> {
    let mut all: Vec<Workload> = NAMES
        .iter()
        .zip(PROOFS)
        .map(|(name, (formula, proof))| {
            let lines = proof.lines().filter(|line| !line.starts_with('d')).count();
            let name = format!("text: {name} ({lines} lines, 4096 places)");
            workloads::whole(name, "drat", 4_096, formula.as_bytes(), proof.as_bytes())
        })
        .collect();
    let rounds = families::chain(&mut Random::new(1), 40, 1_000, 500);
    let turns = families::pure(&mut Random::new(2), 1_000, 20);
    for (name, problem) in [("rounds: 1,000 clauses, 500 RUP lines", &rounds), ("1,000 clauses, 20 RAT lines", &turns)]
    {
        let name = format!("text: {name} (65536 places)");
        all.push(workloads::whole(name, "drat", 65_536, &problem.formula.text(), &text(problem)));
    }
    let (formula, proof) = PROOFS[THREE_SAT];
    let binary = to_bytes(&read(Form::Text, proof.as_bytes(), 64).clauses);
    let name = format!("binary: {} (4096 places)", NAMES[THREE_SAT]);
    all.push(workloads::whole(name, "dratb", 4_096, formula.as_bytes(), &binary));
    let long = text(&rounds);
    let binary = to_bytes(&read(Form::Text, &long, 64).clauses);
    let name = "binary: rounds: 1,000 clauses, 500 RUP lines (65536 places)".into();
    all.push(workloads::whole(name, "dratb", 65_536, &rounds.formula.text(), &binary));
    all.push(conversion("tobin", &long, 2 * long.len()));
    all.push(conversion("totext", &binary, 4 * binary.len()));
    all
}

/// The place of CaDiCaL's proof of three-sat, the longest, among those from outside.
const THREE_SAT: usize = 5;

/// A conversion, without the reading and writing of as many digits: a check that is refused at once.
fn conversion(word: &str, proof: &[u8], size: usize) -> Workload {
    let hex: String = proof.iter().map(|byte| format!("{byte:02x}")).collect();
    Workload {
        name: format!("{word} of {} bytes", proof.len()),
        command: format!("{word} {size} {hex}"),
        text: format!("drat 1 2048 4096 - {hex}"),
    }
}

/// The lines, which are clauses, as a text: first the literal that a line's witness makes true.
fn text(problem: &Problem) -> Vec<u8> {
    let mut text = String::new();
    for line in &problem.builder.lines {
        let mut clause = literals(&problem.builder.store, line.g);
        clause.sort_by_key(|literal| !is_true(*literal, line.witness.positive, line.witness.negative));
        for literal in clause.iter().chain(&[0]) {
            text += &format!("{literal} ");
        }
        text += "\n";
    }
    text.into_bytes()
}

fn is_true(literal: i32, positive: u64, negative: u64) -> bool {
    let word = if literal > 0 { positive } else { negative };
    word >> (literal.unsigned_abs() - 1) & 1 == 1
}

/// The literals of a clause's diagram.
fn literals(store: &Diagrams, mut node: Node) -> Vec<i32> {
    let mut literals = Vec::new();
    while node > 1 {
        let (variable, low, high) = store.nodes[node];
        assert!(low == 1 || high == 1, "a clause");
        let sign = if high == 1 { 1 } else { -1 };
        literals.push(sign * i32::from(variable));
        node = if high == 1 { low } else { high };
    }
    assert_eq!(node, 0, "a clause");
    literals
}
