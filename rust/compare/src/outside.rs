//! Formulas and DRAT proofs from outside, those of examples/drat, and copies of them that are damaged.

use crate::drat::{Problem, Step};
use crate::formula::Formula;
use crate::random::Random;

macro_rules! example {
    ($name:literal) => {
        include_str!(concat!("../../../examples/drat/", $name))
    };
}

/// Formula and proof.
pub const PROOFS: [(&str, &str); 7] = [
    (example!("pigeons.cnf"), example!("pigeons-cadical.drat")),
    (example!("pigeons.cnf"), example!("pigeons-cryptominisat.drat")),
    (example!("parities.cnf"), example!("parities-cadical.drat")),
    (example!("rota.cnf"), example!("rota-cadical.drat")),
    (example!("rota.cnf"), example!("rota-cryptominisat.drat")),
    (example!("three-sat.cnf"), example!("three-sat-cadical.drat")),
    (example!("pigeons-extended.cnf"), example!("pigeons-extended.drat")),
];

/// A clause a line, `0` left out.
fn clause(line: &str) -> Vec<i32> {
    let numbers = line.split(' ').map(|word| word.parse().expect("a literal"));
    numbers.take_while(|literal| *literal != 0).collect()
}

/// One of them, read.
pub fn problem(formula: &str, proof: &str) -> Problem {
    let (header, clauses) = formula.split_once('\n').expect("a header");
    let variables = header.split(' ').nth(2).and_then(|word| word.parse().ok()).expect("a number of variables");
    let mut problem = Problem::new(Formula { variables, clauses: clauses.lines().map(clause).collect() });
    problem.steps = proof
        .lines()
        .map(|line| match line.strip_prefix("d ") {
            Some(rest) => Step { strikes: true, literals: clause(rest) },
            None => Step { strikes: false, literals: clause(line) },
        })
        .collect();
    problem
}

/// One of them with up to three faults, or none.
pub fn damaged(random: &mut Random) -> Problem {
    let (formula, proof) = random.pick(&PROOFS);
    let mut problem = problem(formula, proof);
    for _ in 0..random.below(4) {
        damage(random, &mut problem);
    }
    problem
}

fn damage(random: &mut Random, problem: &mut Problem) {
    let (variables, steps) = (problem.formula.variables, &mut problem.steps);
    let at = random.below(steps.len());
    let (from, other) = (random.below(steps.len()), random.between(1, variables) as i32);
    match random.below(9) {
        0 => drop(steps.remove(at)),
        1 => {
            let step = steps.remove(from);
            steps.insert(at.min(steps.len()), step);
        }
        2 => steps.insert(at, steps[from].clone()),
        3 => steps[at].strikes ^= true,
        4 => steps[at].literals.reverse(),
        5 => random.shuffle(&mut steps[at].literals),
        6 => drop(steps[at].literals.pop()),
        7 => {
            let clauses = &mut problem.formula.clauses;
            clauses.remove(random.below(clauses.len()));
        }
        _ => {
            let literals = &mut steps[at].literals;
            match literals.len() {
                0 => literals.push(other),
                length => literals[random.below(length)] = random.pick(&[other, -other]),
            }
        }
    }
}

#[cfg(test)]
mod tests {
    use super::*;
    use crate::clausal::{says, Asked, Said};
    use crate::read::Form;

    const TEXT: Asked = Asked { form: Form::Text, consequence: false };

    /// By RUP and RAT over clauses each is a refutation. The solvers' clauses are all RUP; of Cook's that define a variable most are not.
    #[test]
    fn refutations() {
        let extended = PROOFS.len() - 1;
        for (at, (formula, proof)) in PROOFS.iter().enumerate() {
            let lines = proof.lines().filter(|line| !line.starts_with('d')).count();
            let by_rat = if at == extended { 60 } else { 0 };
            let said = says(TEXT, formula.as_bytes(), proof.as_bytes());
            assert_eq!(said, Some(Said { number: 0, place: proof.len(), lines, by_rat }), "{at}");
        }
    }

    /// Most damaged copies are refused, with 19, 20, 28, and some are refutations still.
    #[test]
    fn damaged_copies() {
        let random = &mut Random::new(1);
        let mut numbers = [0; 32];
        for _ in 0..300 {
            let problem = damaged(random);
            let text = problem.tokens().join(" ");
            if let Some(said) = says(TEXT, &problem.formula.text(), text.as_bytes()) {
                numbers[usize::from(said.number)] += 1;
            }
        }
        assert!(numbers[19] > 60 && numbers[28] > 10 && numbers[0] > 30, "{numbers:?}");
    }
}
