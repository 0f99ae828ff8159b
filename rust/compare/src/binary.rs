//! Commands of the check of binary DRAT: the proofs of [`drat`](crate::drat) in the other form, and faults of groups, openings and ends.

use crate::check;
use crate::drat::{self, Problem, Step};
use crate::outside;
use crate::random::Random;
use crate::read::{groups, to_bytes, Clause};

/// A few commands over one formula and one proof.
pub fn commands(random: &mut Random) -> Vec<String> {
    match random.below(100) {
        0..=29 => {
            let problem = drat::any(random);
            vec![plain(random, &problem)]
        }
        30..=52 => faulty(random),
        53..=64 => mutated(random),
        65..=76 => {
            let problem = drat::any(random);
            let (formula, proof) = (problem.formula.strewn(random), of_steps(&problem.steps));
            check::small_sizes(random).map(|size| command(random, size, &formula, &proof)).collect()
        }
        77..=81 => {
            let problem = drat::small(random);
            let (formula, proof) = (problem.formula.faulty(random), of_steps(&problem.steps));
            vec![command(random, 4096, &formula, &proof)]
        }
        82..=84 => {
            let problem = drat::small(random);
            let (formula, proof) = (problem.formula.text(), of_steps(&problem.steps));
            vec![check::wrong_size(random, "dratb", &formula, &proof)]
        }
        85..=87 => limits(random),
        88..=93 => {
            let problem = outside::damaged(random);
            vec![plain(random, &problem)]
        }
        _ => {
            let problem = drat::long(random);
            vec![plain(random, &problem)]
        }
    }
}

fn command(random: &mut Random, size: usize, formula: &[u8], proof: &[u8]) -> String {
    check::command_of(random, "dratb", size, formula, proof)
}

fn plain(random: &mut Random, problem: &Problem) -> String {
    let size = random.pick(&[1000, 4096, 4096, 20_000, 65_536]);
    let formula = problem.formula.strewn(random);
    command(random, size, &formula, &of_steps(&problem.steps))
}

pub fn of_steps(steps: &[Step]) -> Vec<u8> {
    let clause = |step: &Step| Clause { place: 0, strikes: step.strikes, literals: step.literals.clone() };
    to_bytes(&steps.iter().map(clause).collect::<Vec<_>>())
}

/// A proof with one fault: 4, 6, 9 or 31. Some leave another proof that is fine.
fn faulty(random: &mut Random) -> Vec<String> {
    let problem = drat::small(random);
    let proof = with_fault(random, &problem.steps, problem.formula.variables);
    let formula = problem.formula.strewn(random);
    vec![command(random, 4096, &formula, &proof)]
}

/// The steps in binary with a fault among them, for a header of so many variables.
pub fn with_fault(random: &mut Random, steps: &[Step], variables: usize) -> Vec<u8> {
    let at = random.below(steps.len() + 1);
    let mut proof = of_steps(&steps[..at]);
    let fault = fault(random, variables);
    match random.below(3) {
        // Within a clause, before or behind a literal of its own.
        0 | 1 => {
            proof.push(random.pick(&[0x61, 0x61, 0x64]));
            let own = groups(random.between(1, variables.max(1)) as i32);
            if random.percent(50) {
                proof.extend(&own);
            }
            proof.extend(fault);
            if random.percent(30) {
                proof.extend(own);
            }
            if random.percent(70) {
                proof.push(0);
            }
        }
        _ => {
            let openings =
                [0, 1, 2, 0x60, 0x62, 0x63, 0x65, 0x41, 0x44, 0xe1, 0x80, 0x81, 0xff, b'\n', b'0', b'c', b'-'];
            proof.push(random.pick(&openings));
            proof.extend(random.pick(&[&b""[..], b"\0", b"\x02\0"]));
        }
    }
    if random.percent(60) {
        proof.extend(of_steps(&steps[at..]));
    }
    if random.percent(15) {
        proof = of_steps(steps);
        proof.truncate(random.below(proof.len() + 1));
    }
    proof
}

/// Groups that are no literal of the header, or just one.
fn fault(random: &mut Random, variables: usize) -> Vec<u8> {
    let edge = variables as i32;
    let (sign, any) = (random.pick(&[1, -1]), random.between(1, 64) as i32);
    match random.below(8) {
        // Surplus groups: of 0, of the closing byte's number, of a literal.
        0 => [vec![0x80; random.between(1, 4)], vec![0]].concat(),
        1 => surplus(random, groups(sign * any)),
        2 => surplus(random, vec![1]),
        3 => vec![1],
        // Beyond the header, beyond 64, far beyond, and the last that is not.
        4 => groups(sign * (edge + 1)),
        5 => groups(sign * random.pick(&[65, 66, 127, 128, 129, 8_191, 8_192, 1 << 20, i32::MAX])),
        6 => [vec![random.pick(&[0x80, 0x81, 0xff]); random.between(2, 12)], vec![random.pick(&[1, 2, 0x7f])]].concat(),
        _ => groups(sign * random.pick(&[edge.max(1), 63, 64])),
    }
}

/// The same number with groups more than it needs.
fn surplus(random: &mut Random, mut groups: Vec<u8>) -> Vec<u8> {
    if let Some(last) = groups.last_mut() {
        *last |= 0x80;
    }
    groups.extend(vec![0x80; random.below(3)]);
    groups.push(0);
    groups
}

const BYTES: [u8; 16] = [0, 0, 1, 2, 3, 4, 0x61, 0x61, 0x64, 0x7f, 0x80, 0x81, 0x82, 0xff, 0x63, 5];

/// A few bytes of the formula or of the proof changed, taken away or put in.
fn mutated(random: &mut Random) -> Vec<String> {
    let problem = drat::any(random);
    let (mut formula, mut proof) = (problem.formula.strewn(random), of_steps(&problem.steps));
    for _ in 0..random.between(1, 3) {
        if random.percent(20) {
            check::mutate(random, &mut formula, check::LETTERS);
        } else {
            mutate(random, &mut proof);
        }
    }
    vec![command(random, 4096, &formula, &proof)]
}

pub fn mutate(random: &mut Random, proof: &mut Vec<u8>) {
    check::mutate(random, proof, &BYTES);
}

/// About 1,024 clauses, the last of which may be at fault; 22 comes before or after that.
fn limits(random: &mut Random) -> Vec<String> {
    let formula = b"p cnf 64 4\n1 2 0 -1 3 0 2 -3 0 -2 64 0";
    let (lines, striking) = (random.pick(&[1023, 1024, 1024, 1025]), random.percent(50));
    let mut proof = Vec::new();
    for _ in 0..lines {
        let clause = random.pick(&[&b"\x04\0"[..], b"\x80\x01\x04\0", b"\x04\x02\0", b"\x06\x04\0"]);
        proof.extend([b"\x61", clause].concat());
        if striking {
            proof.extend([b"\x64", clause].concat());
        }
    }
    let last: [&[u8]; 10] = [
        b"\x61\0",
        b"\x61\x02\x03\0",
        b"\x61\x04",
        b"\x64\x04\0",
        b"\x61\x82\x01\0",
        b"\x61\x01\0",
        b"\x62",
        b"\x64\x02\x04\0",
        b"\x61\x81\x01\0",
        b"\x61\x04\x0e\x11\x12\0",
    ];
    proof.extend(random.pick(&last));
    vec![command(random, 4096, formula, &proof)]
}

#[cfg(test)]
mod tests {
    use super::*;
    use crate::clausal::{hold, says, Asked};
    use crate::read::Form;

    /// Every fault comes, and none.
    #[test]
    fn faults() {
        let random = &mut Random::new(1);
        let mut numbers = [0; 32];
        let commands: Vec<String> = (0..800).flat_map(|_| faulty(random)).collect();
        let limits: Vec<String> = (0..60).flat_map(|_| limits(random)).collect();
        for command in commands.iter().chain(&limits) {
            if let Some((said, _)) = hold(command, "0 0 0 0 2 2 | - | 2 | 0") {
                numbers[usize::from(said.number)] += 1;
            }
        }
        assert!([0, 4, 6, 9, 19, 20, 22, 31].iter().all(|number| numbers[*number] > 5), "{numbers:?}");
    }

    /// A proof in binary says what it says as a text, but for the place.
    #[test]
    fn as_a_text() {
        let random = &mut Random::new(1);
        for _ in 0..300 {
            let problem = drat::small(random);
            let (formula, text) = (problem.formula.text(), problem.tokens().join(" "));
            let ask = |form, proof: &[u8]| {
                says(Asked { form, consequence: false }, &formula, proof)
                    .map(|said| (said.number, said.lines, said.by_rat))
            };
            assert_eq!(ask(Form::Text, text.as_bytes()), ask(Form::Binary, &of_steps(&problem.steps)));
        }
    }
}
