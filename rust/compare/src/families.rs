//! Formulas from outside with their proofs: pigeonhole, parity chains, cardinality, random 3-SAT, two-band rule books.

use crate::diagram::{Literals, Node};
use crate::formula::Formula;
use crate::proof::Builder;
use crate::random::Random;

/// A formula and a proof, which ends in a 0 line where the family's refutation was found.
pub struct Problem {
    pub formula: Formula,
    pub builder: Builder,
}

/// Each pigeon has a hole and no hole has two. One pigeon too many is refuted by PR lines that swap two pigeons.
pub fn pigeonhole(pigeons: usize, holes: usize) -> Problem {
    let at = |pigeon: usize, hole: usize| (pigeon * holes + hole + 1) as i32;
    let mut clauses: Vec<Vec<i32>> =
        (0..pigeons).map(|pigeon| (0..holes).map(|hole| at(pigeon, hole)).collect()).collect();
    for hole in 0..holes {
        for second in 0..pigeons {
            clauses.extend((0..second).map(|first| vec![-at(first, hole), -at(second, hole)]));
        }
    }
    let formula = Formula { variables: pigeons * holes, clauses };
    let mut builder = Builder::new(&formula);
    if pigeons == holes + 1 && (1..holes).rev().all(|last| empty_hole(&mut builder, last, &at)) {
        builder.rup(0);
    }
    Problem { formula, builder }
}

/// No pigeon before the last one sits in the last hole, without loss: else the two swap.
fn empty_hole(builder: &mut Builder, last: usize, at: &impl Fn(usize, usize) -> i32) -> bool {
    let pigeon = last + 1;
    for first in 0..pigeon {
        for hole in 0..last {
            let line = builder.store.clause(&[-at(first, last), -at(pigeon, hole)]);
            let mut witness = Literals::default();
            for literal in [-at(first, last), -at(pigeon, hole), at(first, hole), at(pigeon, last)] {
                witness.set(literal);
            }
            if !builder.pr(line, witness) {
                return false;
            }
        }
        let line = builder.store.clause(&[-at(first, last)]);
        if !builder.rup(line) {
            return false;
        }
    }
    true
}

/// A parity constraint: the variables, rising, and whether an odd number of them is true.
pub type Parity = (Vec<u8>, bool);

/// The clauses that say it: one against each assignment of the wrong parity.
fn parity_clauses((variables, odd): &Parity) -> Vec<Vec<i32>> {
    let wrong = |word: &u32| (word.count_ones() % 2 == 1) != *odd;
    let clause = |word: u32| {
        let signed = |(at, variable): (usize, &u8)| {
            if word >> at & 1 == 1 {
                -i32::from(*variable)
            } else {
                i32::from(*variable)
            }
        };
        variables.iter().enumerate().map(signed).collect()
    };
    (0..1 << variables.len()).filter(wrong).map(clause).collect()
}

/// Parity constraints by their clauses. The proof makes each of them a line, by steps or as one path line, and then sums them one
/// by one; it may strike out what went into a sum once that stands, so that members do not pile up.
pub fn parities(variables: usize, constraints: &[Parity], striking: bool, by_paths: bool) -> Problem {
    let clauses = constraints.iter().flat_map(parity_clauses).collect();
    let formula = Formula { variables, clauses };
    let mut builder = Builder::new(&formula);
    let mut sum: Parity = (Vec::new(), false);
    let (mut next_clause, mut served) = (0, Vec::new());
    for constraint in constraints {
        let first = next_clause;
        next_clause += parity_clauses(constraint).len();
        let lines = builder.members.len();
        let by_path = by_paths && path_parity(&mut builder, constraint);
        if !by_path && !one_parity(&mut builder, constraint) {
            break;
        }
        served.extend((first..next_clause).chain(lines..builder.members.len()));
        sum = added(&sum, constraint);
        let line = builder.store.parity(&sum.0, sum.1);
        if line != 1 && builder.rup(line) && striking {
            served.drain(..).for_each(|member| builder.strike(member));
            served.push(builder.members.len() - 1);
        }
    }
    Problem { formula, builder }
}

/// A constraint from its clauses as one path line: a path to 0 has all of the variables, and one clause against it.
fn path_parity(builder: &mut Builder, (variables, odd): &Parity) -> bool {
    let line = builder.store.parity(variables, *odd);
    line == 1 || builder.path(line)
}

/// A constraint from its clauses: pairs that differ in their last variables are joined, level by level.
fn one_parity(builder: &mut Builder, (variables, odd): &Parity) -> bool {
    let split = variables.len().saturating_sub(2);
    for kept in (0..=split).rev() {
        for word in 0..1u32 << kept {
            let signed = |(at, variable): (usize, &u8)| {
                if word >> at & 1 == 1 {
                    -i32::from(*variable)
                } else {
                    i32::from(*variable)
                }
            };
            let clause: Vec<i32> = variables[..kept].iter().enumerate().map(signed).collect();
            let rest_odd = *odd != (word.count_ones() % 2 == 1);
            let clause = builder.store.clause(&clause);
            let rest = builder.store.parity(&variables[kept..], rest_odd);
            let line = builder.store.or(clause, rest);
            if line != 1 && !builder.rup(line) {
                return false;
            }
        }
    }
    true
}

fn added(left: &Parity, right: &Parity) -> Parity {
    let mut variables: Vec<u8> = left.0.iter().filter(|variable| !right.0.contains(variable)).copied().collect();
    variables.extend(right.0.iter().filter(|variable| !left.0.contains(variable)));
    variables.sort_unstable();
    (variables, left.1 != right.1)
}

/// The edges of a cycle with chords: each variable stands in two constraints, so that all of them sum to a constant.
pub fn tseitin(random: &mut Random, vertices: usize, satisfiable: bool) -> Problem {
    let mut edges: Vec<(usize, usize)> = (0..vertices).map(|vertex| (vertex, (vertex + 1) % vertices)).collect();
    edges.extend((0..vertices / 2).map(|vertex| (vertex, vertex + vertices / 2)));
    random.shuffle(&mut edges);
    let mut constraints: Vec<Parity> = vec![(Vec::new(), false); vertices];
    for (edge, (from, to)) in edges.iter().enumerate() {
        for vertex in [from, to] {
            constraints[*vertex].0.push(edge as u8 + 1);
        }
    }
    for constraint in &mut constraints {
        constraint.1 = random.percent(50);
    }
    let odd = constraints.iter().filter(|constraint| constraint.1).count() % 2 == 1;
    constraints[0].1 ^= odd == satisfiable;
    parities(edges.len(), &constraints, random.percent(40), random.percent(30))
}

/// At least `least` and at most `most` of the variables, each by its clauses.
pub fn cardinality(variables: usize, least: usize, most: usize) -> Problem {
    let positive = subsets(variables, variables + 1 - least);
    let negative = subsets(variables, most + 1);
    let signed = |set: &Vec<i32>, sign: i32| set.iter().map(|variable| sign * variable).collect();
    let mut clauses: Vec<Vec<i32>> = positive.iter().map(|set| signed(set, 1)).collect();
    clauses.extend(negative.iter().map(|set| signed(set, -1)));
    let formula = Formula { variables, clauses };
    let mut builder = Builder::new(&formula);
    let all: Vec<u8> = (1..=variables as u8).collect();
    let at_least = builder.store.at_least(&all, least);
    let over = builder.store.at_least(&all, most + 1);
    let at_most = builder.store.not(over);
    for line in [at_least, at_most, 0] {
        let implied = line != 0 || least > most;
        if line != 1 && implied {
            builder.derive(line, 300);
        }
    }
    Problem { formula, builder }
}

/// The subsets of 1 to n of a size.
fn subsets(n: usize, size: usize) -> Vec<Vec<i32>> {
    let chosen = (0..1u32 << n).filter(|word| word.count_ones() as usize == size);
    chosen.map(|word| (0..n).filter(|at| word >> at & 1 == 1).map(|at| at as i32 + 1).collect()).collect()
}

fn literal(random: &mut Random, first: usize, last: usize) -> i32 {
    let variable = random.between(first, last) as i32;
    if random.percent(50) {
        variable
    } else {
        -variable
    }
}

/// Clauses of so many literals, of which two may be the same.
pub fn random_clauses(random: &mut Random, variables: usize, clauses: usize, width: usize) -> Formula {
    let clauses = (0..clauses).map(|_| (0..width).map(|_| literal(random, 1, variables)).collect()).collect();
    Formula { variables, clauses }
}

/// Random 3-SAT, refuted by splitting where it is unsatisfiable.
pub fn three_sat(random: &mut Random, variables: usize, clauses: usize) -> Problem {
    let formula = random_clauses(random, variables, clauses, 3);
    let mut builder = Builder::new(&formula);
    if builder.whole() == 0 {
        builder.derive(0, 300);
    }
    Problem { formula, builder }
}

/// A chain of implications, and clauses and lines that follow from it, each with two of the variables past the chain so
/// that none of them shortens the chain for another: a line takes as many rounds as its part of the chain.
pub fn chain(random: &mut Random, length: usize, clauses: usize, lines: usize) -> Problem {
    let mut all: Vec<Vec<i32>> = (1..length as i32).map(|variable| vec![-variable, variable + 1]).collect();
    while all.len() < clauses {
        all.push(followed(random, length));
    }
    random.shuffle(&mut all);
    let formula = Formula { variables: 64, clauses: all };
    let mut builder = Builder::new(&formula);
    while builder.lines.len() < lines {
        let line = builder.store.clause(&followed(random, length));
        if line != 1 {
            builder.write_line(0x52, line, Literals::default());
        }
    }
    Problem { formula, builder }
}

fn followed(random: &mut Random, length: usize) -> Vec<i32> {
    let from = random.between(1, length - 1);
    let to = random.between(from + 1, length);
    let mut clause = vec![-(from as i32), to as i32];
    for _ in 0..2 {
        clause.push(literal(random, length + 1, 64));
    }
    clause
}

/// Clauses in which variable 64 is nowhere false, and PR lines by that pure literal: the witness makes the line's other
/// literals false, so that what not-g satisfies is satisfied.
pub fn pure(random: &mut Random, clauses: usize, lines: usize) -> Problem {
    let mut formula = random_clauses(random, 63, clauses, 4);
    for clause in formula.clauses.iter_mut().step_by(3) {
        clause.push(64);
    }
    formula.variables = 64;
    let mut builder = Builder::new(&formula);
    while builder.lines.len() < lines {
        let (first, second) = (random.between(1, 32) as i32, random.between(33, 63) as i32);
        let line = builder.store.clause(&[first, -second, 64]);
        let mut witness = Literals::default();
        for literal in [-first, second, 64] {
            witness.set(literal);
        }
        builder.write_line(0x50, line, witness);
    }
    Problem { formula, builder }
}

/// A rule book of two contribution bands, facts 1 and 2: each band asks for a chain of facts, and both bands are asserted. The
/// chains end in one fact, with both signs where no worker can be in both bands.
pub fn rule_book(random: &mut Random, facts: usize, satisfiable: bool) -> Problem {
    let mut asked: Vec<i32> = (3..facts as i32).collect();
    random.shuffle(&mut asked);
    let last = facts as i32;
    let (first, second) = asked.split_at(asked.len() / 2);
    let mut clauses = vec![vec![1], vec![2]];
    clauses.extend(rules(1, first, last));
    clauses.extend(rules(2, second, if satisfiable { last } else { -last }));
    random.shuffle(&mut clauses);
    let formula = Formula { variables: facts, clauses };
    let mut builder = Builder::new(&formula);
    for line in [vec![-1, last], vec![-2, -last], vec![]] {
        let root = builder.store.clause(&line);
        builder.rup(root);
    }
    Problem { formula, builder }
}

/// Who has the first fact has each fact of the chain, and the last one.
fn rules(from: i32, chain: &[i32], last: i32) -> Vec<Vec<i32>> {
    let mut before = from;
    let mut clauses = Vec::new();
    for &fact in chain.iter().chain([&last]) {
        clauses.push(vec![-before, fact]);
        before = fact;
    }
    clauses
}

/// A problem of a random family, small enough for a run of many.
pub fn any(random: &mut Random) -> Problem {
    match random.below(8) {
        0 => {
            let holes = random.between(1, 4);
            let pigeons = if random.percent(70) { holes + 1 } else { random.between(1, holes) };
            pigeonhole(pigeons, holes)
        }
        1 => {
            let (vertices, satisfiable) = (2 * random.between(2, 20), random.percent(30));
            tseitin(random, vertices, satisfiable)
        }
        2 => {
            let variables = random.between(2, 6);
            let least = random.between(1, variables);
            let most = if random.percent(70) { least - 1 } else { random.between(least, variables) };
            cardinality(variables, least, most)
        }
        3 => wide_parities(random),
        4 => {
            let (length, clauses, lines) = (random.between(2, 40), random.between(40, 100), random.between(1, 20));
            chain(random, length, clauses, lines)
        }
        5 => {
            let (facts, satisfiable) = (random.between(20, 64), random.percent(30));
            rule_book(random, facts, satisfiable)
        }
        6 => {
            let (clauses, lines) = (random.between(10, 60), random.between(1, 10));
            pure(random, clauses, lines)
        }
        _ => {
            let variables = random.between(3, 12);
            let clauses = variables * random.between(3, 7);
            three_sat(random, variables, clauses)
        }
    }
}

/// Parity constraints of up to five strewn variables, some of them sums of others.
fn wide_parities(random: &mut Random) -> Problem {
    let variables = random.between(2, 64);
    let mut constraints: Vec<Parity> = Vec::new();
    for _ in 0..random.between(1, 12) {
        let mut chosen: Vec<u8> = (0..random.between(1, 5)).map(|_| random.between(1, variables) as u8).collect();
        chosen.sort_unstable();
        chosen.dedup();
        constraints.push((chosen, random.percent(50)));
    }
    parities(variables, &constraints, random.percent(40), random.percent(30))
}

/// A line that says that two members hold.
pub fn both(builder: &mut Builder, f: Node, g: Node) -> bool {
    let line = builder.store.and(f, g);
    line != 1 && builder.rup(line)
}

#[cfg(test)]
mod tests {
    use super::*;

    fn refuted(problem: &Problem) -> bool {
        problem.builder.members[problem.formula.clauses.len()..].contains(&0)
    }

    #[test]
    fn refutable_families_end_in_a_zero_line() {
        let random = &mut Random::new(1);
        for holes in 1..5 {
            assert!(refuted(&pigeonhole(holes + 1, holes)), "pigeonhole {holes}");
        }
        for half in 2..20 {
            assert!(refuted(&tseitin(random, 2 * half, false)), "tseitin {half}");
        }
        for variables in 2..6 {
            for least in 1..=variables {
                assert!(refuted(&cardinality(variables, least, least - 1)), "cardinality {variables} {least}");
            }
        }
        assert!(refuted(&three_sat(random, 8, 80)));
    }

    #[test]
    fn satisfiable_families_do_not() {
        let random = &mut Random::new(1);
        assert!(!refuted(&pigeonhole(4, 4)));
        assert!(!refuted(&tseitin(random, 10, true)));
        assert!(!refuted(&cardinality(5, 2, 3)));
        assert!(!refuted(&three_sat(random, 8, 10)));
    }

    /// The recipe of docs/FORMAT.md for "at least k of n" from its clauses, the diagonal sum: no line is refused.
    #[test]
    fn diagonal_sums() {
        for n in 2..=7 {
            for k in 2..=n {
                let formula = Formula { variables: n, clauses: subsets(n, n - k + 1) };
                let mut builder = Builder::new(&formula);
                for size in n - k + 2..=n {
                    for set in subsets(n, size) {
                        let variables: Vec<u8> = set.iter().map(|&variable| variable as u8).collect();
                        let line = builder.store.at_least(&variables, size + k - n);
                        assert!(builder.rup(line), "at least {} of {set:?} from at least {k} of {n}", size + k - n);
                    }
                }
            }
        }
    }
}
