//! Inputs made to be slow: each aims at one thing that bounds the work.

use crate::pairs;
use crate::rounds;
use crate::workloads::{self, Workload};
use compare::diagram::{Diagrams, Literals, Node};
use compare::families::{self, Problem};
use compare::formula::Formula;
use compare::proof::Builder;
use compare::random::Random;

/// Every member's turn of every line works over every member; every line takes all rounds; every pair of nodes is reached.
pub fn all() -> Vec<Workload> {
    let mut all = vec![
        workloads::proof("turns: 1,000 clauses, PR lines", &families::pure(&mut Random::new(3), 1_000, 20), 65_536),
        workloads::proof("turns with rounds: 960 clauses, PR lines", &turns_with_rounds(904, 20), 4_096),
        workloads::proof("rounds: a chain of 62", &families::chain(&mut Random::new(4), 62, 1_000, 300), 65_536),
    ];
    for (first, second) in [(16, 17), (31, 32), (64, 65)] {
        for places in [4_096, 65_536] {
            all.push(workloads::proof(&format!("counters by {first}, {second}"), &counters(first, second), places));
        }
    }
    for (first, second) in [(31, 32), (60, 61), (100, 101), (127, 128)] {
        all.push(disjoint(first, second));
    }
    all.extend([
        workloads::proof("counters apart, by 64", &pairs::apart(64, 0), 4_096),
        workloads::proof("counters that exclude each other, by 64, 36", &pairs::excluding(64, 36), 4_096),
        workloads::proof("PR lines over counters apart, by 64", &pairs::apart(64, 20), 4_096),
        workloads::proof("wide levels, 6 of 200", &pairs::wide(8, 200, 6, 0), 4_096),
        workloads::proof("wide levels that exclude each other, 3 of 240", &pairs::wide_excluding(8, 240, 3), 4_096),
        workloads::proof("PR lines over wide levels", &pairs::wide(8, 200, 6, 5), 4_096),
        workloads::proof("200 equal members, 200 PR lines", &pairs::equal(200, 200), 4_096),
        workloads::proof("counters apart, by 130", &pairs::apart(130, 0), 65_536),
    ]);
    for (places, [depth, width]) in [(4_096, [8, 240]), (65_536, [9, 300])] {
        all.extend([
            workloads::proof("rounds of paths, long clauses", &rounds::paths_over_clauses(7, 100, 1), places),
            workloads::proof("rounds of turns, long clauses", &rounds::turns_over_clauses(100, 100, 1), places),
            workloads::proof("PR lines, wide levels excluding", &pairs::wide_turns(depth, width, 3, 1), places),
        ]);
    }
    all
}

/// PR lines that make fact 1 false, so that each filler, which has it, gets a turn; each turn comes to its conflict by a chain of implications
/// from fact 1 on, a fact a round. The chain stands behind the fillers, so that each round has to pass over them.
fn turns_with_rounds(fillers: usize, lines: usize) -> Problem {
    const LAST: i32 = 56;
    let random = &mut Random::new(3);
    let mut clauses: Vec<Vec<i32>> = Vec::new();
    while clauses.len() < fillers {
        let clause = [vec![1], some_from(random, LAST + 1, 4)].concat();
        if !clauses.contains(&clause) {
            clauses.push(clause);
        }
    }
    clauses.extend((1..LAST).map(|fact| vec![-fact, fact + 1]));
    clauses.push(vec![-LAST]);
    let formula = Formula { variables: 64, clauses };
    let mut builder = Builder::new(&formula);
    let mut witness = Literals::default();
    witness.set(-1);
    while builder.lines.len() < lines {
        let line = builder.store.clause(&[vec![-1], some_from(random, LAST + 1, 5)].concat());
        builder.write_line(0x50, line, witness);
    }
    Problem { formula, builder }
}

/// Literals of so many of the facts from `first` to 64, in their order.
fn some_from(random: &mut Random, first: i32, many: usize) -> Vec<i32> {
    let mut facts: Vec<i32> = (first..=64).collect();
    random.shuffle(&mut facts);
    facts.truncate(many);
    facts.sort_unstable();
    facts.into_iter().map(|fact| if random.percent(50) { fact } else { -fact }).collect()
}

/// The sum of weights of the variables before 63 by a modulus picks one of two ends.
fn counter(store: &mut Diagrams, random: &mut Random, modulus: usize, ends: [Node; 2]) -> Node {
    let mut below: Vec<Node> = (0..modulus).map(|sum| ends[usize::from(sum == 0)]).collect();
    for variable in (1..63).rev() {
        let weight = random.between(1, modulus - 1);
        below = (0..modulus).map(|sum| store.node(variable, below[sum], below[(sum + weight) % modulus])).collect();
    }
    below[0]
}

/// Two lines that follow from the clause 64, each with a counter in it: the second one's check meets all pairs of their sums.
fn counters(first: usize, second: usize) -> Problem {
    let formula = Formula { variables: 64, clauses: vec![vec![64]] };
    let mut builder = Builder::new(&formula);
    let random = &mut Random::new(5);
    for modulus in [first, second] {
        let ends = [builder.store.clause(&[64]), builder.store.clause(&[63, 64])];
        let line = counter(&mut builder.store, random, modulus, ends);
        assert!(builder.rup(line));
    }
    Problem { formula, builder }
}

/// The conjunction of two counters that differ in variable 64 alone at their ends: 0 at every pair of sums.
fn disjoint(first: usize, second: usize) -> Workload {
    let mut store = Diagrams::default();
    let random = &mut Random::new(6);
    let roots = [(first, 64), (second, -64)].map(|(modulus, last)| {
        let other = store.literal(63);
        let last = store.literal(last);
        let ends = [last, store.and(other, last)];
        counter(&mut store, random, modulus, ends)
    });
    workloads::call(&format!("and, counters by {first}, {second}"), "and", &store, 65_536, roots[0], roots[1])
}
