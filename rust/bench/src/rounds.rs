//! Lines of a few bytes with many propagations, each of many rounds, where each round makes many long clauses anew: the slowest
//! proofs that were found. A line is struck out once it stands, so that it does not end the propagations of the next one.

use compare::diagram::Literals;
use compare::families::Problem;
use compare::formula::Formula;
use compare::paths;
use compare::proof::{Builder, Writer};

/// Clauses that make the variables from 64 down to `last` false, one a round, and then conflict.
fn downward(last: i32) -> Vec<Vec<i32>> {
    let mut clauses = vec![vec![-64]];
    clauses.extend((last..64).rev().map(|variable| vec![variable + 1, -variable]));
    clauses.push(vec![last]);
    clauses
}

/// Lines that are one and the same clause, "one of the variables from `first` on". A round that makes its last variable false makes
/// all of its nodes anew.
fn long_clauses(writer: &mut Writer, first: u8, lines: usize) {
    for _ in 0..lines {
        let root = writer.set(0x4b, u64::MAX << (first - 1), 1);
        writer.line(0x52, root);
    }
}

/// Path lines "an odd number of the first variables", with 2^(parity - 1) paths each, over so many long clauses. Each path has a round
/// for each of the other variables but two.
pub fn paths_over_clauses(parity: u8, members: usize, lines: usize) -> Problem {
    let formula = Formula { variables: 64, clauses: downward(i32::from(parity) + 2) };
    let mut builder = Builder::new(&formula);
    let writer = &mut builder.writer;
    long_clauses(writer, parity + 1, members);
    for line in 0..lines {
        let root = writer.set(0x58, u64::MAX >> (64 - parity), 1);
        writer.line(paths::KIND, root);
        writer.strike(formula.clauses.len() + members + line);
    }
    Problem { formula, builder }
}

/// PR lines "not variable 1" over so many clauses with variable 1, which have a turn each, and so many long clauses, which the
/// witness satisfies. Each turn has 54 rounds.
pub fn turns_over_clauses(turns: usize, members: usize, lines: usize) -> Problem {
    let clauses = [(1..=turns).map(other_clause).collect(), downward(10)].concat();
    let formula = Formula { variables: 64, clauses };
    let mut builder = Builder::new(&formula);
    let writer = &mut builder.writer;
    long_clauses(writer, 9, members);
    for line in 0..lines {
        let root = writer.node(1, 1, 0);
        writer.witness(Literals { positive: 1 << 8, negative: 1 });
        writer.line(0x50, root);
        writer.strike(formula.clauses.len() + members + line);
    }
    Problem { formula, builder }
}

/// Variable 1 or some literals of 2 to 8: another clause for each number below 3^7.
fn other_clause(number: usize) -> Vec<i32> {
    let literal = |variable: i32| match number / 3_usize.pow(variable as u32 - 2) % 3 {
        0 => None,
        1 => Some(variable),
        _ => Some(-variable),
    };
    [1].into_iter().chain((2..=8).filter_map(literal)).collect()
}
