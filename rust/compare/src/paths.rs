//! Path lines: RUP lines of a proof written as path lines, and diagrams with so many paths to 0.

use crate::check::command;
use crate::diagram::{Diagrams, Literals, Node};
use crate::families::Problem;
use crate::formula::Formula;
use crate::proof::Writer;
use crate::random::Random;
use crate::strike;
use crate::tally::{self, Tally};

/// The kind of a path line.
pub const KIND: u8 = 0x51;

/// "More than 4,096 such paths" are refused.
const MOST: usize = 4_096;

/// The problem with some of its RUP lines written as path lines: mostly those that are accepted as such.
pub fn strewn(random: &mut Random, problem: &Problem) -> Problem {
    let Problem { formula, builder } = problem;
    let (mut start, mut lines) = (builder.anew(formula.clauses.len()), builder.lines.clone());
    let (mut tried, often) = (start.clone(), random.pick(&[30, 100]));
    for (at, line) in lines.iter_mut().enumerate() {
        for (_, member) in builder.strikings.iter().filter(|(before, _)| *before == at) {
            tried.struck[*member] = true;
        }
        if line.kind == 0x52 && random.percent(often) {
            line.kind = KIND;
            if !tried.accepts(*line) && random.percent(95) {
                line.kind = 0x52;
            }
        }
        tried.members.push(line.g);
        tried.struck.push(false);
    }
    strike::write(random, &mut start, &lines, &builder.strikings);
    Problem { formula: formula.clone(), builder: start }
}

/// A diagram with just so many paths to 0 over the variables from `first` on: a half of them on each side, down to a literal of
/// variable 64.
pub fn with_paths(store: &mut Diagrams, first: u8, count: usize, positive: bool) -> Node {
    match count {
        0 => 1,
        1 => store.literal(if positive { 64 } else { -64 }),
        _ => {
            let low = with_paths(store, first + 1, count / 2, positive);
            let high = with_paths(store, first + 1, count - count / 2, !positive);
            store.node(first, low, high)
        }
    }
}

/// Path lines of many paths, at the limit of 4,096 and far above it. Members show every path at once, after some rounds, or not
/// the last one.
pub fn wide(random: &mut Random) -> Vec<String> {
    let edges = [2, 3, 100, 1_000, 2_048, MOST - 1, MOST, MOST, MOST + 1, MOST + 1, MOST + 2, 2 * MOST, 100_000];
    let paths = random.pick(&edges);
    let mut writer = Writer::default();
    let mut store = Diagrams::default();
    let first = random.between(1, 40) as u8;
    let root = match random.below(8) {
        // A parity of n has half of its 2^n assignments as paths; at least 32 of 64 has far more than 2^60.
        0 => {
            let size = random.pick(&[11, 12, 13, 13, 14, 40, 64]);
            let set = tally::set(random, 64, size);
            writer.tally(set, Tally::Parity(random.percent(50)))
        }
        1 => writer.tally(u64::MAX, Tally::AtLeast(random.pick(&[2, 3, 32, 63]))),
        _ => {
            let positive = random.percent(50);
            let g = with_paths(&mut store, first, paths, positive);
            writer.entry(&store, g)
        }
    };
    if random.percent(5) {
        writer.witness(Literals { positive: 1, negative: 0 });
    }
    writer.line(KIND, root);
    if random.percent(50) {
        writer.line(random.pick(&[0x52, KIND]), 0);
    }
    writer.end();
    let formula = Formula { variables: 64, clauses: members(random, first) };
    let size = random.pick(&[4_096, 4_096, 65_536]);
    vec![command(random, size, &formula.text(), &writer.bytes)]
}

/// The clause 0; both literals of 64, of which each path makes one 0; a chain to them; or all but one of the signs of two variables.
fn members(random: &mut Random, first: u8) -> Vec<Vec<i32>> {
    let top = i32::from(first);
    match random.below(5) {
        0 => vec![vec![]],
        1 => vec![vec![64], vec![-64]],
        2 => vec![vec![-62], vec![62, -63], vec![63, 64], vec![63, -64]],
        3 => vec![vec![top, 64], vec![top, -64], vec![-top, 64], vec![-top, -64]],
        _ => vec![vec![top, 64], vec![-top, -64], vec![top, -64]],
    }
}

/// Whether a proof in hex has a path line before its first fault.
pub fn stands_in(proof: &str) -> bool {
    let mut rest = proof;
    loop {
        let length = match rest.get(..2) {
            Some("51") => return rest.len() >= 6,
            Some("4e") => 12,
            Some("58" | "4b") => 20,
            Some("54" | "46") => 4,
            Some("52" | "50" | "44") => 6,
            _ => return false,
        };
        let Some(left) = rest.get(length..) else { return false };
        rest = left;
    }
}

/// Whether an answer's place is that of a path line's own record, in a proof in hex: refused there, with 23 while a path is tried.
pub fn ended_at(proof: &str, answer: &str) -> bool {
    let mut words = answer.split(' ').map_while(|word| word.parse::<usize>().ok());
    match (words.next(), words.next()) {
        (Some(0..=8) | None, _) | (_, None) => false,
        (_, Some(place)) => proof.get(2 * place..2 * place + 2) == Some("51"),
    }
}

#[cfg(test)]
mod tests {
    use super::*;
    use crate::families;

    #[test]
    fn places_of_path_lines() {
        assert!(ended_at("4e0200000100510200", "23 6 0 0 3 3 | - | - | -"));
        assert!(!ended_at("4e0200000100510200", "23 0 0 0 3 3 | - | - | -"));
        assert!(!ended_at("4e0200000100510200", "3 6 0 0 2 2 | - | - | -"));
        assert!(!ended_at("", "20 6 0 0 2 2 | - | - | -") && !ended_at("51", "error: not a command"));
    }

    #[test]
    fn counts_are_exact() {
        let store = &mut Diagrams::default();
        for count in (1..100).chain([1_000, 4_095, 4_096, 4_097, 100_000]) {
            let g = with_paths(store, 1, count, true);
            assert_eq!(store.path_count(g), count as u64);
            assert_eq!(store.paths(g, count).map(|paths| paths.len()), Some(count));
            assert!(store.paths(g, count - 1).is_none());
        }
        let all: Vec<u8> = (1..=64).collect();
        let odd = store.parity(&all, true);
        assert_eq!((store.path_count(0), store.path_count(1), store.path_count(odd)), (1, 0, 1 << 63));
    }

    /// Low side first, with the variables that are asked on the way alone.
    #[test]
    fn paths_in_their_order() {
        let store = &mut Diagrams::default();
        let (second, third) = (store.literal(2), store.literal(-3));
        let g = store.node(1, second, third);
        let path = |literals: &[i32]| {
            let mut path = Literals::default();
            literals.iter().for_each(|literal| path.set(*literal));
            path
        };
        assert!(store.paths(g, 9) == Some(vec![path(&[-1, -2]), path(&[1, 3])]));
        assert!(store.paths(0, 9) == Some(vec![path(&[])]));
    }

    /// Document 002's point: a parity from plain clauses fails as RUP and passes as a path line.
    #[test]
    fn a_parity_from_its_clauses() {
        let formula =
            Formula { variables: 3, clauses: vec![vec![1, 2, 3], vec![1, -2, -3], vec![-1, 2, -3], vec![-1, -2, 3]] };
        let mut builder = crate::proof::Builder::new(&formula);
        let odd = builder.store.parity(&[1, 2, 3], true);
        assert!(!builder.rup(odd) && builder.path(odd));
    }

    /// Most proofs get path lines and stay accepted.
    #[test]
    fn most_stay_accepted() {
        let random = &mut Random::new(1);
        let mut written = 0;
        for _ in 0..100 {
            let plain = families::any(random);
            let problem = strewn(random, &plain);
            assert_eq!(problem.builder.members, plain.builder.members);
            let kinds = problem.builder.writer.lines.iter().skip(1).map(|end| problem.builder.writer.bytes[end - 3]);
            let path_lines = kinds.filter(|kind| *kind == KIND).count();
            let hex: String = problem.builder.writer.bytes.iter().map(|byte| format!("{byte:02x}")).collect();
            assert_eq!(stands_in(&hex), path_lines > 0);
            written += usize::from(path_lines > 0);
        }
        assert!(written > 60, "{written}");
    }
}
