//! Records of a set of variables, "an odd number" and "at least k": any of them, and those that make a diagram at hand.

use crate::diagram::{Diagrams, Node};
use crate::families::Problem;
use crate::proof::Writer;
use crate::random::Random;
use crate::strike;
use std::collections::{BTreeSet, HashSet};

/// What is asked of the number of a set's true variables.
#[derive(Clone, Copy, PartialEq, Eq, Hash, Debug)]
pub enum Tally {
    Parity(bool),
    AtLeast(u8),
}

impl Tally {
    /// The kind and the last byte of its record.
    pub fn record(self) -> (u8, u8) {
        match self {
            Tally::Parity(odd) => (0x58, odd.into()),
            Tally::AtLeast(least) => (0x4b, least),
        }
    }

    /// The constant that answers where the variables to come, so many, decide nothing.
    fn settled(self, left: usize) -> Option<Node> {
        match self {
            Tally::Parity(odd) => (left == 0).then_some(usize::from(!odd)),
            Tally::AtLeast(0) => Some(1),
            Tally::AtLeast(least) => (usize::from(least) > left).then_some(0),
        }
    }

    /// What is asked of the others where one is true.
    fn less_one(self) -> Tally {
        match self {
            Tally::Parity(odd) => Tally::Parity(!odd),
            Tally::AtLeast(least) => Tally::AtLeast(least - 1),
        }
    }
}

/// The variables of a set, rising.
fn variables_of(set: u64) -> Vec<u8> {
    (1..=64).filter(|variable| set >> (variable - 1) & 1 == 1).collect()
}

fn set_of(variables: &[u8]) -> u64 {
    variables.iter().fold(0, |set, variable| set | 1 << (variable - 1))
}

/// The set and the question whose diagram a node has, where it has one of at least two variables.
pub fn of(store: &Diagrams, node: Node) -> Option<(u64, Tally)> {
    let variables = support(store, node);
    if variables.len() < 2 {
        return None;
    }
    // Where all are true, as many of them are asked as are wanted.
    let (mut below, mut asked) = (node, 0);
    while below > 1 {
        (below, asked) = (store.nodes[below].2, asked + 1);
    }
    let tallies = [Tally::Parity(true), Tally::Parity(false), Tally::AtLeast(asked)];
    let found = tallies.into_iter().find(|tally| answers(store, node, &variables, *tally, &mut HashSet::new()));
    found.map(|tally| (set_of(&variables), tally))
}

fn support(store: &Diagrams, node: Node) -> Vec<u8> {
    let (mut found, mut seen, mut open) = (BTreeSet::new(), HashSet::new(), vec![node]);
    while let Some(node) = open.pop() {
        if node > 1 && seen.insert(node) {
            let (variable, low, high) = store.nodes[node];
            found.insert(variable);
            open.extend([low, high]);
        }
    }
    found.into_iter().collect()
}

/// Whether the node asks each of the variables, as far as they decide, and answers right.
fn answers(store: &Diagrams, node: Node, left: &[u8], tally: Tally, seen: &mut HashSet<(Node, Tally)>) -> bool {
    if let Some(constant) = tally.settled(left.len()) {
        return node == constant;
    }
    if store.variable(node) != left[0] {
        return false;
    }
    let (_, low, high) = store.nodes[node];
    !seen.insert((node, tally))
        || answers(store, low, &left[1..], tally, seen) && answers(store, high, &left[1..], tally.less_one(), seen)
}

/// A set of so many variables of 1 to n: the first, the last, or any.
pub fn set(random: &mut Random, n: usize, size: usize) -> u64 {
    let mut all: Vec<u8> = (1..=n as u8).collect();
    match random.below(4) {
        0 => {}
        1 => all.reverse(),
        _ => random.shuffle(&mut all),
    }
    all.truncate(size);
    set_of(&all)
}

/// What may be asked of a set of so many variables: parities, and k at its edges, in between and far above.
pub fn any(random: &mut Random, size: usize) -> Tally {
    let edges = [0, 1, size / 2, size.saturating_sub(1), size, size + 1, 33, 65, 255];
    match random.below(6) {
        0 | 1 => Tally::Parity(random.percent(50)),
        2 => Tally::AtLeast(random.below(size + 2) as u8),
        3 => Tally::AtLeast(random.pick(&edges) as u8),
        _ => Tally::AtLeast(random.pick(&edges[1..5]) as u8),
    }
}

/// A set of 1 to n, and what is asked of it.
pub fn asked(random: &mut Random, n: usize) -> (u64, Tally) {
    let size = random.below(n + 1);
    (set(random, n, size), any(random, size))
}

/// The diagram of such a question.
pub fn diagram(random: &mut Random, store: &mut Diagrams, n: usize) -> Node {
    let (set, tally) = asked(random, n);
    match tally {
        Tally::Parity(odd) => store.parity(&variables_of(set), odd),
        Tally::AtLeast(least) => store.at_least(&variables_of(set), least.into()),
    }
}

/// A few entries that no line wants.
pub fn strew(random: &mut Random, writer: &mut Writer, n: usize) {
    for _ in 0..random.between(1, 3) {
        let (set, tally) = asked(random, n);
        writer.tally(set, tally);
    }
}

/// Which of the diagrams that are tallies get one record, as [`Writer::sets`] has it: none, all, or some.
pub fn dice(random: &mut Random) -> u64 {
    let some = random.word();
    random.pick(&[0, 0, u64::MAX, some])
}

/// The problem with its lines and strikings written anew, these diagrams by one record.
pub fn shortened(random: &mut Random, problem: &Problem, sets: u64) -> Problem {
    let Problem { formula, builder } = problem;
    let mut start = builder.anew(formula.clauses.len());
    start.writer.sets = sets;
    strike::write(random, &mut start, &builder.lines, &builder.strikings);
    Problem { formula: formula.clone(), builder: start }
}

/// Whether a proof in hex has a record of a set before its first fault.
pub fn stands_in(proof: &str) -> bool {
    let mut rest = proof;
    loop {
        let length = match rest.get(..2) {
            Some("58" | "4b") => return rest.len() >= 20,
            Some("4e") => 12,
            Some("54" | "46") => 4,
            Some("52" | "50" | "51" | "44") => 6,
            _ => return false,
        };
        let Some(left) = rest.get(length..) else { return false };
        rest = left;
    }
}

#[cfg(test)]
mod tests {
    use super::*;
    use crate::families;

    /// Each question's diagram is known by its set; with one variable or none there is a node or a constant.
    #[test]
    fn tallies_are_known() {
        let random = &mut Random::new(1);
        for _ in 0..300 {
            let mut store = Diagrams::default();
            let size = random.between(2, 20);
            let set = set(random, 64, size);
            let variables = variables_of(set);
            for odd in [true, false] {
                let node = store.parity(&variables, odd);
                assert_eq!(of(&store, node), Some((set, Tally::Parity(odd))));
            }
            for least in 1..=size {
                let node = store.at_least(&variables, least);
                assert_eq!(of(&store, node), Some((set, Tally::AtLeast(least as u8))));
            }
        }
        let store = &mut Diagrams::default();
        let clause = store.clause(&[1, -2]);
        let (first, second, third) = (store.literal(1), store.literal(2), store.literal(3));
        let either = store.node(1, second, third);
        assert!([0, 1, clause, first, either].iter().all(|&node| of(store, node).is_none()));
    }

    /// The same lines in fewer bytes, with entries of sets alone, among nodes, and beneath them.
    #[test]
    fn shortened_proofs() {
        let random = &mut Random::new(1);
        let (mut shorter, mut mixed) = (0, 0);
        for _ in 0..200 {
            let plain = families::any(random);
            let short = shortened(random, &plain, u64::MAX);
            let kinds: Vec<u8> =
                short.builder.writer.records.iter().map(|&at| short.builder.writer.bytes[at]).collect();
            let sets = kinds.iter().filter(|kind| [0x58, 0x4b].contains(kind)).count();
            assert_eq!(short.builder.members, plain.builder.members);
            assert_eq!(short.builder.writer.lines.len(), plain.builder.writer.lines.len());
            let again = shortened(random, &short, 0);
            assert_eq!(again.builder.writer.bytes.len(), plain.builder.writer.bytes.len());
            shorter += usize::from(short.builder.writer.bytes.len() < plain.builder.writer.bytes.len());
            mixed += usize::from(sets > 0 && kinds.windows(2).any(|pair| pair == [0x58, 0x4e] || pair == [0x4b, 0x4e]));
            let hex: String = short.builder.writer.bytes.iter().map(|byte| format!("{byte:02x}")).collect();
            assert_eq!(stands_in(&hex), sets > 0);
        }
        assert!(shorter > 80 && mixed > 40, "{shorter} {mixed}");
    }

    /// Sets of every size and k at each of its edges.
    #[test]
    fn every_edge_comes() {
        let random = &mut Random::new(1);
        let asked: HashSet<(u32, Tally)> = (0..20_000)
            .map(|_| {
                let (set, tally) = asked(random, 8);
                assert_eq!(set >> 8, 0);
                (set.count_ones(), tally)
            })
            .collect();
        for size in 0..=8 {
            let edges = [0, size as u8, size as u8 + 1, 33, 255].map(Tally::AtLeast);
            assert!(edges.iter().all(|edge| asked.contains(&(size, *edge))), "{size}");
            assert!([true, false].iter().all(|odd| asked.contains(&(size, Tally::Parity(*odd)))), "{size}");
        }
    }

    #[test]
    fn records_of_sets_in_hex() {
        for (proof, stands) in [
            ("58ffffffffffffffff01", true),
            ("4e010000010044000054015200004b000000000000000000", true),
            ("4e58000001004501", false),
            ("58ffffffffffffffff", false),
            ("4558ffffffffffffffff01", false),
            ("-", false),
            ("", false),
        ] {
            assert_eq!(stands_in(proof), stands, "{proof}");
        }
    }
}
