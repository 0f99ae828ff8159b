//! Proofs of some kilobytes whose diagrams meet in many pairs of nodes. The formula has the empty clause, so that every line
//! is accepted, but the check makes every cofactor all the same.

use compare::diagram::{Diagrams, Literals, Node};
use compare::families::Problem;
use compare::formula::Formula;
use compare::proof::{Builder, Writer};
use compare::random::Random;

fn problem(lines: &[Node], store: Diagrams, repeats: usize) -> Problem {
    let formula = Formula { variables: 64, clauses: vec![vec![]] };
    let mut builder = Builder { store, ..Builder::new(&formula) };
    for line in lines {
        builder.write_line(0x52, *line, Literals::default());
    }
    // A PR line gives each of the lines above a turn, and each turn makes the cofactor of both by the negation of one.
    let last = builder.store.literal(64);
    for _ in 0..repeats {
        builder.write_line(0x50, last, Literals { positive: 1 << 63, negative: 0 });
    }
    if repeats == 0 {
        builder.write_line(0x52, 0, Literals::default());
    }
    Problem { formula, builder }
}

/// Two counters modulo m of 31 variables each, taken in turn, that share variable 1 alone: f by not-g is f again, no node is
/// placed, and every pair is met. Then so many PR lines.
pub fn apart(modulus: usize, repeats: usize) -> Problem {
    let (mut store, random) = (Diagrams::default(), &mut Random::new(7));
    let lines = [2, 3].map(|first| {
        let tops = counter(&mut store, random, modulus, first, [0, 1]);
        store.node(1, tops[0], tops[modulus / 3])
    });
    problem(&lines, store, repeats)
}

/// As two counters apart, but f and not-g exclude each other by variable 64 at every pair of ends: both have variables 63 and
/// 64, so that no pair can be told from its variables.
pub fn excluding(first: usize, second: usize) -> Problem {
    let (mut store, random) = (Diagrams::default(), &mut Random::new(8));
    let last = store.literal(64);
    let lines = [(first, 2, 0), (second, 1, 1)].map(|(modulus, from, end)| {
        let ends = [store.node(63, end, last), store.node(63, last, end)];
        counter(&mut store, random, modulus, from, ends)[0]
    });
    problem(&lines, store, 0)
}

/// So many lines that are one and the same node, x1 or at least 12 of 58 variables, behind two such lines of other variables; then so
/// many PR lines, each of which gives every member a turn. No line places a node that is not there.
pub fn equal(lines: usize, repeats: usize) -> Problem {
    let formula = Formula { variables: 64, clauses: vec![vec![1], vec![3]] };
    let mut builder = Builder::new(&formula);
    let halves = [0x5555_5555_5555_5540, 0xaaaa_aaaa_aaaa_aa80_u64];
    let members = halves.map(|set| (3, set)).into_iter().chain(vec![(1, halves[0] | halves[1]); lines]);
    for (variable, set) in members {
        let below = builder.writer.set(0x4b, set, 12);
        let root = builder.writer.node(variable, below, 1);
        builder.writer.line(0x52, root);
    }
    untouched(&mut builder.writer, repeats);
    Problem { formula, builder }
}

/// PR lines "variable 5 or 6" whose witness makes 5 and 3 true: a member has a turn where it is not 1 by these.
fn untouched(writer: &mut Writer, lines: usize) {
    for _ in 0..lines {
        let below = writer.node(6, 0, 1);
        let root = writer.node(5, below, 1);
        writer.witness(Literals { positive: 0b1_0100, negative: 0 });
        writer.line(0x50, root);
    }
}

/// The nodes of all remainders at the first of 31 variables, every second one from `first` on. The last weights are powers
/// of 2, so that no two remainders are one node.
fn counter(store: &mut Diagrams, random: &mut Random, modulus: usize, first: u8, ends: [Node; 2]) -> Vec<Node> {
    let mut below: Vec<Node> = (0..modulus).map(|sum| ends[usize::from(sum < modulus / 2)]).collect();
    for place in 0..31 {
        let weight = if 1 << place < modulus { 1 << place } else { random.between(1, modulus - 1) };
        let variable = first + 2 * (30 - place);
        below = (0..modulus).map(|sum| store.node(variable, below[sum], below[(sum + weight) % modulus])).collect();
    }
    below
}

/// Two diagrams, their variables taken in turn, that are trees above, then have some levels of random nodes, each so many that
/// the pairs of two levels are more than the memo's cells; they share variable 1 alone. Then so many PR lines.
pub fn wide(depth: usize, width: usize, levels: usize, repeats: usize) -> Problem {
    let (mut store, random) = (Diagrams::default(), &mut Random::new(5));
    let lines = [(2, false), (3, true)].map(|(first, closed)| {
        let top = wide_over(&mut store, random, [0, 1], first, closed, [depth, width, levels]);
        store.node(1, 0, top)
    });
    problem(&lines, store, repeats)
}

/// The same, but f and not-g exclude each other by variable 64 at every pair of ends, as in `excluding`.
pub fn wide_excluding(depth: usize, width: usize, levels: usize) -> Problem {
    let (mut store, random) = (Diagrams::default(), &mut Random::new(9));
    let last = store.literal(64);
    let lines = [(2, 0), (1, 1)].map(|(first, end)| {
        let ends = [store.node(63, end, last), store.node(63, last, end)];
        wide_over(&mut store, random, ends, first, false, [depth, width, levels])
    });
    problem(&lines, store, 0)
}

/// Two such diagrams, "x3 or f" and "x1 or g", then so many PR lines, in each of which only the second has a turn. It makes f 0, so that
/// nothing is placed, and meets all pairs again.
pub fn wide_turns(depth: usize, width: usize, levels: usize, repeats: usize) -> Problem {
    let formula = Formula { variables: 64, clauses: vec![vec![1], vec![3]] };
    let (mut builder, random) = (Builder::new(&formula), &mut Random::new(9));
    for (first, end, above) in [(8, 0, 3), (7, 1, 1)] {
        let store = &mut builder.store;
        let last = store.literal(64);
        let ends = [store.node(63, end, last), store.node(63, last, end)];
        let below = wide_over(store, random, ends, first, false, [depth, width, levels]);
        let line = store.node(above, below, 1);
        builder.write_line(0x52, line, Literals::default());
    }
    untouched(&mut builder.writer, repeats);
    Problem { formula, builder }
}

fn wide_over(
    store: &mut Diagrams,
    random: &mut Random,
    ends: [Node; 2],
    first: u8,
    closed: bool,
    [depth, width, levels]: [usize; 3],
) -> Node {
    let mut variables = (0..depth + levels + 4).map(|place| first + 2 * place as u8).rev();
    let mut row = ends.to_vec();
    for most in [2, 12, 120, width] {
        let more = level(store, random, variables.next().unwrap(), &row, most, closed);
        row = if most == width { more } else { [row, more].concat() };
    }
    for _ in 0..levels {
        row = level(store, random, variables.next().unwrap(), &row, width, closed);
    }
    row = (0..1 << depth).map(|leaf| if leaf < row.len() { row[leaf] } else { random.pick(&row) }).collect();
    for variable in variables {
        row = row.chunks(2).map(|pair| store.node(variable, pair[0], pair[1])).collect();
    }
    row[0]
}

/// So many nodes of one variable over the nodes below it; with each its negation, if the diagram is to be closed under it, so
/// that negating it places nothing.
fn level(
    store: &mut Diagrams,
    random: &mut Random,
    variable: u8,
    below: &[Node],
    most: usize,
    closed: bool,
) -> Vec<Node> {
    let mut row = Vec::new();
    for _ in 0..50 * most {
        let node = store.node(variable, random.pick(below), random.pick(below));
        let pair = if closed { vec![node, store.not(node)] } else { vec![node] };
        for node in pair {
            if store.variable(node) == variable && !row.contains(&node) && row.len() < most {
                row.push(node);
            }
        }
    }
    row
}
