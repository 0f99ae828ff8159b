//! What is timed: each command beside one with the same text that asks for next to no work.

use compare::diagram::{Diagrams, Literals, Node};
use compare::families::{self, Parity};
use compare::paths::{self, with_paths};
use compare::proof::{Builder, Writer};
use compare::random::Random;
use compare::table::Table;
use compare::tally;

#[derive(Clone)]
pub struct Workload {
    pub name: String,
    pub command: String,
    /// The same text with little to do: its time is the cost of reading and writing.
    pub text: String,
}

const WORDS: [&str; 5] = ["eval", "not", "and", "cof", "lits"];

/// The single calls: parities and thresholds in tables of several sizes.
pub fn single() -> Vec<Workload> {
    let mut all = Vec::new();
    for (variables, size) in [(20, 64), (20, 4_096), (40, 4_096), (64, 4_096), (64, 65_536)] {
        all.extend(WORDS.map(|word| parities(word, variables, size)));
    }
    all.extend(WORDS.map(|word| thresholds(word, 64, 65_536)));
    all.extend(WORDS.map(smallest));
    all.extend(
        [(16, 8, 128), (32, 16, 4_096), (64, 32, 4_096), (64, 32, 65_536)].map(|(n, k, size)| at_least(n, k, size)),
    );
    all
}

/// "At least k of n", made in an empty table.
fn at_least(variables: u32, least: u8, size: usize) -> Workload {
    let lent = Table { size, ..Table::of(&Diagrams::default()) }.text();
    Workload {
        name: format!("atleast, {least} of {variables}, {size} places"),
        command: format!("atleast {lent} {} {least}", u64::MAX >> (64 - variables)),
        text: format!("eval {lent} 0 0"),
    }
}

/// An odd parity of all variables, with an even one of those from the fourth on.
fn parities(word: &str, variables: u8, size: usize) -> Workload {
    let mut store = Diagrams::default();
    let (all, rest): (Vec<u8>, Vec<u8>) = ((1..=variables).collect(), (4..=variables).collect());
    let (f, g) = (store.parity(&all, true), store.parity(&rest, false));
    // A table too small for the answer gets the room.
    call(&format!("{word}, parity of {variables}"), word, &store, size.max(store.nodes.len() * 4), f, g)
}

/// At least half of the variables, with at least a quarter of every second one.
fn thresholds(word: &str, variables: u8, size: usize) -> Workload {
    let mut store = Diagrams::default();
    let (all, second): (Vec<u8>, Vec<u8>) = ((1..=variables).collect(), (1..=variables).step_by(2).collect());
    let f = store.at_least(&all, usize::from(variables) / 2);
    let g = store.at_least(&second, usize::from(variables) / 4);
    call(&format!("{word}, threshold of {variables}"), word, &store, size, f, g)
}

fn smallest(word: &str) -> Workload {
    let mut store = Diagrams::default();
    let (f, g) = (store.literal(1), store.literal(2));
    call(&format!("{word}, literals"), word, &store, 8, f, g)
}

pub fn call(name: &str, word: &str, store: &Diagrams, size: usize, f: Node, g: Node) -> Workload {
    let table = Table { size, ..Table::of(store) };
    let lent = table.text();
    let command = match word {
        "eval" => format!("eval {lent} {f} {}", u64::MAX),
        "not" => format!("not {lent} {f}"),
        "lits" => format!("lits {lent} {f} {} {}", 0x2222_2222_2222_2222u64, 0x8888_8888_8888_8888u64),
        _ => format!("{word} {lent} {f} {g}"),
    };
    // Evaluation tests the table as the other calls do, so what is left of them is the making. Its own time is nearly all
    // that test, which a count of 0 leaves out.
    let text = match word {
        "eval" => format!("eval {} {f} 0", Table { count: 0, ..table }.text()),
        _ => format!("eval {lent} 0 0"),
    };
    Workload { name: format!("{name}, {size} places"), command, text }
}

/// A check of one record of a set, without the check of the same record of the empty set.
fn entry(name: &str, kind: &str, set: u64, byte: u8) -> Workload {
    let asked = |set: u64| {
        let set: String = set.to_le_bytes().iter().map(|byte| format!("{byte:02x}")).collect();
        // "p cnf 64 0", and the end record.
        format!("check 4096 2048 4096 7020636e6620363420300a {kind}{set}{byte:02x}45")
    };
    Workload { name: format!("one entry: {name}, 4096 places"), command: asked(set), text: asked(0) }
}

/// Whole checks.
pub fn check() -> Vec<Workload> {
    let sums = parity_sums(64, false);
    vec![
        entry("parity of 64", "58", u64::MAX, 1),
        entry("at least 32 of 64", "4b", u64::MAX, 32),
        entry("at least 2 of 64", "4b", u64::MAX, 2),
        proof("parity sums of 60", &parity_sums(60, false), 65_536),
        proof("parity sums of 64", &sums, 65_536),
        proof("parity sums of 64, by sets", &tally::shortened(&mut Random::new(1), &sums, u64::MAX), 65_536),
        proof("parity sums of 64, struck out", &parity_sums(64, true), 65_536),
        proof("parity sums of 64, each constraint one path line", &parity_sums_by_paths(64), 65_536),
        proof("parity of 10 from its 512 clauses, one path line", &parity_by_paths(10), 65_536),
        path_line("512", 512),
        path_line("4,096", 4_096),
        refused_paths(),
        proof("pigeonhole 7", &families::pigeonhole(8, 7), 65_536),
        proof("rounds: 1,000 clauses, 500 RUP lines", &families::chain(&mut Random::new(1), 40, 1_000, 500), 65_536),
        proof("1,000 clauses, 200 PR lines", &families::pure(&mut Random::new(2), 1_000, 200), 65_536),
    ]
}

pub fn proof(name: &str, problem: &families::Problem, places: usize) -> Workload {
    let mut writer = problem.builder.writer.clone();
    writer.end();
    let name = format!("{name} ({} lines, {places} places)", writer.lines.len().saturating_sub(1));
    whole(name, "check", places, &problem.formula.text(), &writer.bytes)
}

/// A whole check by this word.
pub fn whole(name: String, word: &str, places: usize, formula: &[u8], proof: &[u8]) -> Workload {
    let hex = |bytes: &[u8]| bytes.iter().map(|byte| format!("{byte:02x}")).collect::<String>();
    let (formula, proof) = (hex(formula), hex(proof));
    Workload {
        name,
        command: format!("{word} {places} 2048 4096 {formula} {proof}"),
        // A table of one place is refused at once.
        text: format!("{word} 1 2048 4096 {formula} {proof}"),
    }
}

/// A path line of so many paths, each of which makes one of two members 0, without the check of the same records of which none is a line.
fn path_line(name: &str, paths: usize) -> Workload {
    let mut store = Diagrams::default();
    let g = with_paths(&mut store, 1, paths, true);
    let mut writer = Writer::default();
    let root = writer.entry(&store, g);
    writer.line(paths::KIND, root);
    let asked = |proof: &[u8]| {
        let hex: String = proof.iter().map(|byte| format!("{byte:02x}")).collect();
        // "p cnf 64 2 64 0 -64 0"
        format!("check 4096 2048 4096 7020636e6620363420320a363420300a2d363420300a {hex}45")
    };
    let entries = &writer.bytes[..writer.bytes.len() - 3];
    let name = format!("one path line of {name} paths, 4096 places");
    Workload { name, command: asked(&writer.bytes), text: asked(entries) }
}

/// A path line whose parity of 64 has 2^63 paths, without the check of its entry.
fn refused_paths() -> Workload {
    let asked = |line: &str| format!("check 4096 2048 4096 7020636e6620363420300a 58ffffffffffffffff01{line}45");
    let name = "one path line of 2^63 paths, refused with 34, 4096 places".into();
    Workload { name, command: asked("510200"), text: asked("") }
}

/// "An odd number" of so many variables from its clauses.
fn parity_by_paths(variables: usize) -> families::Problem {
    let constraint = ((1..=variables as u8).collect(), true);
    let formula = families::parities(variables, std::slice::from_ref(&constraint), false, false).formula;
    let mut builder = Builder::new(&formula);
    let line = builder.store.parity(&constraint.0, constraint.1);
    builder.write_line(paths::KIND, line, Literals::default());
    families::Problem { formula, builder }
}

/// Parity constraints of three variables, summed: about 250 lines, with what went into a sum struck out or not.
fn parity_sums(variables: usize, striking: bool) -> families::Problem {
    families::parities(variables, &constraints(variables), striking, false)
}

/// The same with one path line for the steps from a constraint's clauses to it.
fn parity_sums_by_paths(variables: usize) -> families::Problem {
    families::parities(variables, &constraints(variables), false, true)
}

fn constraints(variables: usize) -> Vec<Parity> {
    let random = &mut Random::new(variables as u64);
    let mut constraints: Vec<Parity> = Vec::new();
    while constraints.len() < 62 {
        let mut chosen: Vec<u8> = (0..3).map(|_| random.between(1, variables) as u8).collect();
        chosen.sort_unstable();
        chosen.dedup();
        if chosen.len() == 3 {
            constraints.push((chosen, random.percent(50)));
        }
    }
    constraints
}
