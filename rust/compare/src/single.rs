//! Commands of the single calls.

use crate::index;
use crate::random::Random;
use crate::table::{self, Table};
use crate::tally;

pub const WORDS: [&str; 6] = ["and", "not", "cof", "lits", "eval", "atleast"];

/// A few commands over one table, the words among those given.
pub fn commands(random: &mut Random, words: &[&str]) -> Vec<String> {
    let mut table = if random.percent(10) { table::one_chain(random) } else { good(random) };
    // More than a third is refused: a table nearly full gives several commands, a wrong index one for each call, the other kinds one to three.
    match random.below(24) {
        0..=9 => damaged(random, words, &mut table),
        10..=11 => wrong_size(random, words, &mut table),
        12..=16 => nearly_full(random, words, &table),
        17..=20 => wrong_index(random, words, &mut table),
        _ => roomy(random, words, &mut table),
    }
}

fn good(random: &mut Random) -> Table {
    let variables = table::variables(random);
    let nodes = match random.below(200) {
        0 => return table::largest(random),
        1 => random.between(4_000, 65_536),
        2..=9 => random.between(200, 4_000),
        10..=59 => random.between(40, 200),
        _ => random.between(2, 40),
    };
    let mut store = table::store(random, &variables, nodes);
    store.nodes.truncate(65_536);
    Table::of(&store)
}

fn damaged(random: &mut Random, words: &[&str], table: &mut Table) -> Vec<String> {
    // A damaged table has at most 65,536 places, so that 7 does not come first.
    if table.count > 65_000 {
        table.places.truncate(65_000);
        (table.count, table.size) = (65_000, 65_000);
    }
    if random.percent(50) {
        table.size += random.below(500);
    }
    let mut spoilt = String::new();
    if random.percent(5) {
        spoilt = index::damage(random, table);
    }
    table::damage(random, table);
    let word = random.pick(words);
    vec![command(random, word, table) + &spoilt]
}

/// A table in good order with a wrong index: each of the calls refuses it.
fn wrong_index(random: &mut Random, words: &[&str], table: &mut Table) -> Vec<String> {
    if random.percent(50) {
        table.size = (table.size + random.below(20)).min(65_536);
    }
    let spoilt = index::damage(random, table);
    let asked: Vec<&str> = if table.count > 300 { vec![random.pick(words)] } else { words.to_vec() };
    asked.into_iter().map(|word| command(random, word, table) + &spoilt).collect()
}

fn wrong_size(random: &mut Random, words: &[&str], table: &mut Table) -> Vec<String> {
    if random.percent(50) {
        let word = random.pick(words);
        return vec![command(random, word, table) + &index::wrong_size(random, table.size)];
    }
    table.size = random.pick(&[0, 1, 65_537, 65_538, 70_000]);
    if random.percent(30) {
        table::damage(random, table);
        table.size = random.pick(&[0, 1]);
    }
    let word = random.pick(words);
    vec![command(random, word, table)]
}

/// The same call with room for no node, for one, for two and so on, so that the table is full at each of its nodes.
fn nearly_full(random: &mut Random, words: &[&str], table: &Table) -> Vec<String> {
    let word = random.pick(words);
    let operands = operands(random, word, table);
    let steps = if table.count > 300 || word == "eval" { 1 } else { random.between(1, 12) };
    let first = match random.below(100) {
        0..=69 => 0,
        70..=84 => random.below(10),
        _ if word == "atleast" => random.below(nodes_of(&operands) + 1),
        _ => random.below(10),
    };
    let sizes = (first..first + steps).map(|room| table.size + room);
    sizes.filter(|size| *size <= 65_536).map(|size| text(word, &Table { size, ..table.clone() }, &operands)).collect()
}

fn roomy(random: &mut Random, words: &[&str], table: &mut Table) -> Vec<String> {
    let room = random.pick(&[50, 500, 5_000, 65_536]);
    table.size = (table.size + random.below(room)).min(65_536);
    (0..random.between(1, 3))
        .map(|_| {
            let word = random.pick(words);
            command(random, word, table)
        })
        .collect()
}

fn command(random: &mut Random, word: &str, table: &Table) -> String {
    let operands = operands(random, word, table);
    text(word, table, &operands)
}

fn text(word: &str, table: &Table, operands: &str) -> String {
    format!("{word} {} {operands}", table.text())
}

/// How many nodes the diagram of an at-least call has.
fn nodes_of(operands: &str) -> usize {
    let mut words = operands.split(' ').map(|word| word.parse::<u64>().unwrap_or(0));
    let (set, least) = (words.next().unwrap_or(0), words.next().unwrap_or(0) as usize);
    least * (set.count_ones() as usize + 1).saturating_sub(least)
}

/// A set of none to 64 variables, often of the table's, and k at its edges.
fn set_and_least(random: &mut Random, table: &Table) -> String {
    let size = match random.below(4) {
        0 => random.below(65),
        1 | 2 => random.pick(&[0, 1, 2, 31, 32, 33, 33, 34, 64]),
        _ => random.between(1, 12),
    };
    let any = tally::set(random, 64, size);
    let of_table = table.places.iter().map(|place| place.0).filter(|variable| (1..=64).contains(variable));
    let of_table = of_table.fold(0, |set, variable| set | 1 << (variable - 1));
    let set: u64 = if random.percent(30) { of_table & random.pick(&[any, !any, u64::MAX]) } else { any };
    let size = set.count_ones() as usize;
    let edges = [0, 1, 2, size / 2, size.saturating_sub(1), size, size + 1, 32, 33, 34, 65, 255];
    let least = if random.percent(70) { random.pick(&edges) } else { random.below(size + 2) };
    format!("{set} {least}")
}

fn operands(random: &mut Random, word: &str, table: &Table) -> String {
    if word == "atleast" {
        return set_and_least(random, table);
    }
    let f = operand(random, table);
    match word {
        "and" => format!("{f} {}", operand(random, table)),
        "cof" => {
            let g = if random.percent(12) { 0 } else { operand(random, table) };
            format!("{f} {g}")
        }
        "not" => f.to_string(),
        "eval" => format!("{f} {}", word_of(random)),
        _ => {
            let (positive, mut negative) = (literals(random, table), literals(random, table));
            if random.percent(80) {
                negative &= !positive;
            }
            format!("{f} {positive} {negative}")
        }
    }
}

/// Few of the table's variables, which leaves much of a diagram, or any word.
fn literals(random: &mut Random, table: &Table) -> u64 {
    if random.percent(30) {
        return word_of(random);
    }
    let chosen = (0..random.below(3)).map(|_| table.places[random.below(table.places.len())].0);
    chosen.filter(|variable| (1..=64).contains(variable)).fold(0, |word, variable| word | 1 << (variable - 1))
}

/// A node of the table, often one of the last, which are the roots; sometimes one past the count.
fn operand(random: &mut Random, table: &Table) -> usize {
    let count = table.count.clamp(2, 65_536);
    if random.percent(8) {
        return random.pick(&[count, count + 1, 65_535]).min(65_535);
    }
    // From a huge table mostly small diagrams: the product of two large ones says no more and takes long.
    if count > 5_000 && random.percent(90) {
        return random.below(2_000);
    }
    if random.percent(70) {
        return random.between(count.saturating_sub(4), count - 1);
    }
    random.below(count)
}

/// A 64-bit word with few bits, with many, with none or with all.
fn word_of(random: &mut Random) -> u64 {
    match random.below(6) {
        0 => random.pick(&[0, u64::MAX, 1, 1 << 63]),
        1 => random.word() & random.word() & random.word(),
        2 => random.word() & 0xff,
        3 => 1 << random.below(64),
        _ => random.word(),
    }
}

#[cfg(test)]
mod tests {
    use super::*;
    use std::collections::HashSet;

    #[test]
    fn nodes_of_a_diagram() {
        for (operands, nodes) in
            [("7 2", 4), ("7 0", 0), ("7 4", 0), ("7 255", 0), ("0 1", 0), ("18446744073709551615 32", 1056)]
        {
            assert_eq!(nodes_of(operands), nodes, "{operands}");
        }
    }

    /// Sets on both sides of 32 variables and of all sizes, with k at its edges.
    #[test]
    fn every_size_comes() {
        let random = &mut Random::new(1);
        let table = table::one_chain(random);
        let asked: HashSet<(u32, u32)> = (0..20_000)
            .map(|_| {
                let text = set_and_least(random, &table);
                let (set, least) = text.split_once(' ').unwrap();
                (set.parse::<u64>().unwrap().count_ones(), least.parse().unwrap())
            })
            .collect();
        for size in 0..=64 {
            assert!(asked.iter().any(|asked| asked.0 == size), "{size}");
        }
        for size in [0, 1, 31, 32, 33, 64] {
            assert!([0, size, size + 1, 33, 255].iter().all(|&least| asked.contains(&(size, least))), "{size}");
        }
    }
}
