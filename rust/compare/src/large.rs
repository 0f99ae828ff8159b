//! Large proofs: at the limits of entries, lines and clauses, and with sets of up to 64 variables.

use crate::check::command;
use crate::formula::Formula;
use crate::proof::Writer;
use crate::random::Random;
use crate::table;
use crate::tally::{self, Tally};

/// The limits: 4,096 entries, 1,024 lines, 1,024 clauses, a full member list.
pub fn limits(random: &mut Random) -> Vec<String> {
    let mut formula = Formula { variables: 64, clauses: vec![vec![1, 2], vec![-1, 3], vec![2, -3], vec![-2]] };
    if random.percent(20) {
        let clauses = random.pick(&[1023, 1024, 1025]);
        formula.clauses = formula.clauses.iter().cycle().take(clauses).cloned().collect();
    }
    let mut writer = Writer::default();
    match random.below(7) {
        0 | 1 => same_entries(random, &mut writer),
        2 => entries(random, &mut writer),
        3 | 4 => {
            formula.variables = random.between(6, 63);
            mixed_entries(random, &mut writer);
        }
        _ => lines(random, &mut writer, formula.clauses.len()),
    }
    writer.line(0x52, 0);
    writer.end();
    let size = random.pick(&[4096, 65_536]);
    vec![command(random, size, &formula.text(), &writer.bytes)]
}

/// About 4,096 records of three nodes.
fn same_entries(random: &mut Random, writer: &mut Writer) {
    let records = random.pick(&[4095, 4096, 4097, 4097, 4098]);
    for at in 0..records {
        let level = at * 3 / records;
        writer.node([3, 2, 1][level], 0, if level > 0 { 2 } else { 1 });
    }
    writer.line(0x52, random.pick(&[2, 4096, 4097, 4098]));
}

/// About 4,096 entries of all kinds over few variables; the last of them may be at fault, which 21 comes before.
fn mixed_entries(random: &mut Random, writer: &mut Writer) {
    let records = random.pick(&[4095, 4096, 4097, 4097, 4098]);
    for _ in 1..records {
        if random.percent(30) {
            let (low, high) = (random.below(2) as u16, random.below(2) as u16);
            writer.node(random.between(1, 6) as u8, low, high);
        } else {
            let (set, tally) = tally::asked(random, 6);
            writer.tally(set, tally);
        }
    }
    match random.below(4) {
        0 => writer.set(0x58, 3, 2),
        1 => writer.set(0x58, u64::MAX, 1),
        2 => writer.set(0x4b, u64::MAX, 255),
        _ => writer.set(random.pick(&[0x58, 0x4b]), 5, 1),
    };
    writer.line(0x52, random.pick(&[2, 4096, 4097, 4098]));
}

/// A line of many different nodes, whose entry numbers are those of the store that they are taken from.
fn entries(random: &mut Random, writer: &mut Writer) {
    let many = random.pick(&[100, 1000, 4095, 4096, 4097, 4098]);
    let variables: Vec<u8> = (1..=64).collect();
    let store = table::store(random, &variables, many + 2);
    for (variable, low, high) in store.nodes.iter().skip(2).take(many) {
        writer.node(*variable, *low as u16, *high as u16);
    }
    writer.line(random.pick(&[0x52, 0x50, 0x51]), random.between(2, many + 1) as u16);
}

/// About 1,024 lines that repeat a member. Some strike out the line before each time, some the last of all members.
fn lines(random: &mut Random, writer: &mut Writer, clauses: usize) {
    let lines = random.pick(&[1023, 1024, 1025, 1026]);
    let striking = random.percent(50);
    for line in 0..lines {
        let root = writer.node(2, 1, 0);
        writer.line(random.pick(&[0x52, 0x52, 0x51]), root);
        if striking && line > 0 {
            writer.strike(clauses + line - 1);
        }
    }
    if random.percent(50) {
        writer.strike(clauses + lines - random.below(2));
    }
}

/// Sets of up to 64 variables in tables that are just large enough or fill at one of their nodes.
pub fn sets(random: &mut Random) -> Vec<String> {
    if random.percent(30) {
        full_at_fault(random)
    } else {
        wide_sets(random)
    }
}

/// Lines of few entries. The clause 0 lets every line pass that is not 1.
fn wide_sets(random: &mut Random) -> Vec<String> {
    let variables = random.pick(&[64, 64, 63, 33, 32]);
    let formula = Formula { variables, clauses: vec![vec![]] };
    let mut writer = Writer::default();
    for _ in 0..random.between(1, 3) {
        for _ in 0..random.below(3) {
            let (set, tally) = tally::asked(random, variables);
            writer.tally(set, tally);
        }
        let (set, tally) = tally::asked(random, variables);
        let root = writer.tally(set, tally);
        writer.line(0x52, root);
    }
    writer.end();
    let text = formula.text();
    let first = random.pick(&[2, 20, 100, 130, 500, 1_000, 4_096]) + random.below(100);
    (0..random.between(1, 4)).map(|more| command(random, first + more, &text, &writer.bytes)).collect()
}

/// A parity of all variables, with two nodes a variable but for the first, leaves no place or few; then comes a record at fault, which
/// 12 and 29 refuse before 23 does.
fn full_at_fault(random: &mut Random) -> Vec<String> {
    let variables = random.between(2, 63);
    let all = u64::MAX >> (64 - variables);
    let formula = Formula { variables, clauses: Vec::new() };
    let mut writer = Writer::default();
    writer.tally(all, Tally::Parity(random.percent(50)));
    match random.below(4) {
        0 => writer.set(0x58, all >> 1, 2),
        1 => writer.set(0x58, all << 1, 1),
        2 => writer.set(0x4b, all << 1, 2),
        _ => writer.set(0x4b, all, 1),
    };
    let text = formula.text();
    let full = 2 + 2 * variables - 1;
    (full - 1..full + 3).map(|size| command(random, size, &text, &writer.bytes)).collect()
}
