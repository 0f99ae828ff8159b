//! Sessions of two books on one table, whose stack is measured.

use crate::workloads::{self, Workload};

/// Case A, its lines and the end.
const CASE_A: [&str; 4] = [
    "7020636e66203220340a31203220300a2d31203220300a31202d3220300a2d31202d3220300a",
    "4e0200000100520200",
    "520000",
    "45",
];

/// Sessions of both books: their names and their commands.
pub fn sessions() -> Vec<(String, Vec<String>)> {
    let mut all: Vec<(String, Vec<String>)> = [(22, 10), (130, 64), (4_200, 2_090), (65_536, 32_767)]
        .map(|(size, share)| (format!("two books, case A, {size} places"), session(size, share, &CASE_A, &CASE_A)))
        .into();
    for workload in workloads::check() {
        if let Some(calls) = calls(&workload) {
            let calls: Vec<&str> = calls.iter().map(String::as_str).collect();
            all.push((format!("two books, {}", workload.name), session(65_536, 32_767, &calls, &calls)));
        }
    }
    all
}

fn session(size: usize, share: usize, first: &[&str], second: &[&str]) -> Vec<String> {
    let mut commands = vec![format!("open {size} 2048 2048 4096 {share} {share}")];
    for (a, b) in first.iter().zip(second) {
        commands.extend([format!("book A {a}"), format!("book B {b}")]);
    }
    commands
}

/// The calls of a check in records, in hex: its formula, then its proof cut behind each line.
fn calls(workload: &Workload) -> Option<Vec<String>> {
    let words: Vec<&str> = workload.command.split(' ').collect();
    let ["check", _, _, _, formula, proof] = words[..] else { return None };
    let (mut calls, mut start, mut at) = (vec![formula.to_string()], 0, 0);
    while at < proof.len() {
        let (length, line) = match &proof[at..at + 2] {
            "4e" => (6, false),
            "58" | "4b" => (10, false),
            "54" | "46" => (2, false),
            "44" => (3, false),
            "52" | "50" | "51" => (3, true),
            _ => (1, true),
        };
        at += 2 * length;
        if line {
            calls.push(proof[start..at].to_string());
            start = at;
        }
    }
    Some(calls)
}
