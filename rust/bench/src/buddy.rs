//! BuDDy beside the library: `buddy/buddy.c`, a filter that times its own operations, which `rust/run bench` builds where BuDDy is
//! installed. Each timed operation starts with empty caches, as a call of the library starts with an empty memo.

use compare::filter::Filter;
use compare::kept;
use std::collections::HashSet;
use std::path::Path;
use std::process::exit;

/// The filter, where it was built; else a line says that it was not.
pub fn start(program: &str) -> Option<Filter> {
    if Path::new(program).exists() {
        return Some(Filter::start(program));
    }
    println!("bench: no column of BuDDy, whose bdd.h and -lbdd were not found (Debian: libbdd-dev)");
    None
}

/// BuDDy's microseconds for a command, where it has the operation. Its result has to have as many nodes as the library's.
pub fn time(filter: &mut Filter, name: &str, command: &str, answer: &str) -> Option<f64> {
    let said = super::answer(filter, command);
    if said == "-" {
        return None;
    }
    let (time, counted) = said.split_once(' ').unwrap_or((&said, "no"));
    if counted.parse().ok() != nodes(answer) {
        println!("bench: BuDDy's result of {name} has {counted} nodes: {:.300}", answer);
        exit(1);
    }
    time.parse().ok()
}

/// How many nodes the diagram has that an answer `NUMBER NODE COUNT | NODES` tells.
fn nodes(answer: &str) -> Option<usize> {
    let (numbers, listed) = answer.split_once(" | ")?;
    let nodes = kept::nodes(listed)?;
    let mut left: Vec<u16> = vec![numbers.split(' ').nth(1)?.parse().ok()?];
    let mut reached = HashSet::new();
    while let Some(node) = left.pop() {
        if node > 1 && reached.insert(node) {
            let (_, low, high) = nodes.get(usize::from(node) - 2)?;
            left.extend([low, high]);
        }
    }
    Some(reached.len())
}
