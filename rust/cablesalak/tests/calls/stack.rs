//! Every call fits a thread of 1.25 MiB, the report with a table of its own one of 1.375 MiB, those over a list of rows one of
//! 320 KiB more; and threads may call at the same time.

use crate::lent::Lists;
use cablesalak::{check, check_text, report, to_binary, to_text, Mode, Node, NodeNo, Table, Variables, Workspace};
use std::thread;

const FORMULA: &[u8] = b"p cnf 2 4\n1 2 0\n-1 2 0\n1 -2 0\n-1 -2 0\n";
const PROOF: &[u8] = b"\x4E\x02\0\0\x01\0\x52\x02\0\x52\0\0\x45";

/// Parity over 64 variables, the deepest diagram: its negation and a cofactor of it by itself.
fn single_calls() {
    let mut table = parity();
    let odd = NodeNo(table.count() as u16 - 1);
    let even = table.negation(odd).unwrap();
    assert_eq!(table.conjunction(odd, even), Ok(NodeNo::ZERO));
    assert_eq!(table.cofactor(odd, odd), Ok(NodeNo::ONE));
    assert_eq!(table.evaluate(even, Variables::of(&[1, 64]).unwrap()), Ok(true));
    assert_eq!(table.cofactor_literals(odd, Variables::NONE, Variables(u64::MAX)), Ok(NodeNo::ZERO));
    assert!(table.at_least(Variables(u64::MAX), 32).is_ok());
}

/// Case A's proof with its first line a thousand times: long for the program's table.
fn long_proof() -> Vec<u8> {
    let (line, last) = PROOF.split_at(9);
    [&line.repeat(1_000), last].concat()
}

/// A line of "an odd number" and "at least 32" of 64 variables, which are the deepest entries of a record.
const SETS: &[u8] = b"\x58\xFF\xFF\xFF\xFF\xFF\xFF\xFF\xFF\x01\x4B\xFF\xFF\xFF\xFF\xFF\xFF\xFF\xFF\x20\x52\x03\0\x45";

/// The check with the largest table, and with the program's: a long proof in records and as a text, and the deepest entries.
fn checks() {
    let mut workspace = Workspace::new(65_536).unwrap();
    assert_eq!(check(&mut workspace, FORMULA, PROOF).to_string(), "0 12 2 1 10");
    let mut workspace = Workspace::new(4_096).unwrap();
    assert_eq!(check(&mut workspace, FORMULA, &long_proof()).lines, 1_001);
    assert_eq!(check(&mut workspace, b"p cnf 64 1\n0\n", SETS).to_string(), "20 23 1 0 2239");
    let clauses = b"2 0 ".repeat(1_000);
    assert_eq!(check_text(&mut workspace, FORMULA, &clauses).to_string(), "20 4000 1000 0 10");
}

/// A path line of 4,096 paths, and one of 2^63.
const PATHS: &[u8] = b"\x58\xFF\x1F\0\0\0\0\0\0\x01\x51\x02\0\x58\xFF\xFF\xFF\xFF\xFF\xFF\xFF\xFF\x01\x51\x02\0";

/// The calls that take a mode, with path lines and a long binary proof, and the conversions of it.
fn modes() {
    let mut workspace = Workspace::new(4_096).unwrap();
    let mode = Mode::RECORDS.in_consequence_profile();
    assert_eq!(workspace.check(mode, b"p cnf 64 1\n0\n", PATHS).to_string(), "34 23 1 0 154");
    let binary = to_binary(&b"2 0 ".repeat(1_000)).unwrap();
    assert_eq!(to_text(&binary), Ok(b"2 0\n".repeat(1_000)));
    assert_eq!(workspace.check(Mode::BINARY, FORMULA, &binary).to_string(), "20 3000 1000 0 10");
    assert_eq!(workspace.report(Mode::BINARY, Some(FORMULA), Some(&binary)).line(), "20 3000 1000 0 10\n");
}

/// The columns are copied.
fn rows() {
    let mut lists = Lists::of_size(65_536);
    assert_eq!(lists.check_nodes(Mode::RECORDS, FORMULA, PROOF).to_string(), "0 12 2 1 10");
}

/// The report has a table of its own on the stack.
fn reports() {
    assert_eq!(report(Some(FORMULA), Some(&long_proof())).status(), 0);
}

/// Whether an odd number of variables is true, as the last node.
fn parity() -> Table {
    let mut nodes = Vec::new();
    let (mut even, mut odd) = (NodeNo::ONE, NodeNo::ZERO);
    for variable in (1..=64).rev() {
        nodes.extend([Node::new(variable, even, odd), Node::new(variable, odd, even)]);
        odd = NodeNo(nodes.len() as u16 + 1);
        even = NodeNo(odd.0 - 1);
    }
    Table::with_nodes(65_536, &nodes).unwrap()
}

#[test]
fn threads_of_that_size() {
    let run = |calls: fn(), size| thread::Builder::new().stack_size(size).spawn(calls).unwrap();
    let threads = [
        run(single_calls, 5 << 18),
        run(checks, 5 << 18),
        run(checks, 5 << 18),
        run(modes, 5 << 18),
        run(rows, (5 << 18) + (320 << 10)),
        run(reports, 11 << 17),
    ];
    assert!(threads.map(|thread| thread.join()).iter().all(Result::is_ok));
}

/// Evaluation only reads: one table may be shared.
#[test]
fn a_shared_table() {
    let table = parity();
    let odd = NodeNo(table.count() as u16 - 1);
    thread::scope(|scope| {
        for variable in 1..=4 {
            let table = &table;
            scope.spawn(move || assert_eq!(table.evaluate(odd, Variables::of(&[variable]).unwrap()), Ok(true)));
        }
    });
}
