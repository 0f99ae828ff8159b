//! 02, 10/14: two schemes on one table.

use crate::{expect, hex, ONE};

fn call(book: &str, proof: &str) -> String {
    let digits: String = proof.split_whitespace().collect();
    format!("book {book} {}", if digits.is_empty() { "-".into() } else { digits.to_lowercase() })
}

fn formula(book: &str, text: &str) -> String {
    format!("book {book} {}", hex(text.as_bytes()))
}

fn row(command: impl Into<String>, answer: &str) -> (String, String) {
    (command.into(), answer.into())
}

const X1: &str = "4E 01 00 00 01 00";

#[test]
fn a_node_is_charged_to_each_book_that_has_it() {
    let open = "open 20 2048 2048 4096 9 9";
    let both = "2,0,1;1,2,1";
    expect(vec![
        row(open, "35 0 0 0 0"),
        row("dump", "2 | - | - | - | - | -"),
        row(formula("A", ONE), "35 16 0 0 2"),
        row("dump", &format!("4 | {both} | 3 | 0 | - | -")),
        row(formula("B", ONE), "35 16 0 0 2"),
        row("dump", &format!("4 | {both} | 3 | 0 | 3 | 0")),
        // Example E in a call: the entry stays, not-g is dropped.
        row(call("A", &format!("{X1} 54 01 50 02 00")), "35 11 1 0 4"),
        row("dump", &format!("5 | {both};1,0,1 | 3,4 | 00 | 3 | 0")),
        // Example D: its entry is in the table, yet charged.
        row(call("B", &format!("{X1} 46 01 50 02 00")), "18 8 0 0 3"),
        row("dump", &format!("5 | {both};1,0,1 | 3,4 | 00 | 3 | 0")),
        row(call("B", "45"), "18 8 0 0 3"),
        row("book B -", "18 8 0 0 3"),
        row(call("A", "44 00 00 45"), "20 3 1 0 4"),
        row(call("A", "52 00 00"), "20 3 1 0 4"),
        row("dump", &format!("5 | {both};1,0,1 | 3,4 | 10 | 3 | 0")),
        // A new opening empties all.
        row(open, "35 0 0 0 0"),
        row("dump", "2 | - | - | - | - | -"),
        row(formula("B", ONE), "35 16 0 0 2"),
    ]);
}

#[test]
fn shares() {
    let two = "p cnf 2 2\n1 0 2 0\n";
    let none = "p cnf 1 0\n";
    expect(vec![
        row("open 6 2048 2048 4096 2 2", "35 0 0 0 0"),
        row(formula("A", two), "35 18 0 0 2"),
        // What B finds in the table is charged: not-x1 needs a third place, for which B has no share.
        row(formula("B", "p cnf 2 1\n1 0\n"), "35 14 0 0 1"),
        row(call("B", "4E 02 00 00 01 00 52 02 00"), "23 6 0 0 2"),
        row("dump", "4 | 1,0,1;2,0,1 | 2,3 | 00 | 2 | 0"),
        row(call("A", &format!("{X1} 52 02 00")), "23 6 0 0 2"),
        row("open 6 2048 2048 4096 1 0", "35 0 0 0 0"),
        row(formula("A", ONE), "8 10 0 0 1"),
        row(formula("A", none), "8 10 0 0 1"),
        row(formula("B", none), "35 10 0 0 0"),
        row(call("B", X1), "23 0 0 0 0"),
        row("dump", "2 | - | - | - | - | -"),
        row("open 2 2048 2048 4096 0 0", "35 0 0 0 0"),
        row(formula("A", "p cnf 1 1\n0\n"), "35 12 0 0 0"),
        row(call("A", "52 00 00"), "35 3 1 0 0"),
        row(call("A", "45"), "0 0 1 0 0"),
        row(call("A", "45 45"), "0 0 1 0 0"),
        row(formula("B", "p cnf 1 1\n1 0\n"), "8 10 0 0 0"),
    ]);
}

#[test]
fn openings() {
    let seven = "7 0 0 0 0";
    expect(vec![
        row("book A -", seven),
        row("book B 45", seven),
        row("dump", "2 | - | - | - | - | -"),
        row("open 1 2048 2048 4096 0 0", seven),
        row("open 65537 2048 2048 4096 0 0", seven),
        row("open 4 2047 2048 4096 9 9", seven),
        row("open 4 2048 2047 4096 9 9", seven),
        row("open 4 2048 2048 4095 9 9", seven),
        row("open 4 2048 2048 4096 2 1", "32 0 0 0 0"),
        row("open 4 2048 2048 4096 0 3", "32 0 0 0 0"),
        row("open 4 2048 2048 4096 18446744073709551615 18446744073709551615", "32 0 0 0 0"),
        row("book A -", seven),
        row("open 65536 9000 2048 9000 65534 0", "35 0 0 0 0"),
        row(formula("A", ONE), "35 16 0 0 2"),
        // A refused opening leaves what was there.
        row("open 4 2048 2048 4096 2 1", "32 0 0 0 0"),
        row("open 1 2048 2048 4096 0 0", seven),
        row("dump", "4 | 2,0,1;1,2,1 | 3 | 0 | - | -"),
        row(call("A", "45"), "20 0 0 0 2"),
        row("book B -", "1 0 0 0 0"),
    ]);
}

#[test]
fn what_names_no_book() {
    let errors = [
        "open",
        "open 4 2048 2048 4096 0",
        "open 4 2048 2048 4096 0 0 0",
        "open 4 2048 2048 4096 0 x",
        "book",
        "book A",
        "book C -",
        "book a -",
        "book AB -",
        "book A 0",
        "book A - -",
        "dump A",
        "cons book A -",
        "cons open 4 2048 2048 4096 0 0",
    ];
    expect(errors.iter().map(|&command| row(command, "error: not a command")).collect());
}

/// A call after an empty clause of two variables, and what the book shows then.
fn after_zero(proof: &str, answer: &str, shown: &str) -> Vec<(String, String)> {
    vec![
        row("open 40 2048 2048 4096 19 19", "35 0 0 0 0"),
        row(formula("A", "p cnf 2 1\n0\n"), "35 12 0 0 0"),
        row(call("A", proof), answer),
        row("dump", &format!("{shown} | - | -")),
        row(call("A", "52 00 00"), if answer.starts_with("35") { "35 3 2 0" } else { answer }),
    ]
}

#[test]
fn calls_and_their_refusals() {
    let none = "2 | - | 0 | 0";
    let rows = [
        ("52 00 00", "35 3 1 0 0", "2 | - | 0,0 | 00"),
        ("51 00 00", "35 3 1 0 0", "2 | - | 0,0 | 00"),
        ("44 00 00 44 00 00", "28 3 0 0 0", "2 | - | 0 | 1"),
        // Bytes after a line are 11, after 9 and 10 and before all else.
        ("52 00 00 45", "11 3 0 0 0", none),
        ("52 00 00 00", "11 3 0 0 0", none),
        ("54 01 52 09 00 00", "11 5 0 0 0", none),
        ("50 01 00 00", "11 3 0 0 0", none),
        ("51 09 00 51", "11 3 0 0 0", none),
        ("52 00", "10 0 0 0 0", none),
        ("4E 01 00 00 01 00 52 02 00 52", "11 9 0 0 1", none),
        ("54 01 52 09 00", "13 2 0 0 0", none),
        ("54 01 52 00 00", "16 2 0 0 0", none),
        ("52 01 00", "17 0 0 0 0", none),
        ("50 00 00", "18 0 0 0 0", none),
        ("45", "20 0 0 0 0", none),
        ("45 00", "11 1 0 0 0", none),
        ("54 01 45 00", "16 2 0 0 0", none),
        ("00", "9 0 0 0 0", none),
        // Neither a line nor the end.
        ("", "10 0 0 0 0", none),
        ("44 00 00", "10 3 0 0 0", "2 | - | 0 | 1"),
        ("4E 01 00 00 01 00", "10 6 0 0 1", none),
        ("44 00 00 52 00 00", "19 3 0 0 0", "2 | - | 0 | 1"),
        // Entries stay with the line, in the order of their making.
        ("58 03 00 00 00 00 00 00 00 01 52 00 00", "35 13 1 0 3", "5 | 2,0,1;2,1,0;1,2,3 | 0,0 | 00"),
        ("4B 03 00 00 00 00 00 00 00 02 4E 01 00 00 01 00 52 02 00", "35 19 1 0 5", "5 | 2,0,1;1,0,2;1,0,1 | 0,3 | 00"),
    ];
    for (proof, answer, shown) in rows {
        expect(after_zero(proof, answer, shown));
    }
}

#[test]
fn lines_rounds_and_limits_run_on() {
    let mut rows =
        vec![row("open 4 2048 2048 4096 0 2", "35 0 0 0 0"), row(formula("A", "p cnf 1 1\n0\n"), "35 12 0 0 0")];
    rows.extend((1..=1024).map(|lines| row(call("A", "52 00 00"), &format!("35 3 {lines} 0 0"))));
    rows.push(row(call("A", "52 00 00"), "22 0 1024 0 0"));
    rows.push(row(call("A", "45"), "22 0 1024 0 0"));
    expect(rows);
    let four = "p cnf 2 4\n1 2 0\n-1 2 0\n1 -2 0\n-1 -2 0\n";
    expect(vec![
        row("open 70 2048 2048 4096 8 60", "35 0 0 0 0"),
        row(formula("B", "p cnf 1 1\n1 0"), "35 13 0 0 1"),
        row(formula("A", four), "35 38 0 0 6"),
        row(formula("B", "p cnf 1 1\n1 0"), "9 0 0 0 1"),
        // Example A: its peak is 10, its charge 8.
        row(call("A", "4E 02 00 00 01 00 52 02 00"), "35 9 1 0 8"),
        row(call("A", "52 00 00"), "35 3 2 1 8"),
        row(call("A", "45"), "0 0 2 1 8"),
        row("dump", "9 | 1,0,1;2,0,1;1,3,1;1,1,3;2,1,0;1,6,1;1,1,6 | 4,5,7,8,3,0 | 000000 | 2 | 0"),
    ]);
}
