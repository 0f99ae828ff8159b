//! 02, 4/14: DRAT text proofs.

use crate::{expect, hex, FOUR, ONE};

pub fn drat_sized(size: u64, formula: &str, text: &str) -> String {
    format!("drat {size} 2048 4096 {} {}", hex(formula.as_bytes()), hex(text.as_bytes()))
}

fn texts(rows: &[(&str, &str, &str)]) -> Vec<(String, String)> {
    rows.iter().map(|(formula, text, wanted)| (drat_sized(4096, formula, text), wanted.to_string())).collect()
}

/// 02, 4/14: DRAT text proofs.
#[test]
fn drat_clauses_are_tried_twice() {
    let four = "8 10 | 2,0,1;1,2,1;1,1,2;2,1,0;1,5,1;1,1,5 | 3,4,6,7";
    expect(texts(&[
        (FOUR, "2 0\n0\n", &format!("0 6 2 1 {four},2,0 | 000000")),
        (FOUR, "0", "19 0 0 0 8 8"),
        ("p cnf 2 2\n1 2 0\n-1 2 0\n", "2 0\n 0\n", "19 5 1 0 5 8 | 2,0,1;1,2,1;1,1,2 | 3,4,2 | 000"),
        // RUP fails; PR by the pivot passes, unless a member asks for the opposite.
        (ONE, "1 0\n", "20 4 1 0 5 6 | 2,0,1;1,2,1;1,0,1 | 3,4 | 00"),
        ("p cnf 1 0\n", "1 0", "20 3 1 0 3 4 | 1,0,1 | 2 | 0"),
        ("p cnf 1 1\n1 0\n", "-1 0", "19 0 0 0 3 4 | 1,0,1 | 2 | 0"),
        ("p cnf 0 0\n", "0", "19 0 0 0 2 2 | - | - | -"),
        // The pivot is the first as written, and names a literal, not a place.
        ("p cnf 2 1\n-1 0\n", "1 2 0", "19 0"),
        ("p cnf 2 1\n-1 0\n", "1 2 1 0", "19 0"),
        ("p cnf 2 1\n-1 0\n", "2 1 0", "20 5 1 0"),
        ("p cnf 2 1\n-1 0\n", "2 1 2 0", "20 7 1 0"),
        ("p cnf 2 1\n1 0\n", "-2 -1 -2 0", "20 10 1 0"),
        ("p cnf 2 1\n1 0\n", "-1 -2 0", "19 0"),
        // "Every other literal of it false": -1 is true under the first witness, not under the second.
        ("p cnf 3 1\n-2 -1 0\n", "2 1 0", "20 5 1 0"),
        ("p cnf 3 1\n-2 -1 0\n", "2 3 0", "19 0"),
        // The rounds are those of the try that passes: the first takes two and fails, the second none.
        ("p cnf 4 3\n1 3 0 1 2 -3 4 0 2 0\n", "1 0", "20 3 1 0 10 12"),
    ]));
}

#[test]
fn room_for_the_two_tries() {
    // x1 takes place 8, its negation 9 and the first try's round 10. The second needs no more than 9.
    let one = "p cnf 4 2\n1 3 0 1 2 -3 4 0\n";
    // The second try takes place 11 for not-x2, which the first used for its round.
    let two = "p cnf 4 3\n1 3 0 1 2 -3 4 0 2 0\n";
    let row = |size, formula: &str, wanted: &str| (drat_sized(size, formula, " 1 0"), wanted.to_string());
    let left = "| 3,0,1;1,2,1;4,0,1;3,1,4;2,5,1;1,6,1";
    expect(vec![
        row(8, one, &format!("23 1 0 0 8 8 {left} | 3,7 | 00")),
        row(9, one, &format!("23 1 0 0 8 9 {left} | 3,7 | 00")),
        row(10, one, &format!("23 1 0 0 8 10 {left} | 3,7 | 00")),
        row(11, one, &format!("20 4 1 0 9 11 {left};1,0,1 | 3,7,8 | 000")),
        row(11, two, &format!("23 1 0 0 9 11 {left};2,0,1 | 3,7,8 | 000")),
        row(12, two, &format!("20 4 1 0 10 12 {left};2,0,1;1,0,1 | 3,7,8,9 | 0000")),
    ]);
}

#[test]
fn drat_strikings() {
    let twice = "p cnf 2 2\n1 2 0 2 1 0\n";
    let left = "4 4 | 2,0,1;1,2,1 | 3,3";
    let zero = "p cnf 1 1\n0\n";
    expect(texts(&[
        (twice, "d 2 1 2 0", &format!("20 9 0 0 {left} | 10")),
        (twice, "d 1 2 0 d 1 2 0", &format!("20 15 0 0 {left} | 11")),
        (twice, "d 1 2 0 d 1 2 0 d 1 2 0", &format!("28 16 0 0 {left} | 11")),
        // A diagram that is there but no member, one that is not there, one that is there in part.
        (twice, "d 2 0", &format!("28 0 0 0 {left} | 00")),
        (twice, " d 1 0", &format!("28 1 0 0 {left} | 00")),
        (twice, "\nd -1 2 0", &format!("28 1 0 0 {left} | 00")),
        // Diagrams are compared: any clause with both signs is 1, the empty one is 0.
        ("p cnf 2 1\n1 -1 0\n", "d 2 -2 0", "20 8 0 0 2 2 | - | 1 | 1"),
        ("p cnf 2 0\n", "d 2 -2 0", "28 0 0 0 2 2 | - | - | -"),
        (zero, "d 0", "20 3 0 0 2 2 | - | 0 | 1"),
        (zero, "d 0 0", "19 4 0 0 2 2 | - | 0 | 1"),
        (zero, "0 d 0 d 0 d 0", "28 10 1 0 2 2 | - | 0,0 | 11"),
        (zero, "0 d 0 d 0", "0 9 1 0 2 2 | - | 0,0 | 11"),
        (zero, "0 d 0 d 0 0", "19 10 1 0 2 2 | - | 0,0 | 11"),
        // An accepted clause is a member like the others.
        (zero, "1 0 d 1 0 d 1 0", "28 10 1 0 3 4 | 1,0,1 | 0,2 | 01"),
    ]));
    expect(vec![
        (drat_sized(4, twice, "d -1 -2 0"), format!("28 0 0 0 {left} | 00")),
        (drat_sized(4, twice, "d 1 2 0"), format!("20 7 0 0 {left} | 10")),
    ]);
}

#[test]
fn drat_tokens() {
    let zero = "p cnf 2 1\n0\n";
    expect(texts(&[
        (zero, "", "20 0 0 0 2 2 | - | 0 | 0"),
        (zero, " \t\r\n", "20 4"),
        (zero, "c only", "20 6"),
        (zero, "c", "20 1"),
        (zero, "c 0\n0\nc x", "0 9 1 0"),
        (zero, "cnf\n0", "0 5 1 0"),
        (zero, "1\nc 2 0\n2\r0\t", "20 12 1 0 4 6 | 2,0,1;1,2,1 | 0,3 | 00"),
        (zero, "d\nc x\n0", "20 7 0 0 2 2 | - | 0 | 1"),
        (zero, "d\r\n\t0 0", "19 6 0 0 2 2 | - | 0 | 1"),
        (zero, " c", "3 1"),
        (zero, "\rc", "3 1"),
        (zero, "0 c", "3 2 1 0"),
        (zero, "d c", "3 2"),
        (zero, "d1 0", "3 0"),
        (zero, "1 d 0", "3 2"),
        (zero, "d d 0", "3 2"),
        (zero, "d 1 d 0", "3 4"),
        (zero, "D 0", "3 0"),
        (zero, "-d 0", "3 0"),
        (zero, "d0", "3 0"),
        (zero, "1 -0", "3 2"),
        (zero, "+1 0", "3 0"),
        (zero, "01 0", "3 0"),
        (zero, "p cnf 0 0", "3 0"),
        (zero, "1 3 0", "4 2"),
        (zero, "d -3 0", "4 2"),
        (zero, "1 -1 99999999999999999999999", "4 5"),
        (zero, "1", "6 0"),
        (zero, "0 1 2", "6 2 1 0"),
        (zero, "0\n 1\nc 0", "6 3 1 0"),
        (zero, "d", "6 0"),
        (zero, "0 d ", "6 2 1 0"),
        (zero, " d\n1 2", "6 1"),
        (zero, "1 -1", "6 0"),
        (zero, "1 -1 0", "17 0"),
        (zero, "0 \n2 1 -2 0", "17 3 1 0 2 2 | - | 0,0 | 00"),
        // What follows an accepted empty clause is judged like the rest.
        (zero, "0 1 0 0", "0 7 3 0 3 4 | 1,0,1 | 0,0,2,0 | 0000"),
        (zero, "0 1 0", "0 5 2 0"),
        (zero, "0 x", "3 2 1 0 2 2 | - | 0,0 | 00"),
        // An empty clause of the formula is not one that the text reaches.
        (zero, "1 0", "20 3 1 0 3 4 | 1,0,1 | 0,2 | 00"),
        ("p cnf 1 1\n2 0", "0", "4 10 0 0 2 2 | - | - | -"),
        ("p cnf 0 0\n", "1 0", "4 0"),
    ]));
}

#[test]
fn order_of_drat_refusals() {
    let zero = "p cnf 2 1\n0\n";
    let full = "0 ".repeat(1024);
    let row = |size, text: &str, wanted: &str| (drat_sized(size, zero, text), wanted.to_string());
    let over = |text: &str, wanted: &str| row(2, &format!("{full}{text}"), wanted);
    expect(vec![
        row(2, "1 -1 0", "17 0 0 0 2 2"),
        row(2, "1 0", "23 0 0 0 2 2 | - | 0 | 0"),
        row(3, "2 1 0", "23 0 0 0 2 3 | - | 0 | 0"),
        row(3, "1 0", "23 0 0 0 2 3 | - | 0 | 0"),
        row(4, "1 0", "20 3 1 0 3 4 | 1,0,1 | 0,2 | 00"),
        over("", "0 2048 1024 0 2 2"),
        over("x", "3 2048 1024 0"),
        over("3", "4 2048 1024 0"),
        over("1", "6 2048 1024 0"),
        over("1 -1 0", "22 2048 1024 0"),
        over("1 0", "22 2048 1024 0"),
        over("0", "22 2048 1024 0"),
        // A striking is no line.
        over("d 0", "0 2051 1024 0"),
        over("d 1 0", "28 2048 1024 0"),
        // Sizes are judged as in the check of records.
        row(1, "0", "7 0 0 0 2 0 | - | - | -"),
        (drat_sized(4, zero, "0") + " !HS=9", "7 0 0 0 2 0 | - | - | -".into()),
        (drat_sized(4, zero, "0") + " !HS=8 !LS=4", "0 1 1 0".into()),
        ("drat 4 2047 4096 - -".into(), "7 0 0 0 2 0 | - | - | -".into()),
        ("drat 4 2048 4095 - -".into(), "7 0 0 0 2 0 | - | - | -".into()),
        ("drat 4 2048 4096 - -".into(), "1 0 0 0 2 2 | - | - | -".into()),
        ("drat 4 2048 4096 -".into(), "error: not a command".into()),
        (drat_sized(4, zero, "0") + " !H:0=0", "error: not a command".into()),
    ]);
}
