//! 02, 14/14: small books by truth table.

use crate::tallies::{at_least, odd};
use crate::{expect, sized, A, AT_LEAST_TWO, FOUR, ONE};

fn small(formula: &str, proof: &str) -> String {
    let check = sized(2, formula, proof);
    check.replacen("check 2 ", "small ", 1)
}

/// Rows where the answer of the check is known from document 01 or was worked out for it.
fn rows(rows: &[(&str, &str, &str)]) -> Vec<(String, String)> {
    rows.iter().map(|(formula, proof, wanted)| (small(formula, proof), wanted.to_string())).collect()
}

#[test]
fn examples_by_truth_table() {
    let xor = "p cnf 3 4\n1 2 3 0\n1 -2 -3 0\n-1 2 -3 0\n-1 -2 3 0\n";
    expect(rows(&[
        (FOUR, A, "0 12 2 1"),
        (FOUR, "52 00 00 45", "19 0 0 0"),
        ("p cnf 2 2\n1 2 0\n-1 2 0\n", A, "19 9 1 0"),
        (ONE, "4E 01 00 00 01 00 46 01 50 02 00 45", "18 8 0 0"),
        (ONE, "4E 01 00 00 01 00 54 01 50 02 00 45", "20 11 1 0"),
        (ONE, "4E 01 00 00 01 00 52 02 00 45", "19 6 0 0"),
        ("p cnf 3 3\n2 3 0\n1 3 0\n1 2 0\n", AT_LEAST_TWO, "20 27 1 2"),
        ("p cnf 3 3\n2 3 0\n1 3 0\n1 2 0\n", &(at_least(7, 2) + "52 02 00 45"), "20 13 1 2"),
        ("p cnf 0 0\n", "52 00 00 45", "19 0 0 0"),
        (xor, &(odd(7) + "52 02 00 45"), "19 10 0 0"),
        (xor, &(odd(7) + "51 02 00 45"), "20 13 1 0"),
        (xor, &format!("44 03 00 {} 51 02 00 45", odd(7)), "19 13 0 0"),
        // x2 by (x1 xor x2) is not-x1: the line and x2 leave not-x1 and x1.
        ("p cnf 2 2\n2 0 1 0\n", &(odd(3).replace(" 01", " 00") + "52 02 00 45"), "20 13 1 0"),
        ("p cnf 6 2\n6 0 -6 0\n", "51 00 00 44 02 00 45", "0 6 1 0"),
        ("p cnf 1 1\n0\n", "52 00 00 44 00 00 44 01 00 52 00 00", "19 9 1 0"),
    ]));
}

#[test]
fn numbers_by_truth_table() {
    let six = "p cnf 6 0\n";
    let node = "4E 01 00 00 01 00";
    expect(rows(&[
        ("p cnf 7 0\n", "45", "2 0 0 0"),
        ("c\np cnf 64 1\n1 0\n", "45", "2 2 0 0"),
        ("p cnf 7 x\n", "45", "1 0 0 0"),
        ("p cnf 6 1025\n", "45", "2 0 0 0"),
        ("p cnf 6 1\n7 0\n", "45", "4 10 0 0"),
        ("p cnf 6 1\nc 7\n6 x\n", "45", "3 16 0 0"),
        ("p cnf 6 2\n6 0\n", "45", "5 14 0 0"),
        ("p cnf 6 1\n6 \n", "45", "6 10 0 0"),
        (six, "", "10 0 0 0"),
        (six, "00", "9 0 0 0"),
        (six, "45 45", "11 1 0 0"),
        (six, "45", "20 0 0 0"),
        (six, "54 07", "12 0 0 0"),
        (six, &odd(64), "12 0 0 0"),
        (six, &at_least(1 << 63, 0), "12 0 0 0"),
        (six, &(odd(63) + "52 03 00"), "13 10 0 0"),
        (six, &(odd(62) + "4E 02 02 00 00 00"), "14 10 0 0"),
        (six, &(odd(62) + "4E 01 02 00 00 00 45"), "20 16 0 0"),
        (six, "54 06 46 06", "15 2 0 0"),
        (six, "54 06 51 00 00", "16 2 0 0"),
        (six, "54 06 44 00 00", "16 2 0 0"),
        (six, "54 06 45 45", "16 2 0 0"),
        (six, "51 01 00", "17 0 0 0"),
        (six, "50 00 00", "18 0 0 0"),
        (six, &(odd(63) + "51 02 00"), "19 10 0 0"),
        (six, "44 00 00", "28 0 0 0"),
        (six, &odd(63).replace(" 01", " 02"), "29 0 0 0"),
        (six, &(node.repeat(4096) + node), "21 24576 0 0"),
        (six, &(node.repeat(4096) + "45"), "20 24576 0 0"),
        ("p cnf 6 1\n0\n", &("52 00 00".repeat(1024) + "51 00 00"), "22 3072 1024 0"),
        ("p cnf 6 1\n0\n", &("52 00 00".repeat(1024) + "45"), "0 3072 1024 0"),
    ]));
}

#[test]
fn sizes_of_the_small_method() {
    let row = |command: &str, wanted: &str| (command.to_string(), wanted.to_string());
    expect(vec![
        row("small 2047 4096 - -", "7 0 0 0"),
        row("small 2048 4095 - -", "7 0 0 0"),
        row("small 0 0 - -", "7 0 0 0"),
        row("small 2048 4096 - -", "1 0 0 0"),
        row("small 9000 9000 - -", "1 0 0 0"),
        row("small 2048 4096 -", "error: not a command"),
        row("small 2048 4096 - - -", "error: not a command"),
        row("small 2048 4096 - - !HS=2", "error: not a command"),
        row("small 2 2048 4096 - -", "error: not a command"),
        row("cons small 2048 4096 - -", "error: not a command"),
    ]);
}
