//! 02, 9/14: binary DRAT, and conversions from text and back.

use crate::{expect, hex, FOUR, ONE};

fn squeezed(bytes: &str) -> String {
    let digits: String = bytes.split_whitespace().collect();
    if digits.is_empty() {
        return "-".into();
    }
    digits.to_lowercase()
}

fn dratb_sized(size: u64, formula: &str, proof: &str) -> String {
    format!("dratb {size} 2048 4096 {} {}", hex(formula.as_bytes()), squeezed(proof))
}

fn rows(rows: &[(&str, &str, &str)]) -> Vec<(String, String)> {
    rows.iter().map(|(formula, proof, wanted)| (dratb_sized(4096, formula, proof), wanted.to_string())).collect()
}

#[test]
fn clauses_are_judged_as_in_text() {
    let four = "8 10 | 2,0,1;1,2,1;1,1,2;2,1,0;1,5,1;1,1,5 | 3,4,6,7";
    expect(rows(&[
        (FOUR, "61 04 00 61 00", &format!("0 5 2 1 {four},2,0 | 000000")),
        (FOUR, "61 00", "19 0 0 0 8 8"),
        ("p cnf 2 2\n1 2 0\n-1 2 0\n", "61 04 00 61 00", "19 3 1 0 5 8 | 2,0,1;1,2,1;1,1,2 | 3,4,2 | 000"),
        (ONE, "61 02 00", "20 3 1 0 5 6 | 2,0,1;1,2,1;1,0,1 | 3,4 | 00"),
        (ONE, "", "20 0 0 0 4 4 | 2,0,1;1,2,1 | 3 | 0"),
        // The pivot is the first literal as written.
        ("p cnf 2 1\n-1 0\n", "61 02 04 00", "19 0"),
        ("p cnf 2 1\n-1 0\n", "61 04 02 00", "20 4 1 0"),
        ("p cnf 2 1\n-1 0\n", "61 04 02 04 00", "20 5 1 0"),
        (ONE, "64 04 02 04 00", "20 5 0 0 4 4 | 2,0,1;1,2,1 | 3 | 1"),
        (ONE, "64 02 04 00 64 02 04 00", "28 4 0 0 4 4 | 2,0,1;1,2,1 | 3 | 1"),
        (ONE, "64 04 00", "28 0"),
        (ONE, "61 02 03 00", "17 0"),
        ("p cnf 64 1\n-64 0\n", "64 81 01 00", "20 4 0 0 3 3 | 64,1,0 | 2 | 1"),
        ("p cnf 64 1\n64 0\n", "64 80 01 00", "20 4 0 0 3 3 | 64,0,1 | 2 | 1"),
        ("p cnf 1 1\n0\n", "61 00 64 00 64 00 61 00", "19 6 1 0 2 2 | - | 0,0 | 11"),
    ]));
    let full = "61 00".repeat(1024);
    expect(vec![
        (dratb_sized(2, "p cnf 1 1\n0\n", &full), "0 2048 1024 0".into()),
        (dratb_sized(2, "p cnf 1 1\n0\n", &(full.clone() + "61 02 03 00")), "22 2048 1024 0".into()),
        (dratb_sized(2, "p cnf 1 1\n0\n", &(full + "61 04 00")), "4 2049 1024 0".into()),
        (dratb_sized(2, "p cnf 1 1\n0\n", "61 00 61 02 00"), "23 2 1 0 2 2 | - | 0,0 | 00".into()),
        (dratb_sized(1, ONE, "61 00"), "7 0 0 0 2 0 | - | - | -".into()),
        (dratb_sized(4, ONE, "61 02 04 00") + " !HS=7", "7 0".into()),
        (dratb_sized(4096, ONE, "61") + " x", "error: not a command".into()),
        (format!("cons {}", dratb_sized(4096, ONE, "61 02 00")), "19 0 0 0 4 6 | 2,0,1;1,2,1 | 3 | 0".into()),
        (format!("cons {}", dratb_sized(4096, FOUR, "61 04 00 61 00")), "0 5 2 1 8 10".into()),
    ]);
}

/// Each in a check of two variables and in a conversion: number and place are the same.
fn refused_bytes(rows: &[(&str, &str)]) {
    for (bytes, wanted) in rows {
        let lines = bytes.starts_with("61 00") as u32;
        expect(vec![
            (dratb_sized(4096, "p cnf 2 1\n0\n", bytes), format!("{wanted} {lines} 0")),
            (format!("totext 3 {}", squeezed(bytes)), format!("{wanted} 0 | 000000")),
        ]);
    }
}

#[test]
fn refusals_of_bytes() {
    let endless = format!("61 {} 01 00", "FF".repeat(200));
    let zeros = format!("61 {} 01 00", "80".repeat(200));
    let surplus = format!("61 {} 00 00", "FF".repeat(200));
    refused_bytes(&[
        ("00", "9 0"),
        ("62", "9 0"),
        ("41", "9 0"),
        ("61 00 00", "9 2"),
        ("61 00 0A", "9 2"),
        ("61", "6 0"),
        ("61 02", "6 0"),
        ("61 81", "6 0"),
        ("61 02 80", "6 0"),
        ("61 00 64 02 81", "6 2"),
        ("61 01", "31 1"),
        ("61 02 01 00", "31 2"),
        ("61 80 00", "31 1"),
        ("61 81 00", "31 1"),
        ("61 82 00", "31 1"),
        ("61 82 80 00", "31 1"),
        ("61 82 80", "6 0"),
        (&endless, "4 1"),
        (&zeros, "4 1"),
        (&surplus, "31 1"),
        ("61 82 01", "4 1"),
        ("61 83 01", "4 1"),
        ("64 02 82 01", "4 2"),
    ]);
    // The check knows the header, a conversion only the limit of 64.
    let zero = "p cnf 2 1\n0\n";
    expect(rows(&[
        (zero, "61 04 06 00", "4 2"),
        (zero, "61 07", "4 1"),
        ("p cnf 64 1\n0\n", "61 81 01 02 00", "20 5 1 0"),
    ]));
}

fn to_binary(size: u64, text: &str) -> String {
    format!("tobin {size} {}", hex(text.as_bytes()))
}

#[test]
fn text_to_binary() {
    let row = |size, text: &str, wanted: &str| (to_binary(size, text), wanted.to_string());
    expect(vec![
        row(10, "1 -2 0\nd 64 -64 0\n", "0 0 10 | 61020500648001810100"),
        row(12, "1 -2 0\nd 64 -64 0\n", "0 0 10 | 610205006480018101000000"),
        row(9, "1 -2 0\nd 64 -64 0\n", "7 0 0 | 000000000000000000"),
        row(4, "63 -63 0", "0 0 4 | 617e7f00"),
        row(0, "", "0 0 0 | -"),
        row(3, "", "0 0 0 | 000000"),
        row(3, " c x\nc", "3 1 0 | 000000"),
        row(2, "c x\n\t0\r\nc", "0 0 2 | 6100"),
        row(0, "0", "7 0 0 | -"),
        row(5, "1 -1 1 0", "0 0 5 | 6102030200"),
        row(8, "d\nc 0\n0 d 1\n-1 0", "0 0 6 | 6400640203000000"),
        // All else comes before 7.
        row(0, "0 x", "3 2 0 | -"),
        row(1, "1 65 0", "4 2 0 | 00"),
        row(1, "d -65 0", "4 2 0 | 00"),
        row(1, "99999999999999999999999", "4 0 0 | 00"),
        row(1, "-0 0", "3 0 0 | 00"),
        row(1, "1 d 0", "3 2 0 | 00"),
        row(1, "d1 0", "3 0 0 | 00"),
        row(1, "0 1", "6 2 0 | 00"),
        row(1, "0 d", "6 2 0 | 00"),
        row(1, "0\n d 1", "6 3 0 | 00"),
    ]);
}

#[test]
fn binary_to_text() {
    let row = |size, bytes: &str, wanted: String| (format!("totext {size} {}", squeezed(bytes)), wanted);
    let text = hex(b"1 -2 0\nd 64 -64 0\n0\nd 0\n");
    let error = "error: not a command".to_string();
    expect(vec![
        row(24, "61 02 05 00 64 80 01 81 01 00 61 00 64 00", format!("0 0 24 | {text}")),
        row(26, "61 02 05 00 64 80 01 81 01 00 61 00 64 00", format!("0 0 24 | {text}0000")),
        row(23, "61 02 05 00 64 80 01 81 01 00 61 00 64 00", format!("7 0 0 | {}", "00".repeat(23))),
        row(0, "", "0 0 0 | -".into()),
        row(2, "", "0 0 0 | 0000".into()),
        row(0, "61 01", "31 1 0 | -".into()),
        row(9, "61 02 03 02 00", format!("0 0 9 | {}", hex(b"1 -1 1 0\n"))),
        ("tobin 4".into(), error.clone()),
        ("tobin 4 0".into(), error.clone()),
        ("tobin x -".into(), error.clone()),
        ("tobin 4 - -".into(), error.clone()),
        ("totext 4 6100 !HS=3".into(), error.clone()),
        ("cons tobin 4 -".into(), error.clone()),
        ("tobin 16777217 -".into(), error),
    ]);
}
