//! 02, 8/14: why this line.

use crate::paths::XOR;
use crate::tallies::odd;
use crate::{expect, hex, sized, FOUR, ONE};

/// `why` of a check that is asked with another command.
fn why(form: &str, check: String) -> String {
    let (_, words) = check.split_once(' ').unwrap();
    format!("why {form} {words}")
}

fn rows(rows: &[(&str, &str, &str)]) -> Vec<(String, String)> {
    rows.iter().map(|(formula, proof, wanted)| (why("r", sized(4096, formula, proof)), wanted.to_string())).collect()
}

fn texts(rows: &[(&str, &str, &str)]) -> Vec<(String, String)> {
    let line = |formula: &str, text: &str| {
        format!("why t 4096 2048 4096 {} {}", hex(formula.as_bytes()), hex(text.as_bytes()))
    };
    rows.iter().map(|(formula, text, wanted)| (line(formula, text), wanted.to_string())).collect()
}

fn binaries(rows: &[(&str, &str, &str)]) -> Vec<(String, String)> {
    rows.iter().map(|(formula, proof, wanted)| (why("b", sized(4096, formula, proof)), wanted.to_string())).collect()
}

#[test]
fn pieces_of_the_formula() {
    expect(rows(&[
        ("", "", "1 | f 0 0 | -"),
        ("c only\n", "", "1 | f 7 0 | -"),
        ("c\np cnf 2\r\n1 0\n", "", "1 | f 2 8 | -"),
        ("p cnf 2", "", "1 | f 0 7 | -"),
        ("c\np cnf 65 1 \r\n", "", "2 | f 2 12 | -"),
        ("p cnf 1 1\n1 -0\t0", "", "3 | f 12 2 | -"),
        ("p cnf 2 1\n-33\r0", "", "4 | f 10 3 | -"),
        ("p cnf 1 1\n1 0 xyz 0", "", "5 | f 14 3 | -"),
        ("p cnf 1 1\n1 0 x", "", "5 | f 14 1 | -"),
        ("p cnf 1 2\n1 0", "", "5 | f 13 0 | -"),
        ("p cnf 11 1\n-11 2", "", "6 | f 11 3 | -"),
    ]));
    expect(vec![
        (why("r", sized(1, ONE, "45")), "7 | f 0 0 | -".into()),
        (why("t", sized(1, ONE, "")), "7 | f 0 0 | -".into()),
        (why("r", sized(2, "p cnf 12 1\n-12 1 0", "45")), "8 | f 11 3 | -".into()),
        (why("b", sized(2, "p cnf 12 1\n-12 1 0", "")), "8 | f 11 3 | -".into()),
    ]);
}

#[test]
fn pieces_of_records() {
    let zero = "p cnf 2 1\n0\n";
    expect(rows(&[
        (zero, "", "10 | p 0 0 | -"),
        (zero, "52 00 00", "10 | p 3 0 | -"),
        (zero, "52 00 00 4E 01 00", "10 | p 3 3 | -"),
        (zero, "00 01 02", "9 | p 0 1 | -"),
        (zero, "52 00 00 00", "9 | p 3 1 | -"),
        (zero, "45 52 00 00", "11 | p 1 1 | -"),
        (zero, "52 00 00 45", "30 | f 0 0 | -"),
        (zero, "45", "20 | p 0 1 | -"),
        (zero, "54 00 45", "12 | p 0 2 | -"),
        (zero, &odd(4), "12 | p 0 10 | -"),
        (zero, "4E 03 00 00 01 00 45", "12 | p 0 6 | -"),
        (zero, "52 02 00 45", "13 | p 0 3 | -"),
        (zero, "46 01 54 01 45", "15 | p 2 2 | -"),
        (zero, "46 01 45", "16 | p 2 1 | -"),
        (zero, "46 01 44 00 00", "16 | p 2 3 | -"),
        (zero, "46 01 51 00 00", "16 | p 2 3 | -"),
        (zero, "52 01 00 45", "17 | p 0 3 | -"),
        (zero, "44 01 00 45", "28 | p 0 3 | -"),
        (zero, &odd(3).replace(" 01", " 02"), "29 | p 0 10 | -"),
        ("p cnf 14 0\n", &(odd(0x3FFF) + "51 02 00 45"), "34 | p 10 3 | -"),
    ]));
    let full = why("r", sized(2, zero, "4E 01 00 00 01 00 45"));
    let cons = format!("cons {}", why("r", sized(2, zero, "50 00 00 45")));
    let over = why("r", sized(2, zero, &("52 00 00".repeat(1024) + "52 00 00 45")));
    expect(vec![(full, "23 | p 0 6 | -".into()), (cons, "33 | p 0 3 | -".into()), (over, "22 | p 3072 3 | -".into())]);
}

#[test]
fn causes_of_14_and_18() {
    let none = "p cnf 4 0\n";
    let (x2, x3) = ("4E 02 00 00 01 00", "4E 03 00 00 01 00");
    expect(rows(&[
        (none, &format!("{x2} 4E 02 00 00 02 00"), "14 | p 6 6 | 2,2"),
        (none, &format!("{x2} 4E 04 02 00 00 00"), "14 | p 6 6 | 4,2"),
        (none, &format!("{x2} {x3} 4E 04 03 00 02 00"), "14 | p 12 6 | 4,3"),
        (none, &format!("{x2} {x3} 4E 04 02 00 03 00"), "14 | p 12 6 | 4,2"),
        (none, &format!("{x2} {x3} 4E 03 01 00 02 00"), "14 | p 12 6 | 3,2"),
        // The low child does not offend: its variable is 4.
        (none, &format!("4E 04 00 00 01 00 {x2} 4E 03 02 00 03 00"), "14 | p 12 6 | 3,2"),
        // A node record that gives its child: the diagram's variable is told.
        (none, &format!("{x3} 4E 01 02 00 02 00 4E 04 03 00 00 00"), "14 | p 12 6 | 4,3"),
        // Example D: the witness itself. Line 0 with a witness; without one.
        (ONE, "4E 01 00 00 01 00 46 01 50 02 00 45", "18 | p 8 3 | 0"),
        (none, "54 02 54 04 46 01 50 00 00", "18 | p 6 3 | 10"),
        (none, "50 00 00", "18 | p 0 3 | 0"),
        // Odd over 1 to 4 with 2 true: 2 and the last one, 4.
        (none, &format!("54 02 {} 50 02 00", odd(15)), "18 | p 12 3 | 10"),
        (none, &format!("46 02 {} 50 02 00", odd(15)), "18 | p 12 3 | 0"),
        (none, &format!("54 02 46 04 {} 50 02 00", odd(15)), "18 | p 14 3 | 6"),
        // not-x2 is false only where 2 is true.
        (none, "4E 02 01 00 00 00 54 03 50 02 00", "18 | p 8 3 | 6"),
        ("p cnf 64 0\n", &(odd(1 << 63) + "54 01 50 02 00"), "18 | p 12 3 | 1"),
    ]));
    let not_64 = "4E 40 01 00 00 00 50 02 00";
    expect(rows(&[("p cnf 64 0\n", not_64, "18 | p 6 3 | 9223372036854775808")]));
}

#[test]
fn causes_of_19() {
    let x1 = "4E 01 00 00 01 00";
    expect(rows(&[
        (FOUR, "52 00 00 45", "19 | p 0 3 | -"),
        (ONE, &format!("{x1} 52 02 00 45"), "19 | p 6 3 | 2"),
        ("p cnf 0 0\n", "52 00 00 45", "19 | p 0 3 | -"),
        // Round by round, by variable; not-g's own literals are none of them.
        ("p cnf 4 3\n-1 0 1 -3 0 1 3 -2 0\n", "52 00 00", "19 | p 0 3 | -1;-3;-2"),
        ("p cnf 4 3\n-1 0 1 -3 0 1 3 -2 0\n", "4E 04 00 00 01 00 52 02 00", "19 | p 6 3 | -1;-3;-2"),
        // not-g (3 and not-4) makes of the first clause the unit 1, and of the second the unit not-2.
        ("p cnf 4 2\n1 -3 0 -2 4 0\n", "4E 04 00 00 01 00 4E 03 01 00 02 00 52 03 00", "19 | p 12 3 | 1;-2"),
        // A line of two literals gives them in one round.
        ("p cnf 3 1\n0\n", "4E 03 01 00 00 00 4E 01 00 00 02 00 52 03 00 44 00 00 52 00 00", "19 | p 18 3 | 1,-3"),
        // A PR line: the member and its turn's propagation; struck ones are counted in its number.
        ("p cnf 2 2\n1 0 2 0\n", "4E 01 01 00 00 00 46 01 50 02 00", "19 | p 8 3 | 2 m0"),
        ("p cnf 2 3\n2 0 2 0 1 0\n", "4E 01 01 00 00 00 46 01 50 02 00", "19 | p 8 3 | 2 m2"),
        ("p cnf 2 3\n2 0 2 0 1 0\n", "44 00 00 4E 01 01 00 00 00 46 01 50 02 00", "19 | p 11 3 | 2 m2"),
        ("p cnf 1 1\n1 0\n", "4E 01 01 00 00 00 46 01 50 02 00", "19 | p 8 3 | - m0"),
        // A path line: the propagation of the path that failed.
        (XOR, &format!("44 00 00 {} 51 02 00", odd(7)), "19 | p 13 3 | -"),
        ("p cnf 3 2\n1 2 0 -1 3 0\n", "4E 01 00 00 01 00 51 02 00", "19 | p 6 3 | 2"),
        ("p cnf 3 2\n1 2 0 -1 3 0\n", "4E 01 01 00 00 00 51 02 00", "19 | p 6 3 | 3"),
        ("p cnf 3 3\n1 2 0 1 -2 0 -1 3 0\n", "4E 02 00 00 01 00 4E 01 02 00 00 00 51 03 00", "19 | p 12 3 | 3"),
        ("p cnf 2 1\n-2 0\n", "51 00 00", "19 | p 0 3 | -2"),
    ]));
}

#[test]
fn pieces_and_causes_of_drat_texts() {
    let zero = "p cnf 2 1\n0\n";
    expect(texts(&[
        (zero, "", "20 | p 0 0 | -"),
        (zero, " c\n", "3 | p 1 1 | -"),
        (zero, "1 x2 0", "3 | p 2 2 | -"),
        (zero, "1 -33\r0", "4 | p 2 3 | -"),
        (zero, "0 1 2 \n", "6 | p 2 5 | -"),
        (zero, "0 d\nc x\n", "6 | p 2 6 | -"),
        (zero, "0", "30 | f 0 0 | -"),
        (zero, "0 1 -1\nc 0\n0 0", "17 | p 2 10 | -"),
        (zero, "\n\td 1\n0 0", "28 | p 2 5 | -"),
        (zero, "d 0 0 0", "19 | p 4 1 | -"),
        ("p cnf 0 0\n", "c\n0", "19 | p 2 1 | -"),
        // Refused in the second try: that try's member and propagation.
        ("p cnf 1 1\n1 0\n", "-1 0 x", "19 | p 0 4 | - m0"),
        ("p cnf 3 3\n3 0 -1 2 0 -1 -2 0\n", "1 2 0", "19 | p 0 5 | 3 m1"),
        // The empty clause has the first try alone.
        ("p cnf 2 2\n2 0 1 -2 0\n", "0", "19 | p 0 1 | 2;1"),
        (FOUR, "x", "3 | p 0 1 | -"),
    ]));
    let cons: Vec<(String, String)> = texts(&[
        ("p cnf 1 1\n1 0\n", "-1 0 x", "19 | p 0 4 | -"),
        ("p cnf 3 3\n3 0 -1 2 0 -1 -2 0\n", "1 2 0", "19 | p 0 5 | 3"),
        (ONE, "1 0\n", "19 | p 0 3 | 2"),
    ]);
    expect(cons.into_iter().map(|(command, wanted)| (format!("cons {command}"), wanted)).collect());
}

#[test]
fn pieces_and_causes_of_binary_drat() {
    let zero = "p cnf 2 1\n0\n";
    expect(binaries(&[
        (zero, "", "20 | p 0 0 | -"),
        (zero, "61 00 64 00", "30 | f 0 0 | -"),
        (zero, "61 00 00", "9 | p 2 1 | -"),
        (zero, "62", "9 | p 0 1 | -"),
        (zero, "61 00 61 02 80", "6 | p 2 3 | -"),
        (zero, "64", "6 | p 0 1 | -"),
        (zero, "61 02 01 00", "31 | p 2 1 | -"),
        (zero, "61 80 80 00 00", "31 | p 1 3 | -"),
        (zero, "61 06", "4 | p 1 1 | -"),
        (zero, "61 FF FF 01 00", "4 | p 1 3 | -"),
        (zero, "61 02 03 00 61", "17 | p 0 4 | -"),
        (zero, "64 02 00 61", "28 | p 0 3 | -"),
        ("p cnf 64 1\n64 0\n", "61 81 01 00 61", "19 | p 0 4 | - m0"),
        ("p cnf 3 3\n3 0 -1 2 0 -1 -2 0\n", "61 02 04 00", "19 | p 0 4 | 3 m1"),
        ("p cnf 2 2\n2 0 1 -2 0\n", "61 00", "19 | p 0 2 | 2;1"),
    ]));
}

#[test]
fn what_why_names() {
    let error = |command: &str| (command.to_string(), "error: not a command".to_string());
    let ended = sized(4, ONE, "45");
    expect(vec![
        error("why"),
        error("why r"),
        error("why x 4 2048 4096 - -"),
        error("why 4 2048 4096 - -"),
        error("why rr 4 2048 4096 - -"),
        error("why r 4 2048 4096 -"),
        ("why r 4 2048 4096 - -".into(), "1 | f 0 0 | -".into()),
        ("why r 4 2047 4096 - -".into(), "7 | f 0 0 | -".into()),
        (why("r", ended.clone()) + " !LS=5", "7 | f 0 0 | -".into()),
        (why("r", ended) + " !LS=4 !HS=8", "20 | p 0 1 | -".into()),
    ]);
}
