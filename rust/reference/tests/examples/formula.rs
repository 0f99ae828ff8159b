//! The formula: header, clauses, comment lines, sizes of the lent parts.

use crate::{expect, hex, rows, sized};

#[test]
fn numbers_of_the_formula() {
    expect(rows(&[
        ("p cnf 2", "", "1 0 0 0 2 2 | - | -"),
        ("p cnf 65 1", "", "2 0 0 0 2 2 | - | -"),
        ("p cnf 1 1\n-0 0", "", "3 10 0 0 2 2 | - | -"),
        ("p cnf 2 1\n3 0", "", "4 10 0 0 2 2 | - | -"),
        ("p cnf 1 2\n1 0", "", "5 13 0 0 2 3 | - | -"),
        ("p cnf 1 1\n1", "", "6 10 0 0 2 2 | - | -"),
    ]));
    expect(vec![
        (sized(1, "p cnf 1 1\n1 0\n", ""), "7 0 0 0 2 0 | - | -".into()),
        (sized(2, "p cnf 1 1\n1 0", ""), "8 10 0 0 2 2 | - | -".into()),
    ]);
}

#[test]
fn sizes_of_lent_parts() {
    let check = |sizes: &str| format!("check {sizes} {} -", hex(b"p cnf 0 0"));
    let row = |sizes: &str, wanted: &str| (check(sizes), wanted.to_string());
    expect(vec![
        row("0 2048 4096", "7 0 0 0 2 0 | - | -"),
        row("2 2048 4096", "10 0 0 0 2 2 | - | -"),
        row("65536 2048 4096", "10 0 0 0 2 2 | - | -"),
        row("65537 2048 4096", "7 0 0 0 2 0 | - | -"),
        row("70000 2048 4096", "7 0 0 0 2 0 | - | -"),
        row("4096 2047 4096", "7 0 0 0 2 0 | - | -"),
        row("4096 9000 4096", "10 0 0 0 2 2 | - | -"),
        row("4096 2048 4095", "7 0 0 0 2 0 | - | -"),
        row("4096 2048 9000", "10 0 0 0 2 2 | - | -"),
    ]);
}

#[test]
fn headers() {
    expect(rows(&[
        ("", "", "1 0"),
        ("c only\n", "", "1 7"),
        ("c only\n \t\r", "", "1 10"),
        ("c\n\n \t\r\np cnf 0 0", "", "10 0"),
        ("cnf is a comment too\np\t cnf \t0 0 \t\r\n", "", "10 0"),
        ("c\n p cnf 0 0\n", "", "1 2"),
        ("\nx\np cnf 0 0\n", "", "1 1"),
        ("pcnf 0 0\n", "", "1 0"),
        ("p cnf 0 0 0\n", "", "1 0"),
        ("p cnf 0\r0\n", "", "1 0"),
        ("p cnf\n0 0\n", "", "1 0"),
        ("p cnf 01 0\n", "", "1 0"),
        ("p cnf -1 0\n", "", "1 0"),
        ("p cnf 99999999999999999999999 -1\n", "", "1 0"),
        ("c\np cnf 99999999999999999999999 1\n", "", "2 2"),
        ("p cnf 64 1025\n", "", "2 0"),
        ("p cnf 64 1024\n", "", "5 14"),
        ("p cnf 65 x\n", "", "1 0"),
    ]));
}

#[test]
fn clauses() {
    expect(rows(&[
        ("p cnf 2 3\n1 -1 0 2 2 0 0\n", "", "10 0 0 0 3 3 | 2,0,1 | 1,2,0"),
        ("p cnf 1 1\n1\t\r\n0", "", "10 0"),
        ("p cnf 1 1\n1 0\n7 0\n", "", "5 14"),
        ("p cnf 0 0\n0", "", "5 10"),
        ("p cnf 0 0\n \n", "", "10 0"),
        ("p cnf 1 2\n1 0 1", "", "6 14"),
        ("p cnf 1 1\n1 +1 0\n", "", "3 12"),
        ("p cnf 1 1\n1 01 0\n", "", "3 12"),
        ("p cnf 1 1\n1 00\n", "", "3 12"),
        ("p cnf 1 1\n- 0\n", "", "3 10"),
        ("p cnf 1 1\n1 1- 0\n", "", "3 12"),
        ("p cnf 1 1\n-99999999999999999999999 x\n", "", "4 10"),
        ("p cnf 1 2\n \n 2 x\n", "", "4 13"),
        ("p cnf 64 1\n64 -1 0\n", "", "10 0 0 0 4 4 | 64,0,1;1,1,2 | 3"),
    ]));
    // The second clause finds all its nodes; the third does not; then the token after it is not judged.
    let formula = "p cnf 2 4\n1 2 0 2 0 -2 0 x";
    expect(vec![
        (sized(4, formula, ""), "8 20 0 0 2 4 | - | -".into()),
        (sized(5, formula, ""), "3 25 0 0 2 5 | - | -".into()),
    ]);
}

/// 02, 1/14: "a line whose first byte is `c` is now skipped anywhere in the formula".
#[test]
fn comment_lines() {
    expect(rows(&[
        ("p cnf 1 1\nc\n1 0\n", "", "10 0 0 0 3 3 | 1,0,1 | 2"),
        ("p cnf 1 1\n1 0\nc end\n", "", "10 0"),
        ("p cnf 1 1\n1 0\nc end", "", "10 0"),
        ("p cnf 1 1\n1 0\nc", "", "10 0"),
        ("p cnf 0 0\nc\nc\n\nc\n", "", "10 0 0 0 2 2 | - | -"),
        ("p cnf 2 1\n1\nc 0 x -0\r 9\n2\ncomment\n0", "", "10 0 0 0 4 4 | 2,0,1;1,2,1 | 3"),
        ("p cnf 1 2\nc\n1 0\nc 1 0\n", "", "5 22"),
        ("p cnf 1 1\nc\n1 0\nc\n\n1 0\n", "", "5 19"),
        ("p cnf 1 1\nc\n1\nc 0\n", "", "6 12"),
        ("p cnf 1 1\nc 0\n1\nc 0", "", "6 14"),
        ("p cnf 1 1\nc\n2 0\n", "", "4 12"),
        // A `c` that is not its line's first byte is a token, as is a header after the header.
        ("p cnf 1 1\n c\n1 0\n", "", "3 11"),
        ("p cnf 1 1\n\rc\n1 0\n", "", "3 11"),
        ("p cnf 1 1\n1 c\n0\n", "", "3 12"),
        ("p cnf 1 1\n1 0 c\n", "", "5 14"),
        ("p cnf 1 1\n1 0\n c\n", "", "5 15"),
        ("p cnf 1 1\nC\n1 0\n", "", "3 10"),
        ("p cnf 1 1 c\n1 0\n", "", "1 0"),
        ("p cnf 1 1\nc\np cnf 1 1\n1 0\n", "", "3 12"),
    ]));
    // 8 stands at the clause's first token, past the comment before it.
    expect(vec![(sized(2, "p cnf 1 1\nc\n1\nc\n0\n", ""), "8 12 0 0 2 2 | - | -".into())]);
}

#[test]
fn edges_of_the_formula() {
    expect(rows(&[
        (" c\np cnf 0 0\n", "", "1 0"),
        ("c\rp cnf 0 0\n", "", "1 12"),
        ("\rp cnf 0 0\n", "", "1 0"),
        ("p cnf 1 1 1 0\n", "", "1 0"),
        ("p cnf +1 0\n", "", "1 0"),
        ("p cnf 1x 0\n", "", "1 0"),
        ("p cnf 0 0\r \t\r\n", "", "10 0"),
        ("p cnf 1 1\n--1 0\n", "", "3 10"),
        ("p cnf 1 1\n1 -1 2 0\n", "", "4 15"),
        ("p cnf 1 2\n1 0\n\n", "", "5 15"),
        ("p cnf 1 1\n1 0 -0", "", "5 14"),
        ("p cnf 1 1\n1 0\x0b\n", "", "3 12"),
    ]));
}
