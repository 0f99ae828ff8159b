//! 02, 12/14: path lines.

use crate::tallies::odd;
use crate::{check, expect, rows, sized, FOUR};

pub const XOR: &str = "p cnf 3 4\n1 2 3 0\n1 -2 -3 0\n-1 2 -3 0\n-1 -2 3 0\n";

#[test]
fn a_parity_line_from_plain_clauses() {
    let two = "2,0,1;1,2,1;2,1,0;1,1,4;1,2,4";
    let three = "3,0,1;2,2,1;1,3,1;3,1,0;2,1,5;1,6,1;2,5,1;1,1,8;2,1,2;1,1,10;2,2,5;2,5,2;1,12,13";
    expect(vec![
        (
            check("p cnf 2 2\n1 2 0 -1 -2 0\n", &(odd(3) + "51 02 00 45")),
            format!("20 13 1 0 7 7 | {two} | 3,5,6 | 000"),
        ),
        // Over three variables it fails as RUP: by not-g all four clauses of two variables are left.
        (check(XOR, &(odd(7) + "52 02 00 45")), "19 10 0 0 12".into()),
        (check(XOR, &(odd(7) + "51 02 00 45")), format!("20 13 1 0 15 15 | {three} | 4,7,9,11,14 | 00000")),
        // Each clause is the only one for its path.
        (check(XOR, &format!("44 00 00 {} 51 02 00", odd(7))), "19 13 0 0 12".into()),
        (check(XOR, &format!("44 03 00 {} 51 02 00", odd(7))), "19 13 0 0 12".into()),
    ]);
}

/// The first path is -2, with a round; the second 2, -4, with none. Each makes two nodes.
const ROOM: &str = "p cnf 4 5\n1 2 3 0 -1 2 0 2 -3 0 1 4 0 -1 4 0\n";

#[test]
fn rounds_are_summed_and_nodes_dropped_between_paths() {
    let both = "4E 04 00 00 01 00 4E 02 00 00 02 00 51 03 00 45";
    let kept = "3,0,1;2,2,1;1,3,1;2,0,1;1,1,5;3,1,0;2,7,1;4,0,1;1,9,1;1,1,9";
    let accepted = format!("20 15 1 1 13 15 | {kept};2,0,9 | 4,6,8,10,11,12 | 000000");
    let refused = |size| format!("23 12 0 0 12 {size} | {kept} | 4,6,8,10,11 | 00000");
    expect(vec![
        (check(ROOM, both), accepted.clone()),
        (sized(15, ROOM, both), accepted),
        (sized(14, ROOM, both), refused(14)),
        (sized(13, ROOM, both), refused(13)),
        // Without the last clause the second path fails, and the rounds of the first are lost.
        (check(ROOM, &format!("44 04 00 {both}")), "19 15 0 0 12 15".into()),
    ]);
    // Two rounds, one a path: 1 is false; 1 is true and 5 is false.
    let twice = "p cnf 5 6\n1 2 0 1 -2 3 0 1 -2 -3 0 5 2 0 5 -2 3 0 5 -2 -3 0\n";
    expect(rows(&[(twice, "4E 05 00 00 01 00 4E 01 00 00 02 00 51 03 00 45", "20 15 1 2")]));
}

#[test]
fn no_negation_is_made() {
    let formula = "p cnf 3 3\n1 2 0 1 -2 3 0 1 -2 -3 0\n";
    let line = |kind: &str| format!("4E 01 00 00 01 00 {kind} 02 00 45");
    expect(vec![
        (sized(11, formula, &line("51")), "20 9 1 1 11 11".into()),
        (sized(11, formula, &line("52")), "23 6 0 0 10 11".into()),
        (sized(12, formula, &line("52")), "20 9 1 1 11 12".into()),
    ]);
}

#[test]
fn the_line_0_has_one_path() {
    expect(rows(&[
        ("p cnf 1 2\n1 0 -1 0\n", "51 00 00 45", "0 3 1 0 4 4 | 1,0,1;1,1,0 | 2,3,0 | 000"),
        ("p cnf 1 2\n1 0 -1 0\n", "44 00 00 51 00 00 45", "19 3 0 0 4 4 | 1,0,1;1,1,0 | 2,3 | 10"),
        ("p cnf 2 3\n1 0 -1 2 0 -1 -2 0\n", "51 00 00 45", "0 3 1 1"),
        (FOUR, "51 00 00 45", "19 0 0 0 8 8"),
        ("p cnf 0 0\n", "51 00 00 45", "19 0 0 0 2 2 | - | - | -"),
        ("p cnf 0 1\n0\n", "51 00 00 44 00 00 44 01 00 45", "0 9 1 0 2 2 | - | 0,0 | 11"),
    ]));
}

#[test]
fn refusals_of_a_path_line() {
    let thirteen = |rest: &str| format!("{} 4E 01 02 00 {rest} 00 51 03 00", odd(0x3FFE));
    let lines = |last: &str| ("p cnf 64 1\n0\n", "52 00 00".repeat(1024) + last);
    let zero = "p cnf 13 1\n0\n";
    let many = "p cnf 64 0\n";
    let (formula, over) = lines("51 01 00");
    expect(rows(&[
        (many, "51", "10 0"),
        (many, "51 00", "10 0"),
        (many, "54 01 51 02", "10 2"),
        (many, "54 01 51 02 00", "13 2"),
        (many, "54 01 51 01 00", "16 2"),
        (many, "51 01 00", "17 0"),
        (formula, &over, "22 3072 1024 0"),
        (formula, &lines("51 02 00").1, "13 3072 1024 0"),
        (formula, &lines(&format!("{} 51 02 00", odd(u64::MAX))).1, "22 3082 1024 0"),
        // Parity over 13 variables has 4,096 paths to 0.
        (many, &(odd(0x1FFF) + "51 02 00"), "19 10 0 0 2 27"),
        (many, &(odd(0x3FFF) + "51 02 00"), "34 10 0 0 2 29"),
        (many, &(odd(u64::MAX) + "51 02 00"), "34 10 0 0 2 129"),
        (many, &format!("54 01 {} 51 02 00", odd(u64::MAX)), "16 12"),
        (many, &thirteen("01"), "19 16"),
        (many, &thirteen("00"), "34 16"),
        (zero, &(odd(0x1FFF) + "51 02 00 45"), "20 13 1 0 27 27"),
        (zero, &(odd(0x1FFF) + "51 02 00 51 00 00 45"), "0 16 2 0 27 27"),
    ]));
}
