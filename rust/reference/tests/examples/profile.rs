//! 02, 11/14: the consequence profile.

use crate::drat::drat_sized;
use crate::tallies::odd;
use crate::{check, expect, sized, A, FOUR, ONE};

fn cons(command: String) -> String {
    format!("cons {command}")
}

#[test]
fn only_rup_and_path_lines_and_strikings_pass() {
    let four = "8 10 | 2,0,1;1,2,1;1,1,2;2,1,0;1,5,1;1,1,5 | 3,4,6,7";
    let xor = "p cnf 2 2\n1 2 0 -1 -2 0\n";
    expect(vec![
        (cons(check(FOUR, A)), format!("0 12 2 1 {four},2,0 | 000000")),
        (cons(check(FOUR, "44 02 00 4E 02 00 00 01 00 52 02 00 52 00 00 45")), format!("19 12 1 0 {four},2 | 00100")),
        (cons(check(xor, &(odd(3) + "51 02 00 45"))), "20 13 1 0 7 7".into()),
        (cons(check(xor, &(odd(u64::MAX) + "51 02 00"))), "12 0".into()),
        // Example E, which passes outside.
        (cons(check(ONE, "4E 01 00 00 01 00 54 01 50 02 00 45")), "33 8 0 0 4 5 | 2,0,1;1,2,1 | 3 | 0".into()),
    ]);
}

#[test]
fn a_pr_record_is_refused_before_all_but_10() {
    let row = |proof: &str, wanted: &str| (cons(check("p cnf 2 0\n", proof)), wanted.to_string());
    let lines = cons(check("p cnf 2 1\n0\n", &("52 00 00".repeat(1024) + "50 00 00")));
    expect(vec![
        row("50", "10 0 0 0 2 2 | - | - | -"),
        row("50 02", "10 0"),
        row("50 02 00", "33 0 0 0 2 2 | - | - | -"),
        row("50 00 00", "33 0"),
        row("50 01 00", "33 0"),
        row("54 01 50 00 00", "33 2"),
        (lines, "33 3072 1024 0".into()),
        (cons(sized(3, "p cnf 1 0\n", "4E 01 00 00 01 00 54 01 50 02 00")), "33 8 0 0 2 3".into()),
        // Witness records are read and judged, and wait.
        row("54 03", "12 0"),
        row("54 01 46 01", "15 2"),
        row("54 01 52 00 00", "16 2"),
        row("54 01 51 00 00", "16 2"),
        row("54 01 44 00 00", "16 2"),
        row("54 01 45", "16 2"),
        row("00", "9 0"),
        row("45 50", "11 1"),
    ]);
}

#[test]
fn drat_clauses_have_one_try() {
    let row =
        |size, formula: &str, text: &str, wanted: &str| (cons(drat_sized(size, formula, text)), wanted.to_string());
    let left = "3,0,1;1,2,1;4,0,1;3,1,4;2,5,1;1,6,1";
    expect(vec![
        row(4096, FOUR, "2 0\n0\n", "0 6 2 1 8 10"),
        row(4096, FOUR, "d 1 2 0 2 0", "19 8 0 0 8 9"),
        // What passes outside only as a PR line.
        row(4096, ONE, "1 0\n", "19 0 0 0 4 6 | 2,0,1;1,2,1 | 3 | 0"),
        row(4096, "p cnf 1 0\n", "1 0", "19 0 0 0 2 4 | - | - | -"),
        row(4096, "p cnf 0 0\n", "0", "19 0 0 0 2 2 | - | - | -"),
        // The first try takes places 8 to 10, the second none beyond.
        row(10, "p cnf 4 2\n1 3 0 1 2 -3 4 0\n", "1 0", &format!("23 0 0 0 8 10 | {left} | 3,7 | 00")),
        row(11, "p cnf 4 2\n1 3 0 1 2 -3 4 0\n", "1 0", &format!("19 0 0 0 8 11 | {left} | 3,7 | 00")),
        row(1, ONE, "1 0", "7 0 0 0 2 0 | - | - | -"),
    ]);
}

#[test]
fn what_the_profile_names() {
    let error = "error: not a command".to_string();
    let commands = ["cons", "cons ", "cons cons", "cons not 4 2 - 0", "cons check", "cons  check 4 2048 4096 - -"];
    let mut rows: Vec<_> = commands.iter().map(|command| (command.to_string(), error.clone())).collect();
    rows.push((format!("cons cons {}", check(ONE, "45")), error));
    rows.push((cons(check(ONE, "45")) + " !HS=3", "7 0 0 0 2 0 | - | - | -".into()));
    rows.push((cons(check(ONE, "45")) + " !HS=8192", "20 0 0 0 4 4".into()));
    expect(rows);
}
