//! 02, 3/14: striking out members.

use crate::{check, expect, rows, sized, FOUR};

/// 02, 3/14: "a record of kind `44` with two bytes strikes out the member of that number."
#[test]
fn refusals_of_a_striking() {
    let x = "p cnf 1 2\n1 0 1 0\n";
    let left = "0 0 3 3 | 1,0,1 | 2,2";
    let row = |proof: &str, wanted: &str, marks: &str| (check(x, proof), format!("{wanted} {left} | {marks}"));
    expect(vec![
        row("44", "10 0", "00"),
        row("44 00", "10 0", "00"),
        row("54 01 44 09", "10 2", "00"),
        row("54 01 44 09 00", "16 2", "00"),
        row("44 00 00 54 01 44 00 00", "16 5", "10"),
        row("44 02 00", "28 0", "00"),
        row("44 FF FF", "28 0", "00"),
        row("44 01 00 44 01 00", "28 3", "01"),
        row("44 01 00 44 00 00 44 01 00", "28 6", "11"),
        // Marks stay, whatever refuses.
        row("44 01 00 00", "9 3", "01"),
        row("44 00 00", "10 3", "10"),
        row("44 00 00 45 45", "11 4", "10"),
        row("44 00 00 45", "20 3", "10"),
        row("44 00 00 52 01 00", "17 3", "10"),
    ]);
    expect(rows(&[("p cnf 1 2\n1 0", "44 00 00", "5 13 0 0 2 3 | - | - | -")]));
    expect(vec![(sized(1, x, "44 00 00"), "7 0 0 0 2 0 | - | - | -".into())]);
}

#[test]
fn struck_members_are_passed_over() {
    let four = "| 2,0,1;1,2,1;1,1,2;2,1,0;1,5,1;1,1,5 | 3,4,6,7";
    let second = "4E 02 00 00 01 00 52 02 00";
    let opposite = "p cnf 1 2\n1 0 -1 0\n";
    let chain = "p cnf 3 4\n1 0 2 0 -2 3 0 -2 -3 0\n";
    let units = "p cnf 2 2\n1 0 2 0\n";
    let pr = "4E 01 01 00 00 00 46 01 50 02 00";
    expect(vec![
        // A needs clauses 0 and 1 for its first line, 2 and 3 for its second.
        (check(FOUR, &format!("{second} 44 00 00 44 01 00 52 00 00 45")), format!("0 18 2 1 8 10 {four},2,0 | 110000")),
        (check(FOUR, &format!("{second} 44 02 00 52 00 00 45")), format!("19 12 1 0 8 10 {four},2 | 00100")),
        // A struck member's cofactor is not made: no 23 and no peak comes from it.
        (check(FOUR, &format!("44 00 00 {second}")), format!("19 9 0 0 8 9 {four} | 1000")),
        (sized(9, FOUR, &format!("44 00 00 {second}")), format!("19 9 0 0 8 9 {four} | 1000")),
        (sized(9, FOUR, second), format!("23 6 0 0 8 9 {four} | 0000")),
        // It is in no conflict and gives no units.
        (check(opposite, "52 00 00 45"), "0 3 1 0".into()),
        (check(opposite, "44 01 00 52 00 00 45"), "19 3 0 0 4 4 | 1,0,1;1,1,0 | 2,3 | 01".into()),
        (check(chain, "52 00 00 45"), "0 3 1 2".into()),
        (check(chain, "44 00 00 52 00 00 45"), "0 6 1 1".into()),
        // It has no turn in PR.
        (check(units, pr), "19 8 0 0 4".into()),
        (check(units, &format!("44 00 00 {pr} 45")), "20 14 1 0 5 6 | 1,0,1;2,0,1;1,1,0 | 2,3,4 | 100".into()),
        // With all struck, not-g is made still.
        (check("p cnf 1 1\n1 0\n", "44 00 00 4E 01 00 00 01 00 52 02 00"), "19 9 0 0 3 4 | 1,0,1 | 2 | 1".into()),
        (sized(3, "p cnf 1 1\n1 0\n", "44 00 00 4E 01 00 00 01 00 52 02 00"), "23 9 0 0 3 3 | 1,0,1 | 2 | 1".into()),
    ]);
}

#[test]
fn a_striking_is_no_line_and_no_entry() {
    let zero = "p cnf 1 1\n0\n";
    let node = "4E 01 00 00 01 00";
    let entries = format!("{} 44 00 00 {node}", node.repeat(4096));
    let lines = "52 00 00".repeat(1023);
    expect(rows(&[
        // Lines are numbered on after the clauses, and no number is used again.
        (zero, "52 00 00 44 02 00", "28 3 1 0 2 2 | - | 0,0 | 00"),
        (zero, "52 00 00 44 00 00 52 00 00 44 02 00 45", "0 12 2 0 2 2 | - | 0,0,0 | 101"),
        // A 0 line counts though it be struck; what is struck shows nothing more.
        (zero, "52 00 00 44 01 00 45", "0 6 1 0 2 2 | - | 0,0 | 01"),
        (zero, "52 00 00 44 00 00 44 01 00 45", "0 9 1 0 2 2 | - | 0,0 | 11"),
        (zero, "52 00 00 44 00 00 44 01 00 52 00 00 45", "19 9 1 0 2 2 | - | 0,0 | 11"),
        (zero, "44 00 00 52 00 00 45", "19 3 0 0 2 2 | - | 0 | 1"),
        // Entries go on over it; those after the last line are dropped, the mark stays.
        ("p cnf 2 2\n2 0 2 0\n", "4E 02 00 00 01 00 44 00 00 52 02 00 45", "20 12 1 0 3 4 | 2,0,1 | 2,2,2 | 100"),
        (zero, "52 00 00 4E 01 00 00 01 00 44 00 00 45", "0 12 1 0 2 3 | - | 0,0 | 10"),
        (zero, &entries, "21 24579 0 0 2 3 | - | 0 | 1"),
        (zero, &format!("{lines} 44 01 00 52 00 00 45"), "0 3075 1024 0"),
        (zero, &format!("{lines} 44 01 00 52 00 00 44 02 00 52 00 00"), "22 3078 1024 0"),
    ]));
}
