//! Which nodes are made, which stay, and how much room is needed.

use crate::{check, expect, sized, ONE};

#[test]
fn dropped_room_is_used_again() {
    // Each of the four lines needs not-x2's node and the cofactors x1 and not-x1; none of them stays.
    let line = "4E 02 00 00 01 00 52 02 00";
    let proof = line.repeat(4) + "45";
    let formula = "p cnf 2 2\n1 2 0\n-1 2 0\n";
    let left = "| 2,0,1;1,2,1;1,1,2 | 3,4,2,2,2,2";
    expect(vec![
        (sized(8, formula, &proof), format!("20 36 4 0 5 8 {left}")),
        (sized(7, formula, &proof), "23 6 0 0 5 7 | 2,0,1;1,2,1;1,1,2 | 3,4".into()),
    ]);
}

/// 02, 2/14: "the greatest count reached, dropped nodes included".
#[test]
fn peak_is_the_least_table_that_gives_the_same() {
    let formula = "p cnf 2 2\n1 2 0\n-1 2 0\n";
    let line = "4E 02 00 00 01 00 52 02 00";
    expect(vec![
        // The line's own nodes take places 5 to 7 and are dropped; a later refusal does not lower the peak.
        (check(formula, &format!("{line} 00")), "9 9 1 0 5 8".into()),
        (sized(8, formula, &format!("{line} 00")), "9 9 1 0 5 8".into()),
        (sized(7, formula, &format!("{line} 00")), "23 6 0 0 5 7".into()),
        (sized(6, formula, &format!("{line} 00")), "23 6 0 0 5 6".into()),
        (sized(5, formula, &format!("{line} 00")), "23 6 0 0 5 5".into()),
        (sized(4, formula, &format!("{line} 00")), "8 16 0 0 2 4".into()),
        // The formula alone, and a refused one.
        (check(formula, "45"), "20 0 0 0 5 5".into()),
        (check("p cnf 2 2\n1 2 0\n-1 2 0 x\n", "45"), "5 23 0 0 2 5".into()),
        // Numbers that a dropped node had are given again and count once.
        (check(formula, &format!("{line} {line} 4E 01 01 00 00 00 45")), "20 24 2 0 5 8".into()),
    ]);
}

#[test]
fn entries_of_accepted_lines_stay_and_later_ones_go() {
    let formula = "p cnf 2 1\n0\n";
    let line = "4E 02 00 00 01 00 4E 01 00 00 01 00 52 00 00";
    let left = "| 2,0,1;1,0,1 | 0,0";
    expect(vec![
        (check(formula, &format!("{line} 45")), format!("0 15 1 0 4 4 {left}")),
        (check(formula, &format!("{line} 4E 01 01 00 00 00 45")), format!("0 21 1 0 4 5 {left}")),
        (check(formula, &format!("{line} 4E 01 01 00 00 00 00")), format!("9 21 1 0 4 5 {left}")),
    ]);
}

#[test]
fn a_making_that_finds_its_diagram_needs_no_room() {
    let row = |command: &str, answer: &str| (command.to_string(), answer.to_string());
    expect(vec![
        row("and 4 4 1,0,1;1,1,0 2 3", "0 0 4 | 1,0,1;1,1,0"),
        row("not 4 4 1,0,1;1,1,0 2", "0 3 4 | 1,0,1;1,1,0"),
        row("cof 4 4 1,0,1;2,0,1 2 3", "0 2 4 | 1,0,1;2,0,1"),
        row("cof 4 4 1,0,1;2,0,1 1 0", "27 0 4 | 1,0,1;2,0,1"),
        row("lits 4 4 1,0,1;2,0,1 2 4 4", "15 0 4 | 1,0,1;2,0,1"),
        row("lits 4 4 2,0,1;1,0,2 3 1 0", "0 2 4 | 2,0,1;1,0,2"),
        (sized(4, "p cnf 2 3\n1 2 0 2 0 1 -1 2 0\n", ""), "10 0 0 0 4 4 | 2,0,1;1,2,1 | 3,2,1".into()),
        (sized(3, "p cnf 1 1\n1 0\n", "4E 01 00 00 01 00 4E 01 01 00 01 00 45"), "20 12 0 0 3".into()),
    ]);
}

#[test]
fn what_is_made_before_a_conflict_is_asked() {
    let x1 = "4E 01 00 00 01 00";
    let x2 = "4E 02 00 00 01 00";
    let row = |size, formula: &str, proof: String, wanted: &str| (sized(size, formula, &proof), wanted.to_string());
    let none = "p cnf 1 0\n";
    let later = "p cnf 3 2\n2 0 1 2 3 0\n";
    let two = "p cnf 3 2\n1 0 2 3 0\n";
    expect(vec![
        // not-g is made with no member at all.
        row(3, none, format!("{x1} 52 02 00"), "23 6 0 0 2"),
        row(4, none, format!("{x1} 52 02 00"), "19 6 0 0 2"),
        row(3, none, format!("{x1} 54 01 50 02 00"), "23 8 0 0 2"),
        row(4, none, format!("{x1} 54 01 50 02 00 45"), "20 11 1 0 3"),
        // not-g is made where every h is 1.
        row(5, ONE, format!("{x1} 54 01 50 02 00"), "23 8 0 0 4"),
        row(6, ONE, format!("{x1} 54 01 50 02 00 45"), "20 11 1 0 5"),
        // The first member is 0 by not-g, yet the second is made.
        row(7, later, format!("{x2} 52 02 00"), "23 6 0 0 6"),
        row(8, later, format!("{x2} 52 02 00 45"), "20 9 1 0 6"),
        // The first cofactors conflict, yet the second member has its turn.
        row(7, two, format!("{x1} 54 01 50 02 00"), "23 8 0 0 5"),
        row(8, two, format!("{x1} 54 01 50 02 00 45"), "20 11 1 0 5"),
    ]);
}
