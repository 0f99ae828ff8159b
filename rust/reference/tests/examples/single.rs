//! Single calls and what is no command.

use crate::{ask, expect};

#[test]
fn example_g() {
    let table = "64 6 2,0,1;2,1,0;1,2,3;1,0,1";
    expect(vec![
        (format!("cof {table} 2 4"), "0 6 7 | 2,0,1;2,1,0;1,2,3;1,0,1;1,1,0".into()),
        (format!("cof {table} 5 4"), "0 5 6 | 2,0,1;2,1,0;1,2,3;1,0,1".into()),
    ]);
}

#[test]
fn good_order() {
    let row = |command: &str, answer: &str| (command.to_string(), answer.to_string());
    expect(vec![
        row("not 4 3 1,0,0 2", "26 0 3 | 1,0,0"),
        row("not 4 3 @1,0,0;0,0,0;1,0,1 2", "26 0 3 | @1,0,0;0,0,0;1,0,1"),
        row("not 4 3 @0,0,0;0,1,0;1,0,1 2", "26 0 3 | @0,0,0;0,1,0;1,0,1"),
        row("not 4 1 - 0", "26 0 1 | -"),
        row("not 4 0 - 0", "26 0 0 | -"),
        row("not 3 4 1,0,1;2,0,1 0", "26 0 4 | 1,0,1"),
        row("not 4 3 0,0,1 2", "26 0 3 | 0,0,1"),
        row("not 4 3 65,0,1 2", "26 0 3 | 65,0,1"),
        row("not 9 4 2,0,1;2,0,2 2", "26 0 4 | 2,0,1;2,0,2"),
        row("not 9 4 2,0,1;3,2,0 2", "26 0 4 | 2,0,1;3,2,0"),
        row("not 9 4 1,0,3;2,0,1 2", "26 0 4 | 1,0,3;2,0,1"),
        row("not 9 3 1,2,0 2", "26 0 3 | 1,2,0"),
        row("not 9 4 2,0,1;2,0,1 2", "26 0 4 | 2,0,1;2,0,1"),
        row("not 9 3 2,0,1;0,0,1 2", "26 0 3 | 2,0,1;0,0,1"),
        row("not 9 4 2,0,1 2", "26 0 4 | 2,0,1"),
        row("not 9 2 - 1", "0 0 2 | -"),
        row("not 2 2 1,0,1 1", "0 0 2 | -"),
    ]);
}

#[test]
fn single_calls() {
    let row = |command: &str, answer: &str| (command.to_string(), answer.to_string());
    expect(vec![
        row("and 1 2 - 0 0", "7 0 2 | -"),
        row("and 0 7 1,0,1 9 9", "7 0 7 | -"),
        row("and 65537 3 1,0,1 2 2", "7 0 3 | 1,0,1"),
        row("and 65536 3 1,0,1 2 2", "0 2 3 | 1,0,1"),
        row("and 8 3 1,0,1 2 3", "13 0 3 | 1,0,1"),
        row("and 8 3 1,0,1 3 2", "13 0 3 | 1,0,1"),
        row("and 4 4 1,0,1;2,0,1 2 3", "23 0 4 | 1,0,1;2,0,1"),
        row("and 5 4 1,0,1;2,0,1 2 3", "0 4 5 | 1,0,1;2,0,1;1,0,3"),
        row("not 3 3 1,0,1 2", "23 0 3 | 1,0,1"),
        row("not 4 3 1,0,1 2", "0 3 4 | 1,0,1;1,1,0"),
        row("cof 8 2 - 1 0", "27 0 2 | -"),
        row("cof 8 2 - 2 0", "13 0 2 | -"),
        row("cof 8 2 - 0 1", "0 0 2 | -"),
        row("lits 8 3 1,0,1 2 1 1", "15 0 3 | 1,0,1"),
        row("lits 8 3 1,0,1 3 1 1", "13 0 3 | 1,0,1"),
        row("lits 8 3 1,0,1 2 1 2", "0 1 3 | 1,0,1"),
        row("lits 8 3 1,0,1 2 0 18446744073709551615", "0 0 3 | 1,0,1"),
        row("lits 4 4 2,0,1;1,0,2 3 2 0", "23 0 4 | 2,0,1;1,0,2"),
        row("lits 5 4 2,0,1;1,0,2 3 2 0", "0 4 5 | 2,0,1;1,0,2;1,0,1"),
        row("eval 8 3 64,0,1 2 9223372036854775808", "0 1 3"),
        row("eval 8 3 64,0,1 2 9223372036854775807", "0 0 3"),
        row("eval 8 3 64,0,1 3 0", "13 0 3"),
        row("eval 8 3 64,0,0 1 0", "26 0 3"),
        row("eval 1 3 64,0,1 1 0", "7 0 3"),
    ]);
}

#[test]
fn what_is_no_command() {
    let error = "error: not a command";
    let rows = ["chek", "check 4 4 4 0 -", "and 4 2 - 0", "and 4 2 - 0 0 0", "not 4 2 1,2 0", "check 4 4 4 - -  "];
    expect(rows.iter().map(|row| (row.to_string(), error.to_string())).collect());
    assert_eq!(ask(&["".into(), "not 2 2 - 0".into(), "".into()]), ["0 1 2 | -"]);
}
