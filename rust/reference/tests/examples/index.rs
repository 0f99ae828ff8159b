//! 02, 7/14: the index.

use crate::{check, expect, sized};

/// 02, 7/14: an index is "lent with the table".
#[test]
fn sizes_of_a_lent_index() {
    let row = |command: String, wanted: &str| (command, wanted.to_string());
    let and = |words: &str| format!("and 4 3 1,0,1 2 2 {words}");
    let checked = |words: &str| format!("{} {words}", check("p cnf 0 0", ""));
    let early = "7 0 0 0 2 0 | - | - | -";
    expect(vec![
        row(and("!HS=8"), "0 2 3 | 1,0,1"),
        row(and("!LS=4 !HS=8"), "0 2 3 | 1,0,1"),
        row(and("!HS=7"), "7 0 3 | 1,0,1"),
        row(and("!HS=9"), "7 0 3 | 1,0,1"),
        row(and("!HS=0"), "7 0 3 | 1,0,1"),
        row(and("!HS=4"), "7 0 3 | 1,0,1"),
        row(and("!LS=3"), "7 0 3 | 1,0,1"),
        row(and("!LS=5"), "7 0 3 | 1,0,1"),
        row(and("!LS=8 !HS=4"), "7 0 3 | 1,0,1"),
        row("not 65536 2 - 0 !HS=131072 !LS=65536".into(), "0 1 2 | -"),
        row("not 65537 2 - 0 !HS=131074 !LS=65537".into(), "7 0 2 | -"),
        row("not 1 2 - 0 !HS=2 !LS=1".into(), "7 0 2 | -"),
        row("eval 4 3 1,0,1 2 1 !LS=5".into(), "7 0 3"),
        // Sizes come before good order, operands and the index's content.
        row("not 4 3 1,0,0 9 !HS=9 !H:0=1".into(), "7 0 3 | 1,0,0"),
        row(checked("!HS=8192"), "10 0 0 0 2 2 | - | - | -"),
        row(checked("!HS=8192 !LS=4096"), "10 0 0 0 2 2 | - | - | -"),
        row(checked("!HS=8191"), early),
        row(checked("!HS=8193"), early),
        row(checked("!LS=4095"), early),
        row(checked("!LS=4097"), early),
        row(checked("!LS=0 !HS=0"), early),
        row(format!("{} !HS=2", sized(1, "", "")), early),
    ]);
}

#[test]
fn content_of_a_lent_index() {
    let row = |command: &str, answer: &str| (command.to_string(), answer.to_string());
    // In four places the key of 1,0,1 picks head 2, as does that of 9,0,1.
    let two = |words: &str, fine: bool| {
        let answer = if fine { "0 3 4" } else { "26 0 4" };
        (format!("and 4 4 1,0,1;9,0,1 3 3 {words}"), format!("{answer} | 1,0,1;9,0,1"))
    };
    expect(vec![
        row("not 4 3 1,0,1 2 !H:2=2", "0 3 4 | 1,0,1;1,1,0"),
        row("not 4 3 1,0,1 2 !H:2=0", "26 0 3 | 1,0,1"),
        row("not 4 3 1,0,1 2 !H:2=3", "26 0 3 | 1,0,1"),
        row("not 4 3 1,0,1 2 !H:3=2", "26 0 3 | 1,0,1"),
        row("not 4 3 1,0,1 2 !H:7=65535", "26 0 3 | 1,0,1"),
        row("not 4 3 1,0,1 2 !H:8=2", "0 3 4 | 1,0,1;1,1,0"),
        row("not 4 3 1,0,1 2 !H:18446744073709551615=2", "0 3 4 | 1,0,1;1,1,0"),
        row("not 4 3 1,0,1 2 !L:2=2", "26 0 3 | 1,0,1"),
        row("not 4 3 1,0,1 2 !L:4=2", "0 3 4 | 1,0,1;1,1,0"),
        // The links of places 0 and 1 and of those from the count on are 0.
        row("not 4 3 1,0,1 2 !L:0=1", "26 0 3 | 1,0,1"),
        row("not 4 3 1,0,1 2 !L:1=2", "26 0 3 | 1,0,1"),
        row("not 4 3 1,0,1 2 !L:3=2", "26 0 3 | 1,0,1"),
        // A change may be taken back.
        row("not 4 3 1,0,1 2 !H:2=0 !H:2=2", "0 3 4 | 1,0,1;1,1,0"),
        two("!H:2=3 !L:3=2 !L:2=0", true),
        two("!H:2=2", false),
        two("!L:3=0", false),
        two("!L:2=3", false),
        two("!H:2=2 !L:2=3 !L:3=0", false),
    ]);
    expect(vec![
        // 26 with good order, then 13; then 27, 15 and 23; evaluation too.
        row("and 4 3 1,0,0 2 2 !H:2=0", "26 0 3 | 1,0,0"),
        row("and 4 3 1,0,1 9 9 !H:2=0", "26 0 3 | 1,0,1"),
        row("and 4 3 1,0,1 9 9 !H:2=2", "13 0 3 | 1,0,1"),
        row("cof 4 2 - 1 0 !H:0=1", "26 0 2 | -"),
        row("lits 4 2 - 1 1 1 !L:2=1", "26 0 2 | -"),
        row("eval 4 3 1,0,1 2 1 !H:2=0", "26 0 3"),
        row("eval 4 3 1,0,1 2 1 !H:2=2", "0 1 3"),
        row("not 3 3 1,0,1 2 !H:0=0", "26 0 3 | 1,0,1"),
        row("not 3 3 1,0,1 2 !H:0=2", "23 0 3 | 1,0,1"),
    ]);
}

#[test]
fn what_names_no_index() {
    let error = "error: not a command";
    let words = [
        "!HS",
        "!HS=",
        "!HS=-1",
        "!HS=x",
        "!H=1",
        "!H:=1",
        "!H:1=",
        "!L:x=1",
        "!X:1=1",
        "HS=8",
        "!H:0=65536",
        "!LS=4 0",
    ];
    expect(words.iter().map(|word| (format!("not 4 2 - 0 {word}"), error.to_string())).collect());
    // Of the check's index only the sizes can be named.
    expect(vec![(format!("{} !H:0=0", check("p cnf 0 0", "")), error.into())]);
    expect(vec![("not 4 2 - !HS=8 0".into(), error.into())]);
    // A node number that its column or parameter cannot hold.
    let row = |command: &str, answer: &str| (command.to_string(), answer.to_string());
    expect(vec![
        row("not 8 3 1,0,65535 0", "26 0 3 | 1,0,65535"),
        row("not 8 3 1,0,65536 0", error),
        row("not 8 3 1,65536,0 0", error),
        row("not 8 3 1,0,1 65535", "13 0 3 | 1,0,1"),
        row("not 8 3 1,0,1 65536", error),
    ]);
}
