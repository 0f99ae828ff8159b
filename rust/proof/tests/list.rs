//! What `list` prints of a proof, and the status that it ends with.

use proof::{Entry, Writer};
use std::process::Command;

fn list(name: &str, proof: &[u8]) -> (Option<i32>, String) {
    let file = format!("{}/{name}", env!("CARGO_TARGET_TMPDIR"));
    std::fs::write(&file, proof).unwrap();
    let output = Command::new(env!("CARGO_BIN_EXE_list")).arg(file).output().unwrap();
    (output.status.code(), String::from_utf8(output.stdout).unwrap())
}

#[test]
fn case_a() {
    let said = list("case-a", &[0x4e, 2, 0, 0, 1, 0, 0x52, 2, 0, 0x52, 0, 0, 0x45]);
    let wanted = "     0  4E 02 00 00 01 00  line 1: entry 2 = x2
     6  52 02 00           line 1: RUP entry 2 (x2)
     9  52 00 00           line 2: RUP 0 (the 0 line)
    12  45                 end, 2 lines
";
    assert_eq!(said, (Some(0), wanted.into()));
}

#[test]
fn case_e_with_a_clause() {
    let bytes = [0x4e, 3, 1, 0, 0, 0, 0x4e, 1, 2, 0, 1, 0, 0x54, 1, 0x46, 3, 0x50, 3, 0, 0x45];
    let wanted = "     0  4E 03 01 00 00 00  line 1: entry 2 = not x3
     6  4E 01 02 00 01 00  line 1: entry 3 = x1 or not x3
    12  54 01              line 1: witness: x1
    14  46 03              line 1: witness: not x3
    16  50 03 00           line 1: PR entry 3 (x1 or not x3), witness x1, not x3
    19  45                 end, 1 line
";
    assert_eq!(list("case-e", &bytes), (Some(0), wanted.into()));
}

/// A path line is shown with the number of its paths to 0.
#[test]
fn path_lines() {
    let mut proof = Writer::new();
    let odd = proof.parity(&[1, 2, 3], true);
    proof.path(odd);
    let wide = proof.parity(&(1..=14).collect::<Vec<u8>>(), false);
    proof.path(wide);
    proof.path(Entry::ZERO);
    proof.path(Entry::ONE);
    let bytes = proof.finish();
    let wanted = "     0  58 07 00 00 00 00 00 00 00 01  line 1: entry 2 = an odd number of x1, x2, x3
    10  51 02 00                       line 1: path entry 2 (an odd number of x1, x2, x3), 4 paths
    13  58 FF 3F 00 00 00 00 00 00 00  line 2: entry 2 = an even number of x1, x2, x3, x4, x5, x6, x7, x8, x9, x10, x11, x12, x13, x14
    23  51 02 00                       line 2: path entry 2 (an even number of x1, x2, x3, x4, x5, x6, x7, x8, x9, x10, x11, x12, x13, x14), OVER 4,096 PATHS (34)
    26  51 00 00                       line 3: path 0 (the 0 line), 1 path
    29  51 01 00                       line 4: path 1 (ALWAYS TRUE: 17)
    32  45                             end, 4 lines
";
    assert_eq!(list("paths", &bytes), (Some(0), wanted.into()));
}

/// A striking is of no line; entries go on over it.
#[test]
fn strikings() {
    let bytes = [0x4e, 2, 0, 0, 1, 0, 0x44, 3, 1, 0x52, 2, 0, 0x44, 4, 0, 0x44, 3, 1, 0x54, 1, 0x44, 5, 0, 0x45];
    let wanted = "     0  4E 02 00 00 01 00  line 1: entry 2 = x2
     6  44 03 01           strike out member 259
     9  52 02 00           line 1: RUP entry 2 (x2)
    12  44 04 00           strike out member 4
    15  44 03 01           strike out member 259, STRUCK ALREADY (28)
    18  54 01              line 2: witness: x1
    20  44 05 00           strike out member 5, A WITNESS IS LEFT (16)
    23  45                 end, 1 line
";
    assert_eq!(list("strikings", &bytes), (Some(0), wanted.into()));
}

/// Set entries, with a column wide enough for their bytes.
#[test]
fn set_entries() {
    let mut proof = Writer::new();
    let three_of_four = proof.at_least(3, &[2, 3, 5, 64]);
    let root = proof.node(1, three_of_four, Entry::ONE);
    proof.rup(root);
    let even = proof.parity(&[4, 9], false);
    proof.rup(even);
    let mut bytes = proof.finish();
    bytes.pop();
    bytes.extend([0x58, 0, 0, 0, 0, 0, 0, 0, 0, 1, 0x4b, 3, 0, 0, 0, 0, 0, 0, 0, 0]);
    bytes.extend([0x58, 1, 0, 0, 0, 0, 0, 0, 0, 2, 0x4e, 1, 3, 0, 4, 0, 0x45]);
    let wanted = "     0  4B 16 00 00 00 00 00 00 80 03  line 1: entry 2 = at least 3 of x2, x3, x5, x64
    10  4E 01 02 00 01 00              line 1: entry 3 = if x1 then 1 else entry 2
    16  52 03 00                       line 1: RUP entry 3 (x1 or at least 3 of x2, x3, x5, x64)
    19  58 08 01 00 00 00 00 00 00 00  line 2: entry 2 = an even number of x4, x9
    29  52 02 00                       line 2: RUP entry 2 (an even number of x4, x9)
    32  58 00 00 00 00 00 00 00 00 01  line 3: entry 2 = an odd number of no variables, which is 0
    42  4B 03 00 00 00 00 00 00 00 00  line 3: entry 3 = at least 0 of x1, x2, which is 1
    52  58 01 00 00 00 00 00 00 00 02  line 3: entry 4, PARITY BYTE 2 (29)
    62  4E 01 03 00 04 00              line 3: entry 5 = if x1 then entry 4 else entry 3
    68  45                             end, 2 lines
";
    assert_eq!(list("sets", &bytes), (Some(0), wanted.into()));
}

/// Every record that makes an entry counts.
#[test]
fn too_many_entries() {
    let least = [0x4b, 1, 0, 0, 0, 0, 0, 0, 0, 1];
    for (name, last) in [("21-least", least), ("21-parity", [0x58, 1, 0, 0, 0, 0, 0, 0, 0, 9])] {
        let (_, text) = list(name, &[least.repeat(4_096), last.to_vec(), vec![0x45]].concat());
        assert_eq!(text.lines().filter(|line| line.ends_with("OVER 4,096 ENTRIES (21)")).count(), 1);
        assert!(text.lines().rev().nth(1).unwrap().ends_with("(21)"));
    }
}

/// Counts of variables, alone and with literals beside them.
#[test]
fn counts() {
    let told = |name: &str, root: &dyn Fn(&mut Writer) -> Entry| {
        let mut proof = Writer::new();
        let root = root(&mut proof);
        proof.rup(root);
        let (_, text) = list(name, &proof.finish());
        let line = text.lines().rev().nth(1).unwrap();
        line.split_once('(').map_or(String::new(), |(_, words)| words.trim_end_matches(')').to_string())
    };
    let four = [1, 2, 3, 5];
    assert_eq!(told("least", &|proof| proof.at_least(3, &four)), "at least 3 of x1, x2, x3, x5");
    assert_eq!(told("most", &|proof| proof.at_most(1, &four)), "at most 1 of x1, x2, x3, x5");
    assert_eq!(told("none", &|proof| proof.at_most(0, &four)), "none of x1, x2, x3, x5");
    assert_eq!(told("all", &|proof| proof.at_least(4, &four)), "all of x1, x2, x3, x5");
    assert_eq!(told("odd", &|proof| proof.parity(&four, true)), "an odd number of x1, x2, x3, x5");
    assert_eq!(told("even", &|proof| proof.parity(&four, false)), "an even number of x1, x2, x3, x5");
    let beside = |proof: &mut Writer| {
        let rest = proof.clause(&[-6, 7]);
        proof.at_least_or(2, &[3, 4, 5], rest)
    };
    assert_eq!(told("beside", &beside), "not x6 or x7 or at least 2 of x3, x4, x5");
    let neither = |proof: &mut Writer| {
        let (second, third) = (proof.clause(&[2]), proof.clause(&[3]));
        proof.node(1, second, third)
    };
    assert_eq!(told("neither", &neither), "");
}

/// What can be seen without the formula is told with its number, and the status is 1 where the records do not run to the end.
#[test]
fn faults() {
    for (name, proof, status, told) in [
        ("9", &[0x4e, 1, 0, 0, 1, 0, 0x00][..], 1, "     6                     UNKNOWN KIND 00 (9)"),
        ("10", &[0x52, 0], 1, "     0                     RECORD 52 CUT SHORT (10)"),
        ("10-strike", &[0x44, 0], 1, "     0                     RECORD 44 CUT SHORT (10)"),
        ("10-parity", &[0x58, 0, 0, 0, 0, 0, 0, 0, 0], 1, "     0                     RECORD 58 CUT SHORT (10)"),
        ("10-path", &[0x51, 0], 1, "     0                     RECORD 51 CUT SHORT (10)"),
        (
            "16-path",
            &[0x54, 1, 0x51, 0, 0, 0x45],
            0,
            "     2  51 00 00           line 1: path 0 (the 0 line), 1 path, A WITNESS IS LEFT (16)",
        ),
        ("10-least", &[0x4b], 1, "     0                     RECORD 4B CUT SHORT (10)"),
        ("10-end", &[0x52, 0, 0], 1, "     3                     NO END RECORD (10)"),
        ("11", &[0x45, 0x45], 1, "     1  AFTER THE END: 1 byte (11)"),
        ("13", &[0x52, 2, 0, 0x45], 0, "     0  52 02 00           line 1: RUP entry 2, WHICH DOES NOT EXIST (13)"),
        (
            "14",
            &[0x4e, 2, 0, 0, 1, 0, 0x4e, 2, 2, 0, 1, 0, 0x45],
            0,
            "     6  4E 02 02 00 01 00  line 1: entry 3 = x2 or x2, VARIABLE NOT BEFORE ITS CHILDREN'S (14)",
        ),
        ("15", &[0x54, 1, 0x46, 1, 0x45], 0, "     2  46 01              line 1: witness: not x1, NAMED TWICE (15)"),
        (
            "16",
            &[0x54, 1, 0x52, 0, 0, 0x45],
            0,
            "     2  52 00 00           line 1: RUP 0 (the 0 line), A WITNESS IS LEFT (16)",
        ),
        ("17", &[0x52, 1, 0, 0x45], 0, "     0  52 01 00           line 1: RUP 1 (ALWAYS TRUE: 17)"),
    ] {
        let (ended, text) = list(name, proof);
        assert_eq!(ended, Some(status), "{name}: {text}");
        assert!(text.lines().any(|line| line.trim_end() == told), "{name}: {text}");
    }
}

#[test]
fn wrong_use() {
    let ended = |arguments: &[&str]| Command::new(env!("CARGO_BIN_EXE_list")).args(arguments).status().unwrap().code();
    assert_eq!((ended(&[]), ended(&["/no/such/file"])), (Some(2), Some(2)));
}

/// With the formula its clauses come first, as members; lines and strikings name theirs.
#[test]
fn members() {
    let folder = env!("CARGO_TARGET_TMPDIR");
    let (formula, proof) = (format!("{folder}/members.cnf"), format!("{folder}/members"));
    std::fs::write(&formula, "c two\np cnf 2 2\n1 2\nc more\n0 -1 2 0\n").unwrap();
    std::fs::write(&proof, [0x44, 0, 0, 0x52, 0, 0, 0x44, 2, 0, 0x44, 9, 0, 0x45]).unwrap();
    let output = Command::new(env!("CARGO_BIN_EXE_list")).args([formula, proof]).output().unwrap();
    let wanted = "\
member 0: 1 2 0
member 1: -1 2 0
     0  44 00 00           strike out member 0, the clause 1 2 0
     3  52 00 00           line 1: RUP 0 (the 0 line), member 2
     6  44 02 00           strike out member 2, line 1
     9  44 09 00           strike out member 9, WHICH DOES NOT EXIST (28)
    12  45                 end, 1 line
";
    assert_eq!((output.status.code(), String::from_utf8(output.stdout).unwrap()), (Some(0), wanted.into()));
}
