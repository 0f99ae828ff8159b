//! Every number that a check gives: document 01's examples through the wrapper, over dirty lists.

use crate::lent::Lists;
use crate::rows::{self, Row};
use cablesalak::{check, report, Mode, NodeNo, Number, Text, Variables, Workspace};

const A: &[u8] = b"p cnf 2 4\n1 2 0\n-1 2 0\n1 -2 0\n-1 -2 0\n";
const A_PROOF: &[u8] = b"\x4E\x02\0\0\x01\0\x52\x02\0\x52\0\0\x45";
/// The formula of a row that names none.
const D: &[u8] = b"p cnf 2 1\n1 2 0\n";
const D_PROOF: &[u8] = b"\x4E\x01\0\0\x01\0\x46\x01\x50\x02\0\x45";
const E_PROOF: &[u8] = b"\x4E\x01\0\0\x01\0\x54\x01\x50\x02\0\x45";
const F_PROOF: &[u8] = b"\x4E\x01\0\0\x01\0\x52\x02\0\x45";
/// The line "at least two of 1, 2, 3".
const I_PROOF: &[u8] = b"\x4E\x03\0\0\x01\0\x4E\x02\0\0\x02\0\x4E\x02\x02\0\x01\0\x4E\x01\x03\0\x04\0\x52\x05\0\x45";

/// Rows that strike out nothing.
fn run_all(rows: &[Row]) {
    let mut workspace = Workspace::new(4_096).unwrap();
    for row in rows {
        run(row, &"0".repeat(row.4 + row.3 .2), &mut workspace);
    }
}

/// "1 to 6 and 8: in the formula; 0, 9 to 23, 28 and 29: in the proof."
fn run(row: &Row, marks: &str, workspace: &mut Workspace) {
    let verdict = rows::run(Mode::RECORDS, row, marks, workspace);
    let formula = matches!(verdict.number.code(), 1..=6 | 8);
    assert_eq!(verdict.text, Some(if formula { Text::Formula } else { Text::Proof }), "{}", verdict.number);
    // The program's table has 4,096 places.
    if row.0 == 4_096 {
        let said = report(Some(row.1), Some(row.2));
        assert_eq!((said.line(), said.number()), (format!("{verdict}\n").as_str(), verdict.number));
        assert_eq!(said.status(), u8::from(!verdict.refuted()));
    }
}

#[test]
fn lettered_cases() {
    run_all(&[
        (4_096, A, A_PROOF, (0, 12, 2, 1, 8, 10), 4),
        (4_096, A, b"\x52\0\0\x45", (19, 0, 0, 0, 8, 8), 4),
        (4_096, b"p cnf 2 2\n1 2 0\n-1 2 0\n", A_PROOF, (19, 9, 1, 0, 5, 8), 2),
        (4_096, D, D_PROOF, (18, 8, 0, 0, 4, 5), 1),
        (4_096, D, E_PROOF, (20, 11, 1, 0, 5, 6), 1),
        (4_096, D, F_PROOF, (19, 6, 0, 0, 4, 6), 1),
        (4_096, b"p cnf 3 3\n2 3 0\n1 3 0\n1 2 0\n", I_PROOF, (20, 27, 1, 2, 9, 16), 3),
        (4_096, b"p cnf 0 0\n", b"\x52\0\0\x45", (19, 0, 0, 0, 2, 2), 0),
    ]);
}

#[test]
fn formulas() {
    run_all(&[
        (4_096, b"p cnf 2", b"", (1, 0, 0, 0, 2, 2), 0),
        (4_096, b"p cnf 65 1", b"", (2, 0, 0, 0, 2, 2), 0),
        (4_096, b"p cnf 1 1\n-0 0\n", b"", (3, 10, 0, 0, 2, 2), 0),
        (4_096, b"p cnf 2 1\n3 0\n", b"", (4, 10, 0, 0, 2, 2), 0),
        (4_096, b"p cnf 1 2\n1 0\n", b"", (5, 14, 0, 0, 2, 3), 0),
        (4_096, b"p cnf 1 1\n1\n", b"", (6, 10, 0, 0, 2, 2), 0),
        (2, b"p cnf 1 1\n1 0\n", b"", (8, 10, 0, 0, 2, 2), 0),
    ]);
}

/// Lines whose first byte is `c` are passed over anywhere; elsewhere `c` is a token.
#[test]
fn comments() {
    run_all(&[
        (4_096, b"c\np cnf 1 2\nc 1 0\n1\nc 0\n0\nc\n-1 0\nc", b"\x52\0\0\x45", (0, 3, 1, 0, 4, 4), 2),
        (4_096, b"p cnf 1 1\n c\n1 0\n", b"", (3, 11, 0, 0, 2, 2), 0),
        (4_096, b"p cnf 1 1\n1 0\n\rc\n", b"", (5, 15, 0, 0, 2, 3), 0),
        (4_096, b"p cnf 1 1\rc\n1 0\n", b"", (1, 0, 0, 0, 2, 2), 0),
    ]);
}

/// A member that is the diagram 0 is one; above the members there is none.
#[test]
fn zero_is_a_member() {
    let mut workspace = Workspace::new(64).unwrap();
    assert_eq!(workspace.member(0), None);
    check(&mut workspace, b"c p cnf 9 9\n \t\r\np\tcnf 1  2 \r\n1 0 0\n", b"\x52\0\0\x45");
    assert_eq!((workspace.member(1), workspace.member(2)), (Some(NodeNo::ZERO), Some(NodeNo::ZERO)));
    assert_eq!((workspace.members().len(), workspace.member(3)), (3, None));
    check(&mut workspace, b"p cnf 1 3\n1 0 0\n", b"\x45");
    assert_eq!(workspace.members().len(), 0);
}

/// 24 and 25: the formula's before the proof's, and no check.
#[test]
fn files_not_taken() {
    let (long, longest) = (vec![0; 65_537], vec![0; 65_536]);
    for (formula, proof, line, status) in [
        (None, Some(&long[..]), "25 0 0 0 0", 2),
        (Some(&long[..]), None, "24 65536 0 0 0", 2),
        (Some(A), None, "25 0 0 0 0", 2),
        (Some(A), Some(&long[..]), "24 65536 0 0 0", 2),
        (Some(&longest[..]), Some(&longest[..]), "1 0 0 0 2", 1),
        (Some(A), Some(A_PROOF), "0 12 2 1 10", 0),
    ] {
        let said = report(formula, proof);
        assert_eq!((said.to_string().as_str(), said.status()), (line, status));
    }
}

#[test]
fn records() {
    run_all(&[
        (4_096, D, b"\0", (9, 0, 0, 0, 4, 4), 1),
        (4_096, D, b"", (10, 0, 0, 0, 4, 4), 1),
        (4_096, D, b"\x45\x45", (11, 1, 0, 0, 4, 4), 1),
        (4_096, D, b"\x54\0", (12, 0, 0, 0, 4, 4), 1),
        (4_096, D, b"\x52\x02\0", (13, 0, 0, 0, 4, 4), 1),
        (4_096, D, b"\x4E\x02\0\0\x01\0\x4E\x02\x02\0\x01\0", (14, 6, 0, 0, 4, 4), 1),
        (4_096, D, b"\x54\x01\x46\x01", (15, 2, 0, 0, 4, 4), 1),
        (4_096, D, b"\x54\x01\x45", (16, 2, 0, 0, 4, 4), 1),
        (4_096, D, b"\x52\x01\0", (17, 0, 0, 0, 4, 4), 1),
        (4_096, D, b"\x45", (20, 0, 0, 0, 4, 4), 1),
        (3, b"p cnf 2 1\n1 0\n", b"\x4E\x02\0\0\x01\0", (23, 0, 0, 0, 3, 3), 1),
    ]);
}

/// A striking takes a member out of what later lines are judged by, and its mark stays, whatever refuses the proof.
#[test]
fn strikings() {
    let mut workspace = Workspace::new(4_096).unwrap();
    let twice: &[u8] = b"p cnf 1 2\n1 0 1 0\n";
    let zero: &[u8] = b"p cnf 0 1\n0\n";
    let rows: [(Row, &str); 11] = [
        // Case A with clauses 0 and 1 struck once its first line has used them, and with a clause struck that is still wanted.
        ((4_096, A, b"\x4E\x02\0\0\x01\0\x52\x02\0\x44\0\0\x44\x01\0\x52\0\0\x45", (0, 18, 2, 1, 8, 10), 4), "110000"),
        ((4_096, A, b"\x44\0\0\x4E\x02\0\0\x01\0\x52\x02\0", (19, 9, 0, 0, 8, 9), 4), "1000"),
        // In the middle of a line's entries; a 0 line counts though it be struck.
        ((4_096, D, b"\x4E\x02\0\0\x01\0\x44\0\0\x52\x02\0", (19, 9, 0, 0, 4, 5), 1), "1"),
        ((4_096, zero, b"\x52\0\0\x44\x01\0\x45", (0, 6, 1, 0, 2, 2), 1), "01"),
        // 28 and what comes before it: 10, 16.
        ((4_096, twice, b"\x44\x02\0", (28, 0, 0, 0, 3, 3), 2), "00"),
        ((4_096, twice, b"\x44\xFF\xFF", (28, 0, 0, 0, 3, 3), 2), "00"),
        ((4_096, twice, b"\x44\x01\0\x44\x01\0", (28, 3, 0, 0, 3, 3), 2), "01"),
        ((4_096, twice, b"\x54\x01\x44\x09\0", (16, 2, 0, 0, 3, 3), 2), "00"),
        ((4_096, twice, b"\x44\0\0\x44\x01", (10, 3, 0, 0, 3, 3), 2), "10"),
        // All struck: no member, no conflict. Then a refused formula leaves no mark.
        ((4_096, zero, b"\x44\0\0\x52\0\0\x45", (19, 3, 0, 0, 2, 2), 1), "1"),
        ((4_096, b"p cnf 1 2\n1 0", b"\x44\0\0", (5, 13, 0, 0, 2, 3), 0), ""),
    ];
    for (row, marks) in &rows {
        run(row, marks, &mut workspace);
    }
}

/// A record of kind `58` or `4B`, its set given by its variables.
fn set(kind: u8, variables: &[u8], byte: u8) -> Vec<u8> {
    [&[kind], &Variables::of(variables).unwrap().0.to_le_bytes()[..], &[byte]].concat()
}

/// A set record as entry 2, then these bytes.
fn sets(kind: u8, variables: &[u8], byte: u8, rest: &[u8]) -> Vec<u8> {
    [&set(kind, variables, byte), rest].concat()
}

const ODD_EVEN: u8 = 0x58;
const AT_LEAST: u8 = 0x4b;
const LINE: &[u8] = b"\x52\x02\0\x45";

/// Either-or and at-least entries: case I with one record for its four, constants, entries among nodes, behind a witness.
#[test]
fn set_entries() {
    let exactly_one: &[u8] = b"p cnf 2 2\n1 2 0\n-1 -2 0\n";
    let over_two = [set(AT_LEAST, &[2, 3], 1), b"\x4E\x01\0\0\x02\0\x52\x03\0\x45".to_vec()].concat();
    let witnessed = [&b"\x54\x01"[..], &set(AT_LEAST, &[1], 1), b"\x50\x02\0\x45"].concat();
    run_all(&[
        (4_096, b"p cnf 3 3\n2 3 0\n1 3 0\n1 2 0\n", &sets(AT_LEAST, &[1, 2, 3], 2, LINE), (20, 13, 1, 2, 9, 16), 3),
        (4_096, exactly_one, &sets(ODD_EVEN, &[1, 2], 1, LINE), (20, 13, 1, 0, 7, 10), 2),
        (4_096, exactly_one, &sets(ODD_EVEN, &[1, 2], 0, LINE), (19, 10, 0, 0, 6, 8), 2),
        // The empty set is 1 for even and 0 for odd; at least none is 1, and more than there are is 0.
        (4_096, D, &sets(ODD_EVEN, &[], 0, LINE), (17, 10, 0, 0, 4, 4), 1),
        (4_096, D, &sets(ODD_EVEN, &[], 1, LINE), (19, 10, 0, 0, 4, 4), 1),
        (4_096, D, &sets(AT_LEAST, &[1, 2], 0, LINE), (17, 10, 0, 0, 4, 4), 1),
        (4_096, D, &sets(AT_LEAST, &[1, 2], 3, LINE), (19, 10, 0, 0, 4, 4), 1),
        (4_096, D, &sets(AT_LEAST, &[1, 2], 255, LINE), (19, 10, 0, 0, 4, 4), 1),
        // "1 and (2 or 3)", of a formula that is the clause 0.
        (4_096, b"p cnf 3 1\n0\n", &over_two, (20, 19, 1, 0, 5, 8), 1),
        (4_096, D, &witnessed, (20, 15, 1, 0, 5, 6), 1),
    ]);
}

/// After 10 and 21: 12, then 29 of a parity, then 23.
#[test]
fn refused_set_entries() {
    let three: &[u8] = b"p cnf 3 0\n";
    let below = [set(AT_LEAST, &[1, 2], 1), b"\x4E\x01\x02\0\x01\0".to_vec()].concat();
    let constant = [set(AT_LEAST, &[1, 2], 0), b"\x4E\x01\0\0\x02\0\x45".to_vec()].concat();
    run_all(&[
        (4_096, D, b"\x58", (10, 0, 0, 0, 4, 4), 1),
        (4_096, D, &set(ODD_EVEN, &[64], 2)[..9], (10, 0, 0, 0, 4, 4), 1),
        (4_096, D, &set(AT_LEAST, &[64], 2)[..9], (10, 0, 0, 0, 4, 4), 1),
        (4_096, D, &set(ODD_EVEN, &[3], 1), (12, 0, 0, 0, 4, 4), 1),
        (4_096, D, &set(ODD_EVEN, &[1, 64], 2), (12, 0, 0, 0, 4, 4), 1),
        (4_096, D, &set(AT_LEAST, &[3], 0), (12, 0, 0, 0, 4, 4), 1),
        (4_096, D, &set(ODD_EVEN, &[1, 2], 2), (29, 0, 0, 0, 4, 4), 1),
        (4_096, D, &sets(AT_LEAST, &[1], 2, &set(ODD_EVEN, &[], 255)), (29, 10, 0, 0, 4, 4), 1),
        (2, three, &set(ODD_EVEN, &[1, 2, 3], 2), (29, 0, 0, 0, 2, 2), 0),
        // Half made, and then dropped: an odd number of three has five nodes, at least two of them four.
        (6, three, &set(ODD_EVEN, &[1, 2, 3], 1), (23, 0, 0, 0, 2, 6), 0),
        (7, three, &sets(ODD_EVEN, &[1, 2, 3], 1, b"\x45"), (20, 10, 0, 0, 2, 7), 0),
        (5, three, &set(AT_LEAST, &[1, 2, 3], 2), (23, 0, 0, 0, 2, 5), 0),
        (6, three, &sets(AT_LEAST, &[1, 2, 3], 2, b"\x45"), (20, 10, 0, 0, 2, 6), 0),
        // A node over the entry's own variable, and over an entry that is a constant.
        (4_096, D, &below, (14, 10, 0, 0, 4, 4), 1),
        (4_096, D, &constant, (20, 16, 0, 0, 4, 5), 1),
    ]);
}

#[test]
fn too_many() {
    let entries = b"\x4E\x02\0\0\x01\0".repeat(4_097);
    let either = [set(ODD_EVEN, &[2], 1).repeat(2_048), set(AT_LEAST, &[2], 1).repeat(2_048)].concat();
    let (parity, least) = (set(ODD_EVEN, &[64], 2), set(AT_LEAST, &[64], 2));
    let lines = b"\x52\0\0".repeat(1_025);
    run_all(&[
        (4_096, D, &entries, (21, 24_576, 0, 0, 4, 4), 1),
        // The three kinds share the limit, which comes before 12 and 29.
        (4_096, D, &[&either[..], &parity].concat(), (21, 40_960, 0, 0, 4, 4), 1),
        (4_096, D, &[&entries[..24_576], &least].concat(), (21, 24_576, 0, 0, 4, 4), 1),
        (4_096, D, &[&either[..], b"\x45"].concat(), (20, 40_960, 0, 0, 4, 4), 1),
        (4_096, b"p cnf 0 1\n0\n", &lines, (22, 3_072, 1_024, 0, 2, 2), 1),
    ]);
}

/// What case A leaves, place by place: the four clauses over x2 and not-x2, the line "2" and the line 0.
#[test]
fn what_case_a_leaves() {
    let mut lists = Lists::of_size(64);
    assert!(lists.check(A, A_PROOF).refuted());
    assert_eq!(lists.rows(), [(2, 0, 1), (1, 2, 1), (1, 1, 2), (2, 1, 0), (1, 5, 1), (1, 1, 5)]);
    assert_eq!(lists.members[..7], [3, 4, 6, 7, 2, 0, 0]);
}

/// Nodes of entries after the last accepted line are dropped; the clauses stay.
#[test]
fn what_a_refused_proof_leaves() {
    let mut lists = Lists::of_size(64);
    assert_eq!(lists.check(D, F_PROOF).number, Number::NotShown);
    assert_eq!((lists.rows(), &lists.members[..2]), (vec![(2, 0, 1), (1, 2, 1)], &[3, 0][..]));
}
