//! Path lines, the consequence profile and binary DRAT: rows by every call, over dirty lists. Numbers and places are document
//! 02's; rounds, counts and peaks are as the reference checker, written apart, gives them.

use crate::rows::{self, Row};
use cablesalak::{Form, Mode, Number, Text, Variables, Workspace};

const A: &[u8] = b"p cnf 2 4\n1 2 0\n-1 2 0\n1 -2 0\n-1 -2 0\n";
const D: &[u8] = b"p cnf 2 1\n1 2 0\n";
/// Over three variables: `3 1` is RAT on 3 and not RUP, `2 3` is RUP.
const CHAIN: &[u8] = b"p cnf 3 2\n1 2 0\n-1 3 0\n";
/// An odd number of 1, 2, 3 by its clauses.
const ODD: &[u8] = b"p cnf 3 4\n1 2 3 0\n1 -2 -3 0\n-1 2 -3 0\n-1 -2 3 0\n";
/// The clause 0, with room for wide diagrams.
const ZERO: &[u8] = b"p cnf 14 1\n0\n";

const RECORDS: Mode = Mode::RECORDS;
const RECORDS_IN_PROFILE: Mode = Mode::RECORDS.in_consequence_profile();
const TEXT_IN_PROFILE: Mode = Mode::TEXT.in_consequence_profile();
const BINARY: Mode = Mode::BINARY;
const BINARY_IN_PROFILE: Mode = Mode::BINARY.in_consequence_profile();

/// Rows of proofs, each with its mode and its marks.
fn run_all(rows: &[(Mode, Row, &str)]) {
    let mut workspace = Workspace::new(4_096).unwrap();
    for (mode, row, marks) in rows {
        let verdict = rows::run(*mode, row, marks, &mut workspace);
        assert_eq!(verdict.text, Some(Text::Proof), "{verdict}");
    }
}

/// Rows that strike out nothing.
fn run_unstruck(mode: Mode, rows: &[Row]) {
    for row in rows {
        run_all(&[(mode, *row, &"0".repeat(row.4 + row.3 .2))]);
    }
}

/// A parity of these variables as entry 2, then these bytes.
fn parity(variables: &[u8], rest: &[u8]) -> Vec<u8> {
    [&[0x58], &Variables::of(variables).unwrap().0.to_le_bytes()[..], &[1], rest].concat()
}

/// What fails as a RUP line may pass as a path line, outside the profile and in it.
#[test]
fn a_parity_from_its_clauses() {
    let (rup, path) = (parity(&[1, 2, 3], b"\x52\x02\0\x45"), parity(&[1, 2, 3], b"\x51\x02\0\x45"));
    run_unstruck(RECORDS, &[(4_096, ODD, &rup, (19, 10, 0, 0, 12, 22), 4)]);
    for mode in [RECORDS, RECORDS_IN_PROFILE] {
        run_unstruck(mode, &[(4_096, ODD, &path, (20, 13, 1, 0, 15, 15), 4)]);
    }
}

#[test]
fn path_lines() {
    run_unstruck(
        RECORDS,
        &[
            (4_096, A, b"\x4E\x02\0\0\x01\0\x51\x02\0\x51\0\0\x45", (0, 12, 2, 1, 8, 10), 4),
            // The line 0 has one path, of no literal.
            (4_096, A, b"\x51\0\0\x45", (19, 0, 0, 0, 8, 8), 4),
            (4_096, b"p cnf 1 1\n0\n", b"\x51\0\0\x45", (0, 3, 1, 0, 2, 2), 1),
            (4_096, b"p cnf 0 0\n", b"\x51\0\0\x45", (19, 0, 0, 0, 2, 2), 0),
            (4_096, D, b"\x4E\x01\0\0\x01\0\x51\x02\0\x45", (19, 6, 0, 0, 4, 5), 1),
            // As a RUP line: 10, 13, 16, 17.
            (4_096, D, b"\x51\0", (10, 0, 0, 0, 4, 4), 1),
            (4_096, D, b"\x51\x02\0", (13, 0, 0, 0, 4, 4), 1),
            (4_096, D, b"\x54\x01\x51\x02\0", (13, 2, 0, 0, 4, 4), 1),
            (4_096, D, b"\x54\x01\x51\0\0", (16, 2, 0, 0, 4, 4), 1),
            (4_096, D, b"\x51\x01\0", (17, 0, 0, 0, 4, 4), 1),
        ],
    );
    run_all(&[(RECORDS, (4_096, ZERO, b"\x51\0\0\x44\0\0\x51\0\0\x45", (0, 9, 2, 0, 2, 2), 1), "100")]);
}

/// 4,096 paths are tried, and 4,097 refused with 34, after 16 and 22; what has 2^60 paths is refused as fast.
#[test]
fn too_many_paths() {
    let (thirteen, fourteen): (Vec<u8>, Vec<u8>) = ((1..=13).collect(), (1..=14).collect());
    let second: Vec<u8> = (2..=14).collect();
    let many = [&b"\x51\0\0".repeat(1_024)[..], &parity(&fourteen, b"\x51\x02\0\x45")].concat();
    let least = [&[0x4b], &[0xff; 8][..], &[32], b"\x51\x02\0\x45"].concat();
    run_unstruck(
        RECORDS,
        &[
            (4_096, b"p cnf 13 1\n0\n", &parity(&thirteen, b"\x51\x02\0\x45"), (20, 13, 1, 0, 27, 27), 1),
            // Those of 13 variables, and one more.
            (4_096, ZERO, &parity(&second, b"\x4E\x01\x02\0\0\0\x51\x03\0\x45"), (34, 16, 0, 0, 2, 28), 1),
            (4_096, ZERO, &parity(&fourteen, b"\x51\x02\0\x45"), (34, 10, 0, 0, 2, 29), 1),
            (4_096, ZERO, &parity(&fourteen, b"\x54\x01\x51\x02\0"), (16, 12, 0, 0, 2, 29), 1),
            (4_096, ZERO, &many, (22, 3_082, 1_024, 0, 2, 29), 1),
            (65_536, b"p cnf 64 1\n0\n", &least, (34, 10, 0, 0, 2, 1_058), 1),
        ],
    );
}

/// "2 and 4" has two paths: not-2, and 2 with not-4. Each makes nodes, which are dropped before the next: full within a path
/// below 20 places.
#[test]
fn full_within_a_path() {
    let formula = b"p cnf 4 6\n1 2 3 0\n-1 2 3 0\n2 -3 0\n1 3 4 0\n-1 3 4 0\n-3 4 0\n";
    let proof = b"\x4E\x04\0\0\x01\0\x4E\x02\0\0\x02\0\x51\x03\0\x45";
    run_unstruck(RECORDS, &[(13, formula, proof, (23, 6, 0, 0, 13, 13), 6)]);
    for size in 14..20 {
        run_unstruck(RECORDS, &[(size, formula, proof, (23, 12, 0, 0, 13, size), 6)]);
    }
    for size in [20, 21, 4_096] {
        run_unstruck(RECORDS, &[(size, formula, proof, (20, 15, 1, 2, 14, 20), 6)]);
    }
}

/// A PR record is 33 before all but 10; a witness is read and judged as ever.
#[test]
fn the_profile_in_records() {
    let line = b"\x4E\x02\0\0\x01\0\x52\x02\0\x44\0\0\x44\x01\0\x52\0\0\x45";
    run_all(&[(RECORDS_IN_PROFILE, (4_096, A, line, (0, 18, 2, 1, 8, 10), 4), "110000")]);
    let zeros = [&b"\x52\0\0".repeat(1_024)[..], b"\x50\0\0"].concat();
    run_unstruck(
        RECORDS_IN_PROFILE,
        &[
            (4_096, D, b"\x4E\x01\0\0\x01\0\x54\x01\x50\x02\0\x45", (33, 8, 0, 0, 4, 5), 1),
            (4_096, D, b"\x4E\x01\0\0\x01\0\x46\x01\x50\x02\0\x45", (33, 8, 0, 0, 4, 5), 1),
            (4_096, D, b"\x50\x09\0", (33, 0, 0, 0, 4, 4), 1),
            (4_096, D, b"\x50\x01\0", (33, 0, 0, 0, 4, 4), 1),
            (4_096, D, b"\x50\x09", (10, 0, 0, 0, 4, 4), 1),
            (4_096, D, b"\x54\x01\x52\x02\0", (13, 2, 0, 0, 4, 4), 1),
            (4_096, D, b"\x54\x01\x46\x01\x50\x02\0", (15, 2, 0, 0, 4, 4), 1),
            (4_096, D, b"\x54\x01\x45", (16, 2, 0, 0, 4, 4), 1),
            (2, b"p cnf 0 1\n0\n", &zeros, (33, 3_072, 1_024, 0, 2, 2), 1),
            (4_096, b"p cnf 0 1\n0\n", b"\x52\0\0\x45", (0, 3, 1, 0, 2, 2), 1),
        ],
    );
}

/// DRAT clauses by their first try alone.
#[test]
fn the_profile_of_clauses() {
    run_unstruck(
        TEXT_IN_PROFILE,
        &[
            (4_096, D, b"1 0\n", (19, 0, 0, 0, 4, 6), 1),
            (4_096, CHAIN, b"3 1 0", (19, 0, 0, 0, 6, 9), 2),
            (4_096, CHAIN, b"2 3 0", (20, 5, 1, 0, 7, 11), 2),
        ],
    );
    run_unstruck(
        BINARY_IN_PROFILE,
        &[
            (4_096, CHAIN, b"\x61\x06\x02\0", (19, 0, 0, 0, 6, 9), 2),
            (4_096, CHAIN, b"\x61\x04\x06\0", (20, 4, 1, 0, 7, 11), 2),
        ],
    );
    let struck = b"2 0 d 2 1 0 d -1 2 0 0";
    run_all(&[(TEXT_IN_PROFILE, (4_096, A, struck, (0, 22, 2, 1, 8, 10), 4), "110000")]);
}

/// The rows of texts in binary.
#[test]
fn binary_clauses() {
    run_unstruck(
        BINARY,
        &[
            (4_096, A, b"\x61\x04\0\x61\0", (0, 5, 2, 1, 8, 10), 4),
            (4_096, A, b"\x61\0", (19, 0, 0, 0, 8, 8), 4),
            (4_096, D, b"\x61\x02\0", (20, 3, 1, 0, 5, 6), 1),
            (4_096, CHAIN, b"\x61\x02\x06\0", (19, 0, 0, 0, 6, 9), 2),
            (4_096, CHAIN, b"\x61\x06\x02\0", (20, 4, 1, 0, 7, 10), 2),
            (4_096, CHAIN, b"\x61\x04\x02\x04\0", (20, 5, 1, 0, 6, 8), 2),
            (4_096, D, b"", (20, 0, 0, 0, 4, 4), 1),
            (4_096, b"p cnf 64 1\n-64 0\n", b"\x61\x81\x01\0", (20, 4, 1, 0, 3, 4), 1),
            (3, b"p cnf 2 1\n1 0\n", b"\x61\x04\0", (23, 0, 0, 0, 3, 3), 1),
            (9, A, b"\x61\x04\0\x61\0", (23, 0, 0, 0, 8, 9), 4),
        ],
    );
    run_all(&[
        (BINARY, (4_096, A, b"\x61\x04\0\x64\x04\x02\0\x64\x03\x04\0\x61\0", (0, 13, 2, 1, 8, 10), 4), "110000"),
        (BINARY, (4_096, A, b"\x61\x04\0\x64\x02\x05\0\x61\0", (19, 7, 1, 0, 8, 10), 4), "00100"),
    ]);
}

/// Per literal 6, then 31, then 4; the places are the opening byte or the literal.
#[test]
fn binary_refusals() {
    let lines = [&b"\x61\0".repeat(1_024)[..], b"\x61\x02\x03\0"].concat();
    run_unstruck(
        BINARY,
        &[
            (4_096, D, b"\x61", (6, 0, 0, 0, 4, 4), 1),
            (4_096, D, b"\x61\x02", (6, 0, 0, 0, 4, 4), 1),
            (4_096, D, b"\x61\x02\0\x64\x82", (6, 3, 1, 0, 5, 6), 1),
            (4_096, D, b"\x61\x80\0\0", (31, 1, 0, 0, 4, 4), 1),
            (4_096, D, b"\x61\x01", (31, 1, 0, 0, 4, 4), 1),
            (4_096, D, b"\x61\x02\x82\0\0", (31, 2, 0, 0, 4, 4), 1),
            (4_096, D, b"\x61\x06\0", (4, 1, 0, 0, 4, 4), 1),
            (4_096, D, b"\x64\x02\x81\x01\0", (4, 2, 0, 0, 4, 4), 1),
            (4_096, D, b"\x61\x02\0\x62", (9, 3, 1, 0, 5, 6), 1),
            (4_096, D, b"1 0\n", (9, 0, 0, 0, 4, 4), 1),
            (4_096, D, b"\x61\x02\x03\0", (17, 0, 0, 0, 4, 4), 1),
            (4_096, D, b"\x64\x02\0", (28, 0, 0, 0, 4, 4), 1),
            (2, b"p cnf 1 1\n0\n", &lines, (22, 2_048, 1_024, 0, 2, 2), 1),
        ],
    );
}

/// 4 and 6 are said of the formula and of a binary proof.
#[test]
fn which_text() {
    let mut workspace = Workspace::new(64).unwrap();
    for (number, clause, proof) in
        [(Number::LiteralBeyondHeader, "2 0", b"\x61\x04"), (Number::ClauseOpen, "1", b"\x61\x02")]
    {
        let formula = format!("p cnf 1 1\n{clause}");
        let said = workspace.check(BINARY, formula.as_bytes(), proof);
        assert_eq!((said.number, said.text), (number, Some(Text::Formula)));
        let said = workspace.check(BINARY, b"p cnf 1 0\n", proof);
        assert_eq!((said.number, said.text), (number, Some(Text::Proof)));
    }
}

/// A report of a file that is not taken leaves the workspace empty all the same.
#[test]
fn files_not_taken() {
    let (mut workspace, long) = (Workspace::new(64).unwrap(), vec![0; 65_537]);
    for form in [Form::Records, Form::Text, Form::Binary] {
        for consequence in [false, true] {
            let mode = Mode { form, consequence };
            workspace.check(RECORDS, A, b"");
            let said = workspace.report(mode, Some(A), None);
            assert_eq!((said.line(), said.status(), said.number()), ("25 0 0 0 0\n", 2, Number::FileUnreadable));
            assert_eq!((workspace.members().len(), workspace.table().count()), (0, 2));
            let said = workspace.report(mode, Some(&long), None);
            assert_eq!((said.line(), said.status(), said.number()), ("24 65536 0 0 0\n", 2, Number::FileTooLong));
        }
    }
}
