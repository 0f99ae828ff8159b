//! The rows of `crates/small_verdict/specs/Rows`, sizes, and what the lists hold afterwards.

use cablesalak_small::{small_lent, Verdict, MEMBERS, SCRATCH};

const A: &[u8] = b"p cnf 2 4\n1 2 0\n-1 2 0\n1 -2 0\n-1 -2 0\n";
const D: &[u8] = b"p cnf 2 1\n1 2 0\n";
const PARITIES: &[u8] = b"p cnf 4 6\n1 2 3 0\n-1 -2 3 0\n-1 2 -3 0\n1 -2 -3 0\n3 4 0\n-3 -4 0\n";
const TWO_OF_THREE: &[u8] = b"p cnf 3 3\n2 3 0\n1 3 0\n1 2 0\n";

/// Formula, proof, number, whether the place is in the proof, place, lines, rounds.
type Row = (&'static [u8], &'static [u8], u8, bool, usize, usize, u64);

const ROWS: &[Row] = &[
    (b"p cnf 7 1\n8 0\n", b"E", 2, false, 0, 0, 0),
    (b"p cnf 7 0\n", b"", 2, false, 0, 0, 0),
    (b"c\np cnf 7 1025\n", b"E", 2, false, 2, 0, 0),
    (b"p cnf 7", b"E", 1, false, 0, 0, 0),
    (b"p cnf 6 1\n7 0\n", b"E", 4, false, 10, 0, 0),
    (A, b"N\x02\0\0\x01\0R\x02\0R\0\0E", 0, true, 12, 2, 1),
    (A, b"N\x02\0\0\x01\0Q\x02\0Q\0\0E", 0, true, 12, 2, 1),
    (D, b"N\x01\0\0\x01\0T\x01P\x02\0E", 20, true, 11, 1, 0),
    (D, b"N\x01\0\0\x01\0F\x01P\x02\0E", 18, true, 8, 0, 0),
    (A, b"D\0\0N\x02\0\0\x01\0R\x02\0R\0\0E", 19, true, 9, 0, 0),
    (PARITIES, b"X\x0b\0\0\0\0\0\0\0\0Q\x02\0E", 20, true, 13, 1, 0),
    (PARITIES, b"X\x0b\0\0\0\0\0\0\0\0R\x02\0E", 19, true, 10, 0, 0),
    (TWO_OF_THREE, b"K\x07\0\0\0\0\0\0\0\x02R\x02\0E", 20, true, 13, 1, 2),
    (b"p cnf 6 0\n", b"X\x3f\0\0\0\0\0\0\0\x01Q\x02\0E", 19, true, 10, 0, 0),
    (D, b"T\x01D\x09\0", 16, true, 2, 0, 0),
    (D, b"EE", 11, true, 1, 0, 0),
    (D, b"\0", 9, true, 0, 0, 0),
];

#[test]
fn rows() {
    for &(formula, proof, number, in_proof, place, lines, rounds) in ROWS {
        let (mut members, mut struck, mut scratch) = (vec![!0; MEMBERS], vec![0xa5; MEMBERS], vec![!0; SCRATCH]);
        let verdict = small_lent(&mut members, &mut struck, &mut scratch, formula, proof);
        assert_eq!(verdict, Verdict { number, in_proof, place, lines, rounds }, "{formula:?} {proof:?}");
        assert!(members.iter().chain(&scratch).all(|&word| word == 0) && struck.iter().all(|&mark| mark == 0));
    }
}

#[test]
fn seven_changes_nothing() {
    for (members, struck, scratch) in [
        (MEMBERS - 1, MEMBERS - 1, SCRATCH),
        (MEMBERS, MEMBERS - 1, SCRATCH),
        (MEMBERS, MEMBERS, SCRATCH - 1),
        (0, 0, 0),
    ] {
        let mut lists = (vec![3; members], vec![4; struck], vec![5; scratch]);
        let before = lists.clone();
        let verdict = small_lent(&mut lists.0, &mut lists.1, &mut lists.2, A, b"E");
        assert_eq!(verdict, Verdict { number: 7, in_proof: false, place: 0, lines: 0, rounds: 0 });
        assert_eq!(lists, before);
    }
    let mut longer = (vec![3; MEMBERS + 9], vec![4; MEMBERS + 9], vec![5; SCRATCH + 9]);
    assert_eq!(small_lent(&mut longer.0, &mut longer.1, &mut longer.2, A, b"E").number, 20);
    assert!(longer.0.iter().chain(&longer.2).all(|&word| word == 0) && longer.1.iter().all(|&mark| mark == 0));
}
