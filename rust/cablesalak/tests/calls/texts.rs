//! DRAT text proofs: the rows of document 02's request, proofs of solvers, and damaged copies of them.

use crate::lent::Lists;
use crate::rows::{self, Row};
use cablesalak::{check_text, Mode, Number, Text, Verdict, Workspace, MEMBERS, SCRATCH};

const A: &[u8] = b"p cnf 2 4\n1 2 0\n-1 2 0\n1 -2 0\n-1 -2 0\n";
const D: &[u8] = b"p cnf 2 1\n1 2 0\n";
/// Over three variables: `1 3` is RAT on 3 and not on 1.
const CHAIN: &[u8] = b"p cnf 3 2\n1 2 0\n-1 3 0\n";

/// Rows whose place is in this text, each with its marks.
fn run_all(text: Text, rows: &[(Row, &str)]) {
    let mut workspace = Workspace::new(4_096).unwrap();
    for (row, marks) in rows {
        let verdict = rows::run(Mode::TEXT, row, marks, &mut workspace);
        assert_eq!(verdict.text, Some(text), "{verdict}");
    }
}

/// The first try, the second by the pivot as it is written, and the end of the text.
#[test]
fn clauses() {
    run_all(
        Text::Proof,
        &[
            ((4_096, A, b"2 0\n0\n", (0, 6, 2, 1, 8, 10), 4), "000000"),
            ((4_096, A, b"2 0 0", (0, 5, 2, 1, 8, 10), 4), "000000"),
            ((4_096, A, b"0", (19, 0, 0, 0, 8, 8), 4), "0000"),
            ((4_096, D, b"1 0\n", (20, 4, 1, 0, 5, 6), 1), "00"),
            ((4_096, D, b"-1 0\n", (19, 0, 0, 0, 4, 7), 1), "0"),
            ((4_096, CHAIN, b"1 3 0", (19, 0, 0, 0, 6, 9), 2), "00"),
            ((4_096, CHAIN, b"3 1 0", (20, 5, 1, 0, 7, 10), 2), "000"),
            ((4_096, CHAIN, b"2 1 2 0", (20, 7, 1, 0, 6, 8), 2), "000"),
            ((4_096, D, b"", (20, 0, 0, 0, 4, 4), 1), "0"),
            ((4_096, b"p cnf 1 2\n0\n1 0\n", b"", (20, 0, 0, 0, 3, 3), 2), "00"),
            // Text behind the empty clause is judged like the rest.
            ((4_096, b"p cnf 1 1\n0\n", b"0 1 0", (0, 5, 2, 0, 3, 4), 1), "000"),
            ((4_096, A, b"2 0 0 d 0 1", (6, 10, 2, 1, 8, 10), 4), "000001"),
        ],
    );
}

/// The lowest live member that is the same clause, in any order and with repeats.
#[test]
fn strikings() {
    let twice: &[u8] = b"p cnf 1 2\n1 0 1 0\n";
    run_all(
        Text::Proof,
        &[
            ((4_096, A, b"2 0 d 2 1 0 d -1 2 0 0", (0, 22, 2, 1, 8, 10), 4), "110000"),
            ((4_096, A, b"2 0 d 1 -2 0 0", (19, 13, 1, 0, 8, 10), 4), "00100"),
            ((4_096, A, b"2 0 0 0 d 0 d 0 d 2 1 0", (0, 23, 3, 1, 8, 10), 4), "1000011"),
            ((4_096, D, b"d 1 0", (28, 0, 0, 0, 4, 4), 1), "0"),
            ((4_096, D, b"d 2 1 2 0 d 1 2 0", (28, 10, 0, 0, 4, 4), 1), "1"),
            ((4_096, twice, b"d 1 0\nd 1 0\nd 1 0\n", (28, 12, 0, 0, 3, 3), 2), "11"),
            // The constants.
            ((4_096, b"p cnf 1 2\n1 -1 0 0\n", b"d 1 -1 0 d 0 0", (19, 13, 0, 0, 2, 2), 2), "11"),
        ],
    );
}

#[test]
fn tokens_and_comments() {
    run_all(
        Text::Proof,
        &[
            ((4_096, D, b"c 1 0\nc", (20, 7, 0, 0, 4, 4), 1), "0"),
            ((4_096, A, b"c x\n2\nc 0\n 0\nd\nc\n1 2 0\n0\nc", (0, 26, 2, 1, 8, 10), 4), "100000"),
            ((4_096, A, b"2 0\n 0 c\n", (3, 7, 2, 1, 8, 10), 4), "000000"),
            ((4_096, D, b"1 x 0", (3, 2, 0, 0, 4, 4), 1), "0"),
            ((4_096, D, b"d1 0", (3, 0, 0, 0, 4, 4), 1), "0"),
            ((4_096, D, b"1 d 0", (3, 2, 0, 0, 4, 4), 1), "0"),
            ((4_096, D, b"d d 1 0", (3, 2, 0, 0, 4, 4), 1), "0"),
            ((4_096, D, b"D 1 0", (3, 0, 0, 0, 4, 4), 1), "0"),
            ((4_096, D, b"1 -0 0", (3, 2, 0, 0, 4, 4), 1), "0"),
            ((4_096, D, b"1 3 0", (4, 2, 0, 0, 4, 4), 1), "0"),
            ((4_096, D, b" 1 -3 x", (4, 3, 0, 0, 4, 4), 1), "0"),
            ((4_096, D, b"d 1 3", (4, 4, 0, 0, 4, 4), 1), "0"),
            ((4_096, D, b"\n1 2", (6, 1, 0, 0, 4, 4), 1), "0"),
            ((4_096, D, b"1 0 d", (6, 4, 1, 0, 5, 6), 1), "00"),
            ((4_096, D, b"1 0 d 1\n", (6, 4, 1, 0, 5, 6), 1), "00"),
            ((4_096, D, b"2 1 -2 0", (17, 0, 0, 0, 4, 4), 1), "0"),
        ],
    );
}

/// 3, 4 and 6 with no line and no node are told apart by the text alone.
#[test]
fn which_text() {
    let (none, proof): (&[u8], _) = (b"p cnf 1 0", Text::Proof);
    let [bad, beyond, open] = [(b"-0 0", 3), (b"2  0", 4), (b"1   ", 6)];
    for (token, number) in [bad, beyond, open] {
        run_all(proof, &[((4_096, none, token, (number, 0, 0, 0, 2, 2), 0), "")]);
        let formula = [&b"p cnf 1 1\n"[..], token].concat();
        run_all(Text::Formula, &[((4_096, &formula, b"x", (number, 10, 0, 0, 2, 2), 0), "")]);
    }
    run_all(
        Text::Formula,
        &[
            ((4_096, b"p cnf 2", b"0", (1, 0, 0, 0, 2, 2), 0), ""),
            ((4_096, b"p cnf 1 2\n1 0", b"0", (5, 13, 0, 0, 2, 3), 0), ""),
            ((2, b"p cnf 1 1\n1 0\n", b"1", (8, 10, 0, 0, 2, 2), 0), ""),
        ],
    );
}

/// Full at the clause's diagram, then at not-g; a clause with both signs and one too many ask for no room.
#[test]
fn room_and_lines() {
    let lines = |last: &[u8]| [&b"0 ".repeat(1_024), last].concat();
    let zero: &[u8] = b"p cnf 1 1\n0\n";
    let marks = "0".repeat(1_025);
    run_all(
        Text::Proof,
        &[
            ((3, b"p cnf 2 1\n1 0\n", b"2 0", (23, 0, 0, 0, 3, 3), 1), "0"),
            ((8, A, b"2 0 0", (23, 0, 0, 0, 8, 8), 4), "0000"),
            ((9, A, b"2 0 0", (23, 0, 0, 0, 8, 9), 4), "0000"),
            ((10, A, b"2 0 0", (0, 5, 2, 1, 8, 10), 4), "000000"),
            ((4, D, b"1 -1 0", (17, 0, 0, 0, 4, 4), 1), "0"),
            ((2, zero, &lines(b"1 -1 0"), (22, 2_048, 1_024, 0, 2, 2), 1), &marks),
            ((2, zero, &lines(b"1 1"), (6, 2_048, 1_024, 0, 2, 2), 1), &marks),
            ((2, zero, &lines(b"1 2"), (4, 2_050, 1_024, 0, 2, 2), 1), &marks),
            ((2, zero, &lines(b"d 0"), (0, 2_051, 1_024, 0, 2, 2), 1), &format!("1{}", &marks[1..])),
        ],
    );
}

#[test]
fn wrong_sizes() {
    for (members, scratch) in [(MEMBERS - 1, SCRATCH), (MEMBERS, SCRATCH - 1)] {
        let mut lists = Lists::dirty(16, members, scratch);
        let before = lists.clone();
        let verdict = lists.check_text(b"p cnf 0 1\n0\n", b"0");
        assert_eq!((verdict.to_string(), verdict.count, verdict.text), ("7 0 0 0 0".into(), 9, None));
        assert_eq!(lists, before);
    }
}

/// A formula, a proof of it from outside, and the line for the two: those of examples/drat.
pub type Outside = (&'static [u8], &'static [u8], &'static str);

macro_rules! outside {
    ($formula:literal, $proof:literal, $line:literal) => {
        (
            include_bytes!(concat!("../../../../examples/drat/", $formula)),
            include_bytes!(concat!("../../../../examples/drat/", $proof)),
            $line,
        )
    };
}

pub const OUTSIDE: [Outside; 7] = [
    outside!("pigeons.cnf", "pigeons-cadical.drat", "0 552 48 461 149"),
    outside!("pigeons.cnf", "pigeons-cryptominisat.drat", "0 1076 58 406 208"),
    outside!("parities.cnf", "parities-cadical.drat", "0 1048 52 256 231"),
    outside!("rota.cnf", "rota-cadical.drat", "0 695 59 492 707"),
    outside!("rota.cnf", "rota-cryptominisat.drat", "0 2377 91 362 666"),
    outside!("three-sat.cnf", "three-sat-cadical.drat", "0 4285 201 3162 1369"),
    outside!("pigeons-extended.cnf", "pigeons-extended.drat", "0 3817 140 433 322"),
];

#[test]
fn proofs_of_solvers() {
    let mut workspace = Workspace::new(4_096).unwrap();
    for (formula, proof, line) in OUTSIDE {
        assert_eq!(check_text(&mut workspace, formula, proof).to_string(), line);
    }
}

fn is(verdict: Verdict, number: Number, place: usize) {
    assert_eq!((verdict.number, verdict.place, verdict.text), (number, place, Some(Text::Proof)), "{verdict}");
}

/// Copies with one fault: the empty clause left out or put first, a token changed, a clause cut, a clause struck that is none.
#[test]
fn damaged_proofs() {
    let mut workspace = Workspace::new(4_096).unwrap();
    for (formula, proof, _) in OUTSIDE {
        let mut says = |text: &[u8]| check_text(&mut workspace, formula, text);
        let empty = proof.len() - 2;
        assert_eq!(proof[empty - 1..], *b"\n0\n");
        is(says(&proof[..empty]), Number::NoZeroLine, empty);
        is(says(&[b"0\n", proof].concat()), Number::NotShown, 0);
        is(says(&[b"d -1 1 0\n", proof].concat()), Number::NoSuchMember, 0);
        // A line in the middle, its first token and its end.
        let start = proof[..proof.len() / 2].iter().rposition(|byte| *byte == b'\n').unwrap() + 1;
        let (before, rest) = proof.split_at(start);
        let end = rest.iter().position(|byte| *byte == b'\n').unwrap();
        is(says(&[before, b"x ", rest].concat()), Number::NotANumber, start);
        is(says(&[before, b"-65 ", rest].concat()), Number::LiteralBeyondHeader, start);
        is(says(&[before, &rest[..end - 1]].concat()), Number::ClauseOpen, start);
        is(says(&[before, b"1 2 -1 0 ", rest].concat()), Number::AlwaysTrue, start);
        let line = says(&[before, b"0 ", rest].concat());
        is(line, Number::NotShown, start);
        assert_eq!(line.lines, before.split(|byte| *byte == b'\n').filter(|line| added(line)).count());
    }
}

fn added(line: &[u8]) -> bool {
    !line.is_empty() && !line.starts_with(b"d ")
}

/// Without any one of their clauses the pigeons and the parities can be met, so that no proof of theirs passes.
#[test]
fn clauses_left_out() {
    let mut workspace = Workspace::new(4_096).unwrap();
    for (formula, proof, _) in &OUTSIDE[..3] {
        let text = std::str::from_utf8(formula).unwrap();
        let (header, clauses) = text.split_once('\n').unwrap();
        let clauses: Vec<&str> = clauses.lines().collect();
        let variables = header.split(' ').nth(2).unwrap();
        for left_out in 0..clauses.len() {
            let kept =
                clauses.iter().enumerate().filter(|(at, _)| *at != left_out).map(|(_, clause)| format!("{clause}\n"));
            let formula = format!("p cnf {variables} {}\n{}", clauses.len() - 1, kept.collect::<String>());
            let verdict = check_text(&mut workspace, formula.as_bytes(), proof);
            assert!(matches!(verdict.number, Number::NotShown | Number::NoSuchMember), "{verdict}");
        }
    }
}
