//! Sessions of two books: what is shared, what is charged, what binds; and every number of a call once.

mod common;

use cablesalak_books::{Answer, Book, Books, NotOpened};
use common::{Lists, A, END, TWO, ZERO};

/// The calls of a book, each with its answer.
fn plays(books: &mut Books, book: Book, calls: &[(&[u8], &str)]) {
    for (bytes, wanted) in calls {
        assert_eq!(books.call(book, bytes).to_string(), *wanted, "{bytes:?}");
    }
}

/// Case A in both books on 22 places. The first book is refuted and repeats that; the second has no line of its own.
#[test]
fn case_a_twice() {
    let mut books = Books::open(22, [10, 10]).unwrap();
    plays(&mut books, Book::First, &[(A, "35 38 0 0 6")]);
    plays(&mut books, Book::Second, &[(A, "35 38 0 0 6")]);
    assert_eq!((books.bound(Book::First), books.share(Book::Second)), (None, 10));
    let calls = [(TWO, "35 9 1 0 8"), (ZERO, "35 3 2 1 8"), (END, "0 0 2 1 8"), (b"", "0 0 2 1 8"), (A, "0 0 2 1 8")];
    plays(&mut books, Book::First, &calls);
    plays(&mut books, Book::Second, &[(ZERO, "19 0 0 0 6"), (TWO, "19 0 0 0 6")]);
    assert_eq!(books.bound(Book::First), Some(Answer { number: 0, place: 0, lines: 2, rounds: 1, peak: 8 }));
    assert_eq!(books.bound(Book::Second).map(|answer| answer.number), Some(19));
}

/// Both books' clauses are the same six nodes: 8 places are taken, and not 14.
#[test]
fn nodes_are_shared() {
    let mut lists = Lists::opened(22, [10, 10]);
    assert_eq!(lists.says(0, A), [35, 38, 0, 0, 6]);
    assert_eq!(lists.count, 8);
    assert_eq!(lists.says(1, A), [35, 38, 0, 0, 6]);
    assert_eq!(lists.count, 8);
    assert_eq!(lists.held[0].members, lists.held[1].members);
    // "2" is one of them.
    assert_eq!(lists.says(1, TWO), [35, 9, 1, 0, 8]);
    assert_eq!((lists.count, lists.held[1].kept.charge), (8, 6));
}

/// A share that is one too small: 8 at the clause though the other book has the node, and 23 at an entry that the other book has.
#[test]
fn a_node_is_charged_whoever_placed_it() {
    let mut books = Books::open(22, [10, 5]).unwrap();
    plays(&mut books, Book::First, &[(A, "35 38 0 0 6")]);
    plays(&mut books, Book::Second, &[(A, "8 30 0 0 5")]);
    let mut books = Books::open(12, [8, 2]).unwrap();
    plays(&mut books, Book::First, &[(b"p cnf 3 1\n1 2 3 0\n", "35 18 0 0 3")]);
    let line = b"\x4E\x03\0\0\x01\0\x4E\x02\x02\0\x01\0\x4E\x01\x03\0\x01\0\x52\x04\0";
    plays(&mut books, Book::First, &[(line, "35 21 1 0 6")]);
    plays(&mut books, Book::Second, &[(b"p cnf 3 0\n", "35 10 0 0 0"), (line, "23 12 0 0 2")]);
}

/// "Bytes after a line are 11, just after 10": before 13 and 17. Strikings alone, and no bytes, are 10, and it binds.
#[test]
fn a_call_is_a_line_or_the_end() {
    let rows: &[(&[u8], &str)] = &[
        (b"\x52\x01\0\x45", "11 3 0 0 6"),
        (b"\x52\x09\0\x45", "11 3 0 0 6"),
        (b"\x52\x01\0", "17 0 0 0 6"),
        (b"\x52\x09\0", "13 0 0 0 6"),
        (b"\x54\x01\x52", "10 2 0 0 6"),
        (b"\x44\0\0", "10 3 0 0 6"),
        (b"", "10 0 0 0 6"),
        (b"\x45\x45", "11 1 0 0 6"),
        (b"\x54\x01\x45", "16 2 0 0 6"),
    ];
    for row in rows {
        let mut books = Books::open(22, [10, 10]).unwrap();
        plays(&mut books, Book::First, &[(A, "35 38 0 0 6"), *row, (TWO, row.1)]);
        plays(&mut books, Book::Second, &[(A, "35 38 0 0 6"), (TWO, "35 9 1 0 8")]);
    }
}

/// A refused call's marks stay, its nodes do not.
#[test]
fn a_refused_call() {
    let mut lists = Lists::opened(22, [10, 10]);
    lists.says(0, A);
    let before = lists.clone();
    assert_eq!(lists.says(0, b"\x44\x02\0\x4E\x01\0\0\x01\0\x52\x02\0"), [19, 9, 0, 0, 8]);
    assert_eq!((&lists.vars, lists.count), (&before.vars, 8));
    assert_eq!((&lists.held[0].members, &lists.held[0].own), (&before.held[0].members, &before.held[0].own));
    assert_eq!(lists.held[0].struck[..4], [0, 0, 1, 0]);
    // A refused formula leaves nothing.
    assert_eq!(lists.says(1, b"p cnf 1 2\n1 0\n2 0\n"), [4, 14, 0, 0, 1]);
    assert_eq!((lists.count, lists.held[1].members[0], lists.held[1].kept.charge), (8, 0, 0));
}

/// Every number of a book's first call, and its place.
#[test]
fn numbers_of_a_formula() {
    let rows: &[(&[u8], &str)] = &[
        (b"p cnf x", "1 0 0 0 0"),
        (b"p cnf 65 0\n", "2 0 0 0 0"),
        (b"p cnf 1 1\nx 0\n", "3 10 0 0 0"),
        (b"p cnf 1 1\n2 0\n", "4 10 0 0 0"),
        (b"p cnf 1 2\n1 0\n", "5 14 0 0 1"),
        (b"p cnf 1 1\n1", "6 10 0 0 0"),
        (b"p cnf 3 1\n1 2 3 0\n", "8 10 0 0 2"),
        (b"p cnf 2 1\n1 2 0\n", "35 16 0 0 2"),
    ];
    for row in rows {
        let mut books = Books::open(6, [2, 2]).unwrap();
        let again = if row.1.starts_with("35") { "10 0 0 0 2" } else { row.1 };
        plays(&mut books, Book::Second, &[*row, (b"", again)]);
    }
}

/// Every number of a book's later calls but 22, and its place.
#[test]
fn numbers_of_a_line() {
    let parity = |set: &[u8; 2], odd: u8, rest: &[u8]| [b"\x58", &set[..], &[0; 6], &[odd], rest].concat();
    let entries = [parity(&[0, 0], 0, b"").repeat(4_097), ZERO.to_vec()].concat();
    let rows: &[(&[u8], &[u8], &str)] = &[
        (A, b"\xff", "9 0 0 0 6"),
        (A, b"\x4E\x02", "10 0 0 0 6"),
        (A, b"\x52\0\0\0", "11 3 0 0 6"),
        (A, b"\x4E\x03\0\0\x01\0", "12 0 0 0 6"),
        (A, b"\x52\x02\0", "13 0 0 0 6"),
        (A, b"\x4E\x02\0\0\x01\0\x4E\x02\x02\0\0\0", "14 6 0 0 6"),
        (A, b"\x54\x01\x46\x01", "15 2 0 0 6"),
        (A, b"\x54\x01\x52\0\0", "16 2 0 0 6"),
        (A, b"\x52\x01\0", "17 0 0 0 6"),
        (b"p cnf 2 1\n1 2 0\n", b"\x4E\x01\0\0\x01\0\x46\x01\x50\x02\0", "18 8 0 0 3"),
        (A, ZERO, "19 0 0 0 6"),
        (A, END, "20 0 0 0 6"),
        (A, &entries, "21 40960 0 0 6"),
        (b"p cnf 14 0\n", &parity(&[0xff, 0x3f], 1, ZERO), "23 0 0 0 26"),
        (A, b"\x44\x09\0", "28 0 0 0 6"),
        (A, &parity(&[1, 0], 2, ZERO), "29 0 0 0 6"),
        (A, TWO, "35 9 1 0 8"),
    ];
    for (formula, bytes, wanted) in rows {
        let mut books = Books::open(54, [26, 26]).unwrap();
        assert_eq!(books.call(Book::First, formula).number, 35);
        plays(&mut books, Book::First, &[(bytes, wanted)]);
    }
    // 14 variables have 8,192 odd assignments, and as many paths to 0.
    let mut books = Books::open(56, [27, 27]).unwrap();
    let path = parity(&[0xff, 0x3f], 1, b"\x51\x02\0");
    plays(&mut books, Book::Second, &[(b"p cnf 14 0\n", "35 11 0 0 0"), (&path, "34 10 0 0 27")]);
}

/// 22 at the 1,025th line. An empty clause is a conflict by itself, so that every line passes.
#[test]
fn too_many_lines() {
    let mut books = Books::open(6, [2, 2]).unwrap();
    assert_eq!(books.call(Book::First, b"p cnf 1 1\n0\n").number, 35);
    for line in 1..=1_024 {
        assert_eq!(books.call(Book::First, ZERO).to_string(), format!("35 3 {line} 0 0"));
    }
    plays(&mut books, Book::First, &[(ZERO, "22 0 1024 0 0")]);
    plays(&mut books, Book::Second, &[(b"p cnf 1 1\n0\n", "35 12 0 0 0"), (ZERO, "35 3 1 0 0"), (END, "0 0 1 0 0")]);
}

/// 7 and 32. A refused opening leaves the books that are there.
#[test]
fn openings() {
    for (places, shares, number) in [
        (1, [0, 0], 7),
        (65_537, [0, 0], 7),
        (usize::MAX, [0, 0], 7),
        (22, [10, 11], 32),
        (2, [0, 1], 32),
        (22, [usize::MAX, usize::MAX], 32),
        (22, [usize::MAX - 1, 1], 32),
    ] {
        assert_eq!(Books::open(places, shares).err(), Some(NotOpened { number }));
    }
    assert!(Books::open(2, [0, 0]).is_ok() && Books::open(22, [20, 0]).is_ok());
    let mut books = Books::open(22, [10, 10]).unwrap();
    plays(&mut books, Book::First, &[(A, "35 38 0 0 6"), (TWO, "35 9 1 0 8")]);
    let refused = books.reopen([10, 11]).unwrap_err();
    assert_eq!(refused.to_string(), "two books' shares do not fit the table");
    plays(&mut books, Book::First, &[(ZERO, "35 3 2 1 8")]);
    books.reopen([20, 0]).unwrap();
    plays(&mut books, Book::First, &[(A, "35 38 0 0 6")]);
    assert_eq!(format!("{books:?}"), "Books { places: 22, shares: [20, 0], .. }");
}

/// A share of no place holds what needs no node.
#[test]
fn no_place() {
    let mut books = Books::open(2, [0, 0]).unwrap();
    plays(&mut books, Book::First, &[(b"p cnf 0 1\n0\n", "35 12 0 0 0"), (ZERO, "35 3 1 0 0"), (END, "0 0 1 0 0")]);
    plays(&mut books, Book::Second, &[(b"p cnf 1 1\n1 0\n", "8 10 0 0 0")]);
}
