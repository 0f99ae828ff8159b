//! Every call fits a thread of this size, and threads may call at the same time.

mod common;

use cablesalak_books::{Book, Books};
use common::{A, END, TWO, ZERO};
use std::thread;

/// 1.625 MiB.
const STACK: usize = 13 << 17;

/// The largest table; both books on the deepest entries, PR lines, a path line of 4,096 paths and many lines.
fn calls() {
    let mut books = Books::open(65_536, [40_000, 25_534]).unwrap();
    assert_eq!(books.call(Book::First, b"p cnf 64 1\n0\n").number, 35);
    let sets = b"\x58\xFF\xFF\xFF\xFF\xFF\xFF\xFF\xFF\x01\x4B\xFF\xFF\xFF\xFF\xFF\xFF\xFF\xFF\x20\x52\x03\0";
    assert_eq!(books.call(Book::First, sets).to_string(), "35 23 1 0 2237");
    assert_eq!(books.call(Book::First, b"\x58\xFF\x1F\0\0\0\0\0\0\x01\x51\x02\0").number, 35);
    assert_eq!(books.call(Book::First, b"\x4E\x01\0\0\x01\0\x54\x01\x50\x02\0").number, 35);
    assert_eq!(books.call(Book::Second, A).to_string(), "35 38 0 0 6");
    for line in 1..=500 {
        assert_eq!(books.call(Book::Second, TWO).lines, line);
    }
    assert_eq!(books.call(Book::Second, ZERO).number, 35);
    assert_eq!(books.call(Book::Second, END).to_string(), "0 0 501 1 8");
}

/// The same of small tables, which have working arrays of other sizes.
fn small_calls() {
    for (places, share) in [(22, 10), (66, 32), (200, 62), (200, 63), (4_200, 4_094), (4_200, 4_095)] {
        let mut books = Books::open(places, [share, 10]).unwrap();
        for (bytes, wanted) in [(A, "35 38 0 0 6"), (TWO, "35 9 1 0 8"), (ZERO, "35 3 2 1 8"), (END, "0 0 2 1 8")] {
            assert_eq!(books.call(Book::First, bytes).to_string(), wanted);
        }
    }
}

#[test]
fn threads_of_that_size() {
    let run = |calls: fn()| thread::Builder::new().stack_size(STACK).spawn(calls).unwrap();
    let threads = [run(calls), run(calls), run(small_calls)];
    assert!(threads.map(|thread| thread.join()).iter().all(Result::is_ok));
}

/// Both can be sent to another thread.
#[test]
fn sent() {
    let mut books = Books::open(22, [10, 10]).unwrap();
    assert_eq!(books.call(Book::First, A).number, 35);
    let sent = thread::spawn(move || books.call(Book::First, TWO).to_string());
    assert_eq!(sent.join().unwrap(), "35 9 1 0 8");
}
