//! 02, 5/14: parity and at-least entries.

use crate::{ask, check, expect, hex, rows, sized, AT_LEAST_TWO};

/// A record of 02, 5/14: kind, set, last byte.
fn counting(kind: &str, set: u64, last: u8) -> String {
    format!("{kind} {} {last:02X}", hex(&set.to_le_bytes()))
}

pub fn odd(set: u64) -> String {
    counting("58", set, 1)
}

fn even(set: u64) -> String {
    counting("58", set, 0)
}

pub fn at_least(set: u64, least: u8) -> String {
    counting("4B", set, least)
}

/// 02, 5/14: entries for "an odd number" and "at least three".
#[test]
fn parity_and_at_least_entries() {
    // An empty clause lets every line pass, so that its nodes are seen.
    let seen = |entry: String, wanted: &str| {
        (check("p cnf 64 1\n0\n", &format!("{entry} 52 02 00 45")), format!("20 13 1 0 {wanted} | 00"))
    };
    let last = 1 << 63;
    expect(vec![
        seen(odd(1), "3 4 | 1,0,1 | 0,2"),
        seen(even(1), "3 4 | 1,1,0 | 0,2"),
        seen(odd(3), "5 6 | 2,0,1;2,1,0;1,2,3 | 0,4"),
        seen(even(3), "5 6 | 2,1,0;2,0,1;1,2,3 | 0,4"),
        seen(odd(last | 4), "5 6 | 64,0,1;64,1,0;3,2,3 | 0,4"),
        seen(odd(7), "7 8 | 3,0,1;3,1,0;2,2,3;2,3,2;1,4,5 | 0,6"),
        seen(at_least(7, 2), "6 10 | 3,0,1;2,0,2;2,2,1;1,3,4 | 0,5"),
        seen(at_least(7, 1), "5 8 | 3,0,1;2,2,1;1,3,1 | 0,4"),
        seen(at_least(7, 3), "5 8 | 3,0,1;2,0,2;1,0,3 | 0,4"),
        seen(at_least(last, 1), "3 4 | 64,0,1 | 0,2"),
    ]);
    let ended = |entry: String| check("p cnf 2 1\n0\n", &format!("{entry} 52 02 00 45"));
    let (zero, one) = ("0 13 1 0 2 2 | - | 0,0 | 00".to_string(), "17 10 0 0 2 2 | - | 0 | 0".to_string());
    expect(vec![
        (ended(odd(0)), zero.clone()),
        (ended(even(0)), one.clone()),
        (ended(at_least(0, 0)), one.clone()),
        (ended(at_least(0, 1)), zero.clone()),
        (ended(at_least(3, 0)), one),
        (ended(at_least(3, 3)), zero.clone()),
        (ended(at_least(3, 255)), zero),
    ]);
    // Example I with one record for four: the same nodes and rounds.
    let i = "p cnf 3 3\n2 3 0\n1 3 0\n1 2 0\n";
    let answers = ask(&[check(i, AT_LEAST_TWO), check(i, &format!("{} 52 02 00 45", at_least(7, 2)))]);
    assert_eq!(answers[0].strip_prefix("20 27 "), answers[1].strip_prefix("20 13 "));
}

#[test]
fn refusals_of_parity_and_at_least_entries() {
    let two = "p cnf 2 0\n";
    let node = "4E 01 00 00 01 00";
    let full = node.repeat(4096);
    expect(rows(&[
        (two, "58", "10 0 0 0 2 2 | - | - | -"),
        (two, "58 FF FF FF FF FF FF FF FF", "10 0"),
        (two, "4B FF FF FF FF FF FF FF FF", "10 0"),
        (two, &odd(4), "12 0 0 0 2 2 | - | - | -"),
        (two, &odd(7), "12 0"),
        (two, &odd(1 << 63), "12 0"),
        (two, &at_least(4, 0), "12 0"),
        (two, &at_least(4, 2), "12 0"),
        (two, &counting("58", 4, 2), "12 0"),
        (two, &counting("58", 3, 2), "29 0 0 0 2 2 | - | - | -"),
        (two, &counting("58", 3, 255), "29 0"),
        (two, &counting("58", 0, 2), "29 0"),
        (two, &(odd(3) + "00"), "9 10 0 0 2 5 | - | - | -"),
        ("p cnf 0 0\n", &odd(1), "12 0"),
        ("p cnf 0 0\n", &odd(0), "10 10"),
        ("p cnf 63 0\n", &odd(1 << 63), "12 0"),
        ("p cnf 64 0\n", &odd(u64::MAX), "10 10 0 0 2 129"),
        ("p cnf 64 0\n", &at_least(u64::MAX, 255), "10 10 0 0 2 2"),
        // The limit of entries is one for all kinds, after 10 and before 12.
        (two, &(full.clone() + "58 FF FF FF FF FF FF FF FF"), "10 24576"),
        (two, &(full.clone() + &counting("58", 4, 2)), "21 24576"),
        (two, &(full + &at_least(4, 0)), "21 24576"),
        (two, &(odd(3) + &node.repeat(4095) + "52 02 00"), "19 24580"),
        (two, &(odd(3) + &node.repeat(4095) + node), "21 24580"),
        // 14 looks at the diagram that a set gave.
        ("p cnf 3 0\n", &(odd(6) + "4E 02 02 00 00 00"), "14 10"),
        ("p cnf 3 0\n", &(odd(6) + "4E 01 02 00 00 00"), "10 16"),
        ("p cnf 3 0\n", &(at_least(6, 3) + "4E 03 02 00 01 00"), "10 16"),
        // A witness may wait.
        (two, &format!("54 01 {} 54 02 {} 50 02 00", odd(1), at_least(2, 1)), "10 27 1 0 4 5 | 1,0,1;2,0,1 | 2 | 0"),
    ]));
    let row = |size, proof: String, wanted: &str| (sized(size, "p cnf 3 0\n", &proof), wanted.to_string());
    expect(vec![
        row(2, counting("58", 3, 2), "29 0 0 0 2 2"),
        row(2, odd(1), "23 0 0 0 2 2 | - | - | -"),
        row(4, odd(3), "23 0 0 0 2 4 | - | - | -"),
        row(5, odd(3), "10 10 0 0 2 5 | - | - | -"),
        row(5, at_least(7, 2), "23 0 0 0 2 5 | - | - | -"),
        row(6, at_least(7, 2) + "45", "20 10 0 0 2 6 | - | - | -"),
        row(2, at_least(7, 4) + &at_least(7, 0) + &even(0) + "45", "20 30 0 0 2 2"),
        // What is there is found again.
        row(5, odd(3) + &odd(3) + &odd(2) + &even(2) + "45", "20 40 0 0 2 5"),
        row(5, odd(3) + &even(3), "23 10 0 0 2 5"),
    ]);
}

#[test]
fn at_least_as_a_single_call() {
    let row = |command: &str, answer: &str| (command.to_string(), answer.to_string());
    let three = "3,0,1;2,0,2;2,2,1;1,3,4";
    let low = u32::MAX;
    let high = u64::from(low) << 32;
    expect(vec![
        row("atleast 6 2 - 7 2", &format!("0 5 6 4 | {three}")),
        row(&format!("atleast 6 6 {three} 7 2"), &format!("0 5 6 4 | {three}")),
        row(&format!("atleast 6 6 {three} 6 1"), &format!("0 4 6 1 | {three}")),
        row("atleast 5 2 - 7 2", "23 0 2 - | -"),
        row("atleast 1 2 - 7 2", "7 0 2 - | -"),
        row("atleast 8 3 1,0,0 7 0", "26 0 3 - | 1,0,0"),
        row("atleast 8 2 - 7 2 !HS=15", "7 0 2 - | -"),
        row("atleast 8 2 - 7 2 !H:0=1", "26 0 2 - | -"),
        row("atleast 2 2 - 0 0", "0 1 2 0 | -"),
        row("atleast 2 2 - 0 1", "0 0 2 1 | -"),
        row("atleast 2 2 - 0 255", "0 0 2 1 | -"),
        row("atleast 2 2 - 7 0", "0 1 2 0 | -"),
        row("atleast 2 2 - 7 4", "0 0 2 8 | -"),
        row(&format!("atleast 2 2 - {low} 33"), "0 0 2 4294967296 | -"),
        row(&format!("atleast 2 2 - {high} 255"), "0 0 2 4294967296 | -"),
        row(&format!("atleast 2 2 - {low} 0"), "0 1 2 0 | -"),
        row(&format!("atleast 300 2 - {low} 16"), "0 273 274 1846943453"),
        row(&format!("atleast 300 2 - {low} 32"), "0 33 34 4294967295"),
        row(&format!("atleast 273 2 - {low} 16"), "23 0 2 - | -"),
        row(&format!("atleast 2 2 - {} 0", u64::from(low) * 2 + 1), "0 1 2 - | -"),
        row("atleast 2 2 - 18446744073709551615 65", "0 0 2 - | -"),
        row("atleast 3 2 - 9223372036854775808 1", "0 2 3 1 | 64,0,1"),
        row("atleast 2 2 - 0 256", "error: not a command"),
        row("atleast 2 2 - 18446744073709551616 0", "error: not a command"),
        row("atleast 2 2 - 0", "error: not a command"),
        row("atleast 2 2 - 0 0 0", "error: not a command"),
    ]);
}
