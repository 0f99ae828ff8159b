//! Parity and at-least diagrams of many variables.

use super::*;
use crate::table::{Full, NodeId, ZERO};
use crate::tally::{self, Tally};

#[test]
fn parity_over_64_variables_stays_small() {
    let mut d = Diagrams::new();
    d.reset(4_096);
    let (mut odd, mut even) = (ZERO, NodeId(1));
    for v in (1..=64).rev() {
        let next = (d.table.make(v, odd, even).unwrap(), d.table.make(v, even, odd).unwrap());
        (odd, even) = next;
    }
    assert_eq!(d.table.count(), 2 + 128);
    assert_eq!(d.negate(odd), Ok(even));
    let first = d.table.make(1, ZERO, NodeId(1)).unwrap();
    let both = d.conjoin(odd, first).unwrap();
    assert_eq!(d.cofactor(odd, first), Ok(d.table.high(odd)));
    assert_eq!(d.cofactor(first, both), Ok(NodeId(1)));
    assert_eq!(d.restrict(odd, Literals { yes: 1, no: 0 }), Ok(d.table.high(odd)));
    assert!(!d.is_one_under(odd, Literals { yes: u64::MAX >> 1, no: 0 }));
    assert!(d.is_one_under(odd, Literals { yes: u64::MAX >> 1, no: 1 << 63 }));
}

#[test]
fn tallies_of_many_variables_take_their_places_low_side_first() {
    let mut d = Diagrams::new();
    for (set, tally) in [
        (0x0FFF, Tally::Odd),
        (0x7005_0000_3003, Tally::Even),
        (0x3FF0, Tally::AtLeast(4)),
        (0x8101_0101_0101_0181, Tally::AtLeast(9)),
    ] {
        let mut table = Plain::new(4_096);
        let root = without_memory(&mut table, set, tally);
        d.reset(table.nodes.len());
        assert_eq!(tally::make(&mut d, set, tally), Ok(NodeId(root)));
        let nodes = (2..d.table.count() as u32).map(NodeId);
        let nodes: Vec<_> = nodes.map(|id| [d.table.level(id), d.table.low(id).0, d.table.high(id).0]).collect();
        assert_eq!(nodes, table.nodes[2..]);
        d.reset(table.nodes.len() - 1);
        assert_eq!(tally::make(&mut d, set, tally), Err(Full));
    }
    d.reset(4_096);
    assert!(tally::make(&mut d, u64::MAX, Tally::Odd).is_ok());
    assert_eq!(d.table.count(), 2 + 2 * 63 + 1);
    d.reset(4_096);
    assert!(tally::make(&mut d, u64::MAX, Tally::AtLeast(32)).is_ok());
    assert_eq!(d.table.count(), 2 + 32 * 33);
}

/// One step for each assignment of the set, down to the last variable.
fn without_memory(table: &mut Plain, set: u64, tally: Tally) -> u32 {
    if set == 0 {
        return matches!(tally, Tally::Even | Tally::AtLeast(0)) as u32;
    }
    let v = (1..=64).find(|&v| set & bit(v) != 0).unwrap();
    let high_side = match tally {
        Tally::Odd => Tally::Even,
        Tally::Even => Tally::Odd,
        Tally::AtLeast(least) => Tally::AtLeast(least.saturating_sub(1)),
    };
    let low = without_memory(table, set & !bit(v), tally);
    let high = without_memory(table, set & !bit(v), high_side);
    if low == high {
        return low;
    }
    table.place(v, low, high).ok().unwrap()
}

#[test]
fn excluded_assignments_are_those_counted_one_by_one() {
    for size in 0..=14u32 {
        let set = ((1 << size) - 1) << 20;
        for least in 0..=20 {
            let counted = (0..1u32 << size).filter(|a| a.count_ones() < least).count() as u64;
            assert_eq!(tally::excluded(set, least as u8), Some(counted));
        }
    }
}
