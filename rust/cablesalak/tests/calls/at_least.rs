//! The call for "at least k of a set": its diagram, its count of excluded assignments, its refusals.

use crate::lent::Lists;
use cablesalak::raw::{self, AtLeast};
use cablesalak::{ColumnsMut, Node, NodeNo, Number, Table, Variables};

/// Variables 1 to n.
fn first(n: u32) -> Variables {
    Variables(u64::MAX.checked_shr(64 - n).unwrap_or(0))
}

/// The n variables up to 64.
fn last(n: u32) -> Variables {
    Variables(u64::MAX.checked_shl(64 - n).unwrap_or(0))
}

/// The bits of `word`, the lowest first, at the places of the set's variables.
fn spread(word: u64, variables: &[u8]) -> Variables {
    let bit = |(at, variable): (usize, &u8)| (word >> at & 1) << (variable - 1);
    Variables(variables.iter().enumerate().map(bit).sum())
}

/// Under every assignment of the set, whatever the other variables are; and the count is that of the zeros.
#[test]
fn values() {
    for variables in [&[][..], &[64], &[1, 2], &[1, 2, 3, 4], &[2, 31, 32, 33, 64], &[1, 7, 8, 9, 40, 62, 63]] {
        let set = Variables::of(variables).unwrap();
        for k in 0..=variables.len() as u8 + 2 {
            let mut table = Table::new(64).unwrap();
            let (node, excluded) = table.at_least(set, k).unwrap();
            let mut zeros = 0;
            for word in 0..1 << variables.len() {
                let (assignment, holds) = (spread(word, variables), word.count_ones() >= u32::from(k));
                assert_eq!(table.evaluate(node, assignment), Ok(holds));
                assert_eq!(table.evaluate(node, Variables(assignment.0 | !set.0)), Ok(holds));
                zeros += u64::from(!holds);
            }
            assert_eq!(excluded, Some(zeros), "at least {k} of {variables:?}");
        }
    }
}

/// Counted for up to 32 variables, whichever they are; 2 to the 32 needs more than 32 bits.
#[test]
fn excluded() {
    for (n, k, excluded) in [
        (0, 0, Some(0)),
        (0, 1, Some(1)),
        (0, 255, Some(1)),
        (1, 0, Some(0)),
        (1, 1, Some(1)),
        (1, 2, Some(2)),
        (1, 33, Some(2)),
        (31, 0, Some(0)),
        (31, 1, Some(1)),
        // As many assignments have fewer than 16 of 31 true as have 16 or more.
        (31, 16, Some(1 << 30)),
        (31, 31, Some((1 << 31) - 1)),
        (31, 33, Some(1 << 31)),
        (31, 255, Some(1 << 31)),
        (32, 0, Some(0)),
        (32, 1, Some(1)),
        (32, 2, Some(33)),
        // Half of those that have not just 16 of 32 true, of which there are 601,080,390; then these too.
        (32, 16, Some(1_846_943_453)),
        (32, 17, Some(2_448_023_843)),
        (32, 32, Some((1 << 32) - 1)),
        (32, 33, Some(1 << 32)),
        (32, 255, Some(1 << 32)),
        (33, 0, None),
        (33, 1, None),
        (33, 33, None),
        (33, 255, None),
        (64, 0, None),
        (64, 32, None),
        (64, 65, None),
    ] {
        for set in [first(n), last(n)] {
            let made = Table::new(4_096).unwrap().at_least(set, k).map(|made| made.1);
            assert_eq!(made, Ok(excluded), "at least {k} of {n}");
        }
    }
}

/// "At least two of 1, 2, 3" is the diagram of docs/diagram.svg, its nodes in the order of placing. What is there is found again.
#[test]
fn rows() {
    let mut table = Table::new(8).unwrap();
    assert_eq!(table.at_least(first(3), 2), Ok((NodeNo(5), Some(4))));
    let node = |variable, low, high| Node::new(variable, NodeNo(low), NodeNo(high));
    let wanted = Table::with_nodes(8, &[node(3, 0, 1), node(2, 0, 2), node(2, 2, 1), node(1, 3, 4)]).unwrap();
    assert_eq!(table, wanted);
    assert_eq!(table.at_least(first(3), 2), Ok((NodeNo(5), Some(4))));
    assert_eq!(table.at_least(Variables(6), 1), Ok((NodeNo(4), Some(1))));
    assert_eq!(table, wanted);
}

/// Where no node is wanted there is one of the constants.
#[test]
fn constants() {
    let mut table = Table::new(2).unwrap();
    for n in [0, 1, 32, 33, 64] {
        let k = n as u8;
        assert_eq!(table.at_least(first(n), 0).map(|made| made.0), Ok(NodeNo::ONE));
        for above in [k + 1, k + 2, 255] {
            assert_eq!(table.at_least(last(n), above).map(|made| made.0), Ok(NodeNo::ZERO));
        }
    }
    assert_eq!(table, Table::new(2).unwrap());
}

/// Full at each node of the diagram: 23, no count, and nothing is changed.
#[test]
fn full() {
    for size in 2..6 {
        let mut table = Table::new(size).unwrap();
        assert_eq!(table.at_least(first(3), 2), Err(Number::TableFull));
        assert_eq!(table, Table::new(size).unwrap());
    }
    let mut table = Table::new(6).unwrap();
    assert_eq!(table.at_least(first(3), 2), Ok((NodeNo(5), Some(4))));
    let before = table.clone();
    assert_eq!(table.at_least(first(3), 1), Err(Number::TableFull));
    assert_eq!(table.at_least(first(3), 2), Ok((NodeNo(5), Some(4))));
    assert_eq!(table, before);
}

/// A diagram of 1,056 nodes has room in 1,058 places and not in one fewer.
#[test]
fn the_largest() {
    let all = Variables(u64::MAX);
    let (node, excluded) = Table::new(1_058).unwrap().at_least(all, 32).unwrap();
    assert_eq!((node, excluded), (NodeNo(1_057), None));
    assert_eq!(Table::new(1_057).unwrap().at_least(all, 32), Err(Number::TableFull));
}

/// What is said and left of lists of these lengths: variables, lows, highs, heads, links.
fn refused(lengths: [usize; 5], count: usize) -> AtLeast {
    let mut vars = vec![0u8; lengths[0]];
    let [mut lows, mut highs, mut heads, mut links] = [1, 2, 3, 4].map(|list: usize| vec![0u16; lengths[list]]);
    let mut lists =
        ColumnsMut { vars: &mut vars, lows: &mut lows, highs: &mut highs, heads: &mut heads, links: &mut links };
    let said = raw::at_least(&mut lists, count, 3, 1);
    assert!(vars.iter().all(|place| *place == 0));
    assert!([lows, highs, heads, links].concat().iter().all(|place| *place == 0));
    said
}

/// 7 before 26, and with either no node, no count and the count as lent.
#[test]
fn sizes_and_order() {
    let said = |number, count| AtLeast { number, node: 0, count, counted: false, excluded: 0 };
    for lengths in [
        [8, 8, 7, 16, 8],
        [8, 7, 8, 16, 8],
        [7, 8, 8, 16, 8],
        [8, 8, 8, 15, 8],
        [8, 8, 8, 17, 8],
        [8, 8, 8, 16, 7],
        [8, 8, 8, 16, 9],
        [0, 0, 0, 0, 0],
        [1, 1, 1, 2, 1],
        [65_537, 65_537, 65_537, 131_074, 65_537],
    ] {
        assert_eq!(refused(lengths, 2), said(7, 2), "{lengths:?}");
        assert_eq!(refused(lengths, usize::MAX), said(7, usize::MAX), "{lengths:?}");
    }
    for count in [0, 1, 3, 9, usize::MAX] {
        assert_eq!(refused([8, 8, 8, 16, 8], count), said(26, count));
    }
}

/// The index is that of all nodes, and a wrong one is refused.
#[test]
fn the_index() {
    let mut lists = Lists::dirty(16, 0, 0);
    for list in [&mut lists.lows, &mut lists.highs, &mut lists.heads, &mut lists.links] {
        list.fill(0);
    }
    lists.vars.fill(0);
    lists.count = 2;
    assert_eq!(lists.table().at_least(Variables(0b1_0110_0010), 2), Ok((NodeNo(7), Some(5))));
    assert!(lists.count == 8 && lists.indexed());
    lists.links[9] = 3;
    let before = lists.clone();
    assert_eq!(lists.table().at_least(Variables::NONE, 0), Err(Number::NotInOrder));
    assert_eq!(lists, before);
}
