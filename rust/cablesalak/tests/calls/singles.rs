//! Every number that a single call gives, over lent columns and over a table of its own.

use crate::lent::Lists;
use cablesalak::{chain, Node, NodeNo, Number, Table, Variables};

const X1: Variables = Variables(1);

fn node(variable: u8, low: u16, high: u16) -> Node {
    Node::new(variable, NodeNo(low), NodeNo(high))
}

/// x2, not-x2, x1 xor x2 and x1 as nodes 2 to 5, and one free place: case G's table.
fn case_g() -> Table {
    Table::with_nodes(7, &[node(2, 0, 1), node(2, 1, 0), node(1, 2, 3), node(1, 0, 1)]).unwrap()
}

#[test]
fn granted() {
    let mut table = case_g();
    assert_eq!(table.cofactor(NodeNo(2), NodeNo(4)), Ok(NodeNo(6)));
    assert_eq!((table.node(NodeNo(6)), table.count()), (Some(node(1, 1, 0)), 7));
    assert_eq!(table.cofactor(NodeNo(5), NodeNo(4)), Ok(NodeNo(5)));
    assert_eq!(table.negation(NodeNo(2)), Ok(NodeNo(3)));
    assert_eq!(table.conjunction(NodeNo(2), NodeNo(3)), Ok(NodeNo::ZERO));
    assert_eq!(table.cofactor_literals(NodeNo(4), X1, Variables::NONE), Ok(NodeNo(3)));
    assert_eq!(table.cofactor_literals(NodeNo(4), Variables::NONE, X1), Ok(NodeNo(2)));
    assert_eq!(table.evaluate(NodeNo(4), X1), Ok(true));
    assert_eq!(table.evaluate(NodeNo(4), Variables(3)), Ok(false));
}

#[test]
fn refused_and_nothing_changed() {
    let mut table = case_g();
    table.cofactor(NodeNo(2), NodeNo(4)).unwrap();
    let before = table.clone();
    // The table is full, and "1 and 2" is no node of it.
    assert_eq!(table.conjunction(NodeNo(2), NodeNo(5)), Err(Number::TableFull));
    assert_eq!(table.negation(NodeNo(4)), Err(Number::TableFull));
    for beyond in [7, 8, u16::MAX].map(NodeNo) {
        assert_eq!(table.evaluate(beyond, X1), Err(Number::NoSuchNode));
        assert_eq!(table.negation(beyond), Err(Number::NoSuchNode));
        assert_eq!(table.conjunction(NodeNo(2), beyond), Err(Number::NoSuchNode));
        assert_eq!(table.cofactor(beyond, NodeNo::ZERO), Err(Number::NoSuchNode));
        assert_eq!(table.cofactor_literals(beyond, X1, X1), Err(Number::NoSuchNode));
    }
    assert_eq!(table.cofactor(NodeNo(2), NodeNo::ZERO), Err(Number::CofactorByZero));
    assert_eq!(table.cofactor_literals(NodeNo(2), X1, Variables(u64::MAX)), Err(Number::VariableTwice));
    assert_eq!(table, before);
}

/// Lists of these rows from place 0 on, with an index that goes with them.
fn lists(rows: &[(u8, u16, u16)], count: usize) -> Lists {
    let mut lists = Lists::dirty(rows.len(), 0, 0);
    lists.count = count;
    for (place, row) in rows.iter().enumerate() {
        (lists.vars[place], lists.lows[place], lists.highs[place]) = *row;
    }
    lists.table().index();
    lists
}

/// Every call refuses the lists with 26, whatever it is asked, and leaves them as they are.
fn refused_by_all(lists: &mut Lists, what: &str) {
    let before = lists.clone();
    let mut table = lists.table();
    assert_eq!(table.evaluate(NodeNo::ONE, X1), Err(Number::NotInOrder), "{what}");
    assert_eq!(table.negation(NodeNo::ONE), Err(Number::NotInOrder), "{what}");
    assert_eq!(table.conjunction(NodeNo::ONE, NodeNo(9)), Err(Number::NotInOrder), "{what}");
    assert_eq!(table.cofactor(NodeNo::ONE, NodeNo::ZERO), Err(Number::NotInOrder), "{what}");
    assert_eq!(table.cofactor_literals(NodeNo::ONE, X1, X1), Err(Number::NotInOrder), "{what}");
    assert_eq!(table.at_least(X1, 0), Err(Number::NotInOrder), "{what}");
    assert_eq!(*lists, before, "{what}");
}

/// Columns of the caller's may hold anything: 26, whatever the count.
#[test]
fn not_in_good_order() {
    const NONE: (u8, u16, u16) = (0, 0, 0);
    for (rows, count) in [
        ([NONE, NONE, (1, 0, 0), NONE], 3),
        ([NONE, NONE, (1, 0, 1), NONE], 2),
        ([NONE; 4], 1),
        ([NONE; 4], 5),
        ([NONE; 4], usize::MAX),
        ([(7, 9, 9); 4], 4),
        ([NONE, NONE, (65, 0, 1), NONE], 3),
        ([NONE, NONE, (1, 0, 1), (1, 0, 1)], 4),
    ] {
        refused_by_all(&mut lists(&rows, count), &format!("{rows:?}"));
    }
}

/// The nodes 2 to 4 share a chain of a table of 8 places, nodes 5 and 6 stand alone in theirs; place 7 is free.
fn one_chain() -> Lists {
    let rows = [(0, 0, 0), (0, 0, 0), (3, 0, 1), (19, 0, 1), (35, 0, 1), (2, 0, 1), (4, 0, 1), (0, 0, 0)];
    let lists = lists(&rows, 7);
    assert!(lists.indexed() && lists.links == [0, 0, 0, 2, 3, 0, 0, 0]);
    lists
}

/// Every kind of wrong index is 26 in every call.
#[test]
fn wrong_index() {
    let at = |variable| chain(node(variable, 0, 1), 16);
    let (shared, alone, other) = (at(3), at(2), at(4));
    let empty = (0..16).find(|head| ![shared, alone, other].contains(head)).unwrap();
    let heads: [(&str, usize, u16); 7] = [
        ("a head that is 0", shared, 0),
        ("a head that is lower in its chain", shared, 3),
        ("a head of another chain", shared, 5),
        ("a head at the count", alone, 7),
        ("a head past the table", alone, 65_535),
        ("a constant as head", alone, 1),
        ("a head of an empty chain", empty, 2),
    ];
    for (what, head, value) in heads {
        let mut lists = one_chain();
        lists.heads[head] = value;
        refused_by_all(&mut lists, what);
    }
    let links: [(&str, usize, u16); 9] = [
        ("a link that skips a node", 4, 2),
        ("a chain cut short", 4, 0),
        ("a link to itself", 4, 4),
        ("a link upwards", 2, 4),
        ("a link into another chain", 6, 5),
        ("a link to a constant", 2, 1),
        ("a link of a constant", 1, 2),
        ("a link at the count", 7, 2),
        ("a link past the table", 3, 65_535),
    ];
    for (what, link, value) in links {
        let mut lists = one_chain();
        lists.links[link] = value;
        refused_by_all(&mut lists, what);
    }
    let mut turned = one_chain();
    turned.heads[shared] = 3;
    (turned.links[3], turned.links[4], turned.links[2]) = (4, 2, 0);
    refused_by_all(&mut turned, "a chain in another order");
    let mut zeros = one_chain();
    zeros.heads.fill(0);
    zeros.links.fill(0);
    refused_by_all(&mut zeros, "no index");
}

/// A granted call leaves the index of what the table then holds, and one that is full leaves it as it was.
#[test]
fn the_index_is_kept() {
    let mut lists = one_chain();
    assert_eq!(lists.table().negation(NodeNo(2)), Ok(NodeNo(7)));
    assert!(lists.count == 8 && lists.indexed());
    let before = lists.clone();
    assert_eq!(lists.table().negation(NodeNo(3)), Err(Number::TableFull));
    assert_eq!(lists, before);
    lists.count = 7;
    refused_by_all(&mut lists, "a node past the count");
}

/// Keys run over the top of 32 bits, also where a child has the highest number of all.
#[test]
fn keys_over_the_top() {
    let wide = |n: u64, variable: u64, low: u64, high: u64| {
        ((variable + low * 12_582_917 + high * 4_256_249) % (1 << 32) % n) as usize
    };
    for (variable, low, high) in [(1, 0, 1), (64, 65_535, 65_534), (7, 341, 0), (7, 342, 0), (3, 1, 65_535)] {
        for heads in [4, 14, 8_192, 131_072] {
            let expected = wide(heads as u64, variable.into(), low.into(), high.into());
            assert_eq!(chain(node(variable, low, high), heads), expected);
        }
    }
}

/// A table of its own takes no row that would put it out of order, and keeps none that is refused.
#[test]
fn rows_of_the_caller() {
    assert_eq!(Table::with_nodes(4, &[node(1, 0, 0)]), Err(Number::NotInOrder));
    assert_eq!(Table::with_nodes(4, &[node(1, 0, 1); 2]), Err(Number::NotInOrder));
    assert_eq!(Table::with_nodes(3, &[node(2, 0, 1), node(1, 0, 2)]), Err(Number::TableFull));
    let mut table = Table::new(4).unwrap();
    assert_eq!(table.push(node(2, 0, 1)), Ok(NodeNo(2)));
    let before = table.clone();
    for refused in [node(0, 0, 1), node(65, 0, 1), node(2, 0, 1), node(2, 0, 2), node(1, 1, 1), node(1, 0, 3)] {
        assert_eq!(table.push(refused), Err(Number::NotInOrder));
        assert_eq!(table, before);
    }
    assert_eq!(table.push(node(1, 0, 2)), Ok(NodeNo(3)));
    assert_eq!(table.push(node(1, 2, 1)), Err(Number::TableFull));
    assert_eq!((table.node(NodeNo(1)), table.node(NodeNo(4))), (None, None));
}

#[test]
fn the_largest_table() {
    let mut table = Table::new(65_536).unwrap();
    let x64 = table.push(node(64, 0, 1)).unwrap();
    let not_x64 = table.negation(x64).unwrap();
    assert_eq!(table.conjunction(x64, not_x64), Ok(NodeNo::ZERO));
    assert_eq!(table.evaluate(not_x64, Variables::of(&[1, 63]).unwrap()), Ok(true));
}

/// The rows of docs/diagram.svg: node 5 is "at least two of 1, 2, 3".
#[test]
fn the_pictured_diagram() {
    let rows = [node(3, 0, 1), node(2, 0, 2), node(2, 2, 1), node(1, 3, 4)];
    let table = Table::with_nodes(8, &rows).unwrap();
    assert_eq!(table.count(), 6);
    for word in 0..8u64 {
        assert_eq!(table.evaluate(NodeNo(5), Variables(word)), Ok(word.count_ones() >= 2));
    }
}
