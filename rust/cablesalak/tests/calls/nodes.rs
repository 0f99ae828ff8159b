//! A table lent as one list of rows: sizes, the index for rows of the caller's, the single calls. The checks are in every row of `rows`.

use cablesalak::{Node, NodeNo, NodesMut, Number, RowsMut, Table, Variables};

/// x2, not-x2 and x1 xor x2 as nodes 2 to 4, in a table of eight places.
fn nodes() -> Vec<Node> {
    let mut nodes = vec![Node::default(); 8];
    nodes[2] = Node::new(2, NodeNo::ZERO, NodeNo::ONE);
    nodes[3] = Node::new(2, NodeNo::ONE, NodeNo::ZERO);
    nodes[4] = Node::new(1, NodeNo(2), NodeNo(3));
    nodes
}

#[test]
fn wrong_sizes() {
    for (size, heads, links) in [(0, 0, 0), (1, 2, 1), (8, 15, 8), (8, 16, 7), (8, 8, 16), (65_537, 131_074, 65_537)] {
        let (mut nodes, mut heads, mut links) = (vec![Node::default(); size], vec![0; heads], vec![0; links]);
        let rows = RowsMut { nodes: &mut nodes, heads: &mut heads, links: &mut links };
        assert_eq!(NodesMut::new(rows, &mut 2).map(|_| ()), Err(Number::WrongSize));
    }
}

/// Rows of the caller's are refused until their index is made; then the calls say what they say over columns.
#[test]
fn single_calls() {
    let (mut nodes, mut heads, mut links, mut count) = (nodes(), vec![0; 16], vec![0; 8], 5);
    let mut columns = Table::with_nodes(8, &nodes[2..5]).unwrap();
    let mut table =
        NodesMut::new(RowsMut { nodes: &mut nodes, heads: &mut heads, links: &mut links }, &mut count).unwrap();
    assert_eq!(table.evaluate(NodeNo(4), Variables::NONE), Err(Number::NotInOrder));
    assert_eq!(table.at_least(Variables(3), 2), Err(Number::NotInOrder));
    table.index();
    for word in (0..4).map(Variables) {
        assert_eq!(table.evaluate(NodeNo(4), word), columns.evaluate(NodeNo(4), word));
    }
    assert_eq!(table.evaluate(NodeNo(5), Variables::NONE), Err(Number::NoSuchNode));
    assert_eq!(table.at_least(Variables(3), 2), columns.at_least(Variables(3), 2));
    assert_eq!(table.count(), columns.count());
    assert_eq!(table.at_least(Variables(0xff), 4), Err(Number::TableFull));
    assert_eq!(table.count(), columns.count());
    assert!((2..6).all(|place| Some(nodes[place]) == columns.node(NodeNo(place as u16))));
    assert_eq!((nodes[6], nodes[7]), (Node::default(), Node::default()));
}
