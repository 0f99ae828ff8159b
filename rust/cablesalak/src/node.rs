//! Node numbers, rows of the table, sets of variables.

use std::mem::{offset_of, size_of};

/// A node's number: its place in the table.
#[repr(transparent)]
#[derive(Clone, Copy, Debug, Default, PartialEq, Eq, PartialOrd, Ord, Hash)]
pub struct NodeNo(pub u16);

impl NodeNo {
    /// The constant 0, false under every assignment.
    pub const ZERO: NodeNo = NodeNo(0);
    /// The constant 1, true under every assignment.
    pub const ONE: NodeNo = NodeNo(1);
}

/// A row of the table. Its value is `high`'s where the variable is true, else `low`'s. It is laid out as C's `cablesalak_node`, so
/// that a list of rows can be lent as it is.
#[repr(C)]
#[derive(Clone, Copy, Debug, Default, PartialEq, Eq, Hash)]
pub struct Node {
    pub variable: u8,
    pub low: NodeNo,
    pub high: NodeNo,
}

const _: () = assert!(size_of::<Node>() == 6 && offset_of!(Node, low) == 2 && offset_of!(Node, high) == 4);

impl Node {
    pub fn new(variable: u8, low: NodeNo, high: NodeNo) -> Node {
        Node { variable, low, high }
    }
}

/// A set of variables, bit i - 1 for variable i. As an assignment it makes its variables true and all others false.
#[derive(Clone, Copy, Debug, Default, PartialEq, Eq, Hash)]
pub struct Variables(pub u64);

impl Variables {
    pub const NONE: Variables = Variables(0);

    /// The set of these variables; none where one of them is not 1 to 64.
    pub fn of(variables: &[u8]) -> Option<Variables> {
        let bit = |variable: &u8| (1..=64).contains(variable).then(|| 1 << (variable - 1));
        variables.iter().try_fold(0, |word, variable| Some(word | bit(variable)?)).map(Variables)
    }
}
