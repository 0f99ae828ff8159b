//! The node table: records of variable, low and high, found again through a chained index.
//!
//! Nodes are only ever added at the end and dropped from the end, so each chain runs from its newest
//! node to its oldest and dropping a node takes the head off its chain.

/// "The table has 2 to 65,536 places."
pub const SMALLEST: u64 = 2;
pub const LARGEST: u64 = 65_536;
/// "At most 64 variables."
pub const VARIABLES: u32 = 64;

/// The level of a constant: after every variable.
const CONSTANT: u32 = u32::MAX;
/// No node: the end of a chain, or a negation that is not in the table. Places 0 and 1 are in no chain.
const NONE: u32 = u32::MAX;
const FIRST_BUCKETS: usize = 64;

#[derive(Clone, Copy, PartialEq, Eq, Debug)]
pub struct NodeId(pub u32);

pub const ZERO: NodeId = NodeId(0);
pub const ONE: NodeId = NodeId(1);

/// A node was to be placed and the count equals the size.
#[derive(Clone, Copy, PartialEq, Eq, Debug)]
pub struct Full;

/// Two sets of variables, bit i-1 for variable i: those made true and those made false.
#[derive(Clone, Copy, PartialEq, Eq, Debug, Default)]
pub struct Literals {
    pub yes: u64,
    pub no: u64,
}

impl Literals {
    pub fn is_empty(self) -> bool {
        self.variables() == 0
    }

    pub fn variables(self) -> u64 {
        self.yes | self.no
    }

    pub fn clash(self) -> bool {
        self.yes & self.no != 0
    }

    /// With one literal more.
    pub fn with(self, variable: u32, value: bool) -> Literals {
        match value {
            true => Literals { yes: self.yes | bit(variable), ..self },
            false => Literals { no: self.no | bit(variable), ..self },
        }
    }
}

/// The bit of a variable in a 64-bit word.
pub fn bit(variable: u32) -> u64 {
    1 << (variable - 1)
}

#[derive(Clone, Copy)]
struct Node {
    level: u32,
    low: NodeId,
    high: NodeId,
    /// The next older node of the same chain.
    older: u32,
}

/// What is known of a node from its making on, worked out from its two branches.
#[derive(Clone, Copy)]
struct Facts {
    /// The variables that occur in the diagram.
    support: u64,
    /// U of the node: the literals without which the diagram is 0.
    units: Literals,
}

pub struct Table {
    size: usize,
    /// The greatest count that nodes were dropped from.
    peak: usize,
    nodes: Vec<Node>,
    facts: Vec<Facts>,
    /// For each node its negation, NONE where that is not in the table.
    negations: Vec<u32>,
    buckets: Vec<u32>,
}

impl Table {
    pub fn new() -> Table {
        let constant = Node { level: CONSTANT, low: ZERO, high: ZERO, older: NONE };
        let all = Literals { yes: u64::MAX, no: u64::MAX };
        Table {
            size: SMALLEST as usize,
            peak: 0,
            nodes: vec![constant; 2],
            facts: vec![Facts { support: 0, units: all }, Facts { support: 0, units: Literals::default() }],
            negations: vec![ONE.0, ZERO.0],
            buckets: vec![NONE; FIRST_BUCKETS],
        }
    }

    /// Empties the table and gives it a new size.
    pub fn reset(&mut self, size: usize) {
        self.drop_to(2);
        self.size = size;
        self.peak = 0;
    }

    pub fn count(&self) -> usize {
        self.nodes.len()
    }

    /// "The greatest count reached, dropped nodes included", since the table was emptied.
    pub fn peak(&self) -> usize {
        self.peak.max(self.count())
    }

    pub fn has(&self, id: u64) -> bool {
        id < self.nodes.len() as u64
    }

    /// The variable of a node; for a constant a number above every variable.
    pub fn level(&self, id: NodeId) -> u32 {
        self.nodes[id.0 as usize].level
    }

    pub fn low(&self, id: NodeId) -> NodeId {
        self.nodes[id.0 as usize].low
    }

    pub fn high(&self, id: NodeId) -> NodeId {
        self.nodes[id.0 as usize].high
    }

    /// Low and high side of a diagram at a variable that is not after its root's.
    pub fn branches(&self, id: NodeId, level: u32) -> (NodeId, NodeId) {
        let node = self.nodes[id.0 as usize];
        if node.level == level {
            (node.low, node.high)
        } else {
            (id, id)
        }
    }

    pub fn support(&self, id: NodeId) -> u64 {
        self.facts[id.0 as usize].support
    }

    /// "U(f): the literals l with f 0 wherever l is false."
    pub fn units(&self, id: NodeId) -> Literals {
        self.facts[id.0 as usize].units
    }

    /// The negation of a node, if it is in the table.
    pub fn negation(&self, id: NodeId) -> Option<NodeId> {
        match self.negations[id.0 as usize] {
            NONE => None,
            other => Some(NodeId(other)),
        }
    }

    pub fn find(&self, level: u32, low: NodeId, high: NodeId) -> Option<NodeId> {
        let mut at = self.buckets[self.bucket(level, low, high)];
        while at != NONE {
            let node = &self.nodes[at as usize];
            if node.low == low && node.high == high && node.level == level {
                return Some(NodeId(at));
            }
            at = node.older;
        }
        None
    }

    /// The node of a variable over two sides that are in the table: "equal children give that child", a
    /// node of the table is used again, and only then a new one takes the next place.
    pub fn make(&mut self, level: u32, low: NodeId, high: NodeId) -> Result<NodeId, Full> {
        if low == high {
            return Ok(low);
        }
        if let Some(id) = self.find(level, low, high) {
            return Ok(id);
        }
        if self.nodes.len() == self.size {
            return Err(Full);
        }
        Ok(self.push(level, low, high))
    }

    /// Places a node that is known not to be in the table, where there is room.
    pub fn push(&mut self, level: u32, low: NodeId, high: NodeId) -> NodeId {
        if self.nodes.len() >= self.buckets.len() {
            self.widen();
        }
        let id = NodeId(self.nodes.len() as u32);
        let bucket = self.bucket(level, low, high);
        let older = self.buckets[bucket];
        self.buckets[bucket] = id.0;
        self.nodes.push(Node { level, low, high, older });
        self.facts.push(self.facts_of(level, low, high));
        self.negations.push(NONE);
        self.link_negation(id);
        id
    }

    /// Drops every node from the given count on.
    pub fn drop_to(&mut self, count: usize) {
        self.peak = self.peak();
        while self.nodes.len() > count {
            let node = self.nodes[self.nodes.len() - 1];
            let bucket = self.bucket(node.level, node.low, node.high);
            self.buckets[bucket] = node.older;
            self.nodes.pop();
            self.facts.pop();
            if let Some(other) = self.negations.pop().filter(|&other| other != NONE) {
                self.negations[other as usize] = NONE;
            }
        }
    }

    fn facts_of(&self, level: u32, low: NodeId, high: NodeId) -> Facts {
        let (l, h) = (self.facts[low.0 as usize], self.facts[high.0 as usize]);
        let of = |there: NodeId| if there == ZERO { bit(level) } else { 0 };
        Facts {
            support: bit(level) | l.support | h.support,
            units: Literals { yes: (l.units.yes & h.units.yes) | of(low), no: (l.units.no & h.units.no) | of(high) },
        }
    }

    /// Ties a new node to its negation. The later of the two finds the other: the children of both and
    /// their ties are in the table by then.
    fn link_negation(&mut self, id: NodeId) {
        let node = self.nodes[id.0 as usize];
        let (Some(low), Some(high)) = (self.negation(node.low), self.negation(node.high)) else {
            return;
        };
        if let Some(other) = self.find(node.level, low, high) {
            self.negations[id.0 as usize] = other.0;
            self.negations[other.0 as usize] = id.0;
        }
    }

    fn bucket(&self, level: u32, low: NodeId, high: NodeId) -> usize {
        let key = (level as u64) << 40 ^ (low.0 as u64) << 20 ^ high.0 as u64;
        let mixed = key.wrapping_mul(0x9E37_79B9_7F4A_7C15);
        (mixed >> 40) as usize & (self.buckets.len() - 1)
    }

    /// Doubles the index. Nodes go in from old to new, so that the newest stays the head of its chain.
    fn widen(&mut self) {
        let wider = self.buckets.len() * 2;
        self.buckets.clear();
        self.buckets.resize(wider, NONE);
        for at in 2..self.nodes.len() {
            let node = self.nodes[at];
            let bucket = self.bucket(node.level, node.low, node.high);
            self.nodes[at].older = self.buckets[bucket];
            self.buckets[bucket] = at as u32;
        }
    }
}
