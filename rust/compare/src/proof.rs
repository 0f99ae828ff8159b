//! Proofs, written record by record, whose lines are accepted by the generator's own rules.

use crate::diagram::{Diagrams, Literals, Node};
use crate::formula::Formula;
use crate::paths;
use crate::random::Random;
use crate::tally::{self, Tally};
use std::collections::HashMap;

/// The bytes of a proof and the entries of its open line.
#[derive(Clone, Default)]
pub struct Writer {
    pub bytes: Vec<u8>,
    /// Where each record starts.
    pub records: Vec<usize>,
    /// Where each line's first record starts, and what comes after the last line.
    pub lines: Vec<usize>,
    /// Whether the diagram of a node, if it is a tally, is written as one record: bit n for the nodes whose number's remainder by 64 is n.
    pub sets: u64,
    entries: HashMap<Node, u16>,
    next: u16,
}

impl Writer {
    fn record(&mut self, kind: u8, body: &[u8]) {
        if self.lines.is_empty() {
            self.lines.push(0);
        }
        self.records.push(self.bytes.len());
        self.bytes.push(kind);
        self.bytes.extend(body);
    }

    /// A node record: the number of its entry.
    pub fn node(&mut self, variable: u8, low: u16, high: u16) -> u16 {
        let ([l0, l1], [h0, h1]) = (low.to_le_bytes(), high.to_le_bytes());
        self.record(0x4e, &[variable, l0, l1, h0, h1]);
        self.made()
    }

    /// A record of a set, whatever its bytes say: the number of its entry.
    pub fn set(&mut self, kind: u8, set: u64, byte: u8) -> u16 {
        let mut body = set.to_le_bytes().to_vec();
        body.push(byte);
        self.record(kind, &body);
        self.made()
    }

    pub fn tally(&mut self, set: u64, tally: Tally) -> u16 {
        let (kind, byte) = tally.record();
        self.set(kind, set, byte)
    }

    /// The entry of the record that was written last.
    fn made(&mut self) -> u16 {
        self.next += 1;
        self.next + 1
    }

    pub fn witness(&mut self, literals: Literals) {
        for variable in 1..=64u8 {
            let bit = 1 << (variable - 1);
            if literals.positive & bit != 0 {
                self.record(0x54, &[variable]);
            }
            if literals.negative & bit != 0 {
                self.record(0x46, &[variable]);
            }
        }
    }

    /// A striking.
    pub fn strike(&mut self, member: usize) {
        self.record(0x44, &number(member));
    }

    /// A striking before the record of this place in `records`, or behind the last one. `lines` is kept for a place in the open line.
    fn strike_at(&mut self, at: usize, member: usize) {
        let Some(&start) = self.records.get(at) else { return self.strike(member) };
        let [low, high] = number(member);
        self.bytes.splice(start..start, [0x44, low, high]);
        for later in &mut self.records[at..] {
            *later += 3;
        }
        self.records.insert(at, start);
    }

    /// A striking somewhere among the records, be it behind a witness.
    pub fn strike_within(&mut self, random: &mut Random, member: usize) {
        let at = random.below(self.records.len() + 1);
        self.strike_at(at, member);
    }

    /// A line of kind `52`, `50` or `51`.
    pub fn line(&mut self, kind: u8, root: u16) {
        self.record(kind, &root.to_le_bytes());
        self.entries.clear();
        self.next = 0;
        self.lines.push(self.bytes.len());
    }

    pub fn end(&mut self) {
        self.record(0x45, &[]);
    }

    /// The entry of a diagram: the records that it lacks are written, children first.
    pub fn entry(&mut self, store: &Diagrams, node: Node) -> u16 {
        if node < 2 {
            return node as u16;
        }
        if let Some(entry) = self.entries.get(&node) {
            return *entry;
        }
        let short = if self.sets >> (node % 64) & 1 == 1 { tally::of(store, node) } else { None };
        let entry = match short {
            Some((set, tally)) => self.tally(set, tally),
            None => {
                let (variable, low, high) = store.nodes[node];
                let (low, high) = (self.entry(store, low), self.entry(store, high));
                self.node(variable, low, high)
            }
        };
        self.entries.insert(node, entry);
        entry
    }
}

/// A member's number in two bytes.
fn number(member: usize) -> [u8; 2] {
    u16::try_from(member).expect("a member's number has two bytes").to_le_bytes()
}

/// A line as it was written.
#[derive(Clone, Copy)]
pub struct Line {
    pub kind: u8,
    pub g: Node,
    pub witness: Literals,
}

/// A striking: how many lines stand before it, and the member.
pub type Striking = (usize, usize);

/// A proof in the making: the members so far with their marks, and the lines and strikings written.
#[derive(Clone)]
pub struct Builder {
    pub store: Diagrams,
    pub members: Vec<Node>,
    pub struck: Vec<bool>,
    pub writer: Writer,
    pub lines: Vec<Line>,
    pub strikings: Vec<Striking>,
    /// No PR lines.
    pub consequence: bool,
}

impl Builder {
    pub fn new(formula: &Formula) -> Self {
        let mut store = Diagrams::default();
        let members: Vec<Node> = formula.clauses.iter().map(|clause| store.clause(clause)).collect();
        let struck = vec![false; members.len()];
        Builder {
            store,
            members,
            struck,
            writer: Writer::default(),
            lines: Vec::new(),
            strikings: Vec::new(),
            consequence: false,
        }
    }

    /// The same with no line and no striking yet, over the first members, which are so many clauses.
    pub fn anew(&self, clauses: usize) -> Self {
        Builder {
            store: self.store.clone(),
            members: self.members[..clauses].to_vec(),
            struck: vec![false; clauses],
            writer: Writer { sets: self.writer.sets, ..Writer::default() },
            lines: Vec::new(),
            strikings: Vec::new(),
            consequence: self.consequence,
        }
    }

    /// Writes g as a line, whether it is accepted or not.
    pub fn write_line(&mut self, kind: u8, g: Node, witness: Literals) {
        let root = self.writer.entry(&self.store, g);
        self.close(Line { kind, g, witness }, root);
    }

    /// Writes a line with strikings strewn among its entries. They come before the witness, behind which they would be refused.
    pub fn write_striking(&mut self, random: &mut Random, line: Line, strikings: &[usize]) {
        let first = self.writer.records.len();
        let root = self.writer.entry(&self.store, line.g);
        for &member in strikings {
            let at = random.between(first, self.writer.records.len());
            self.writer.strike_at(at, member);
            self.mark(member);
        }
        self.close(line, root);
    }

    fn close(&mut self, line: Line, root: u16) {
        self.writer.witness(line.witness);
        self.writer.line(line.kind, root);
        self.members.push(line.g);
        self.struck.push(false);
        self.lines.push(line);
    }

    /// Strikes out a member that is there and live.
    pub fn strike(&mut self, member: usize) {
        self.writer.strike(member);
        self.mark(member);
    }

    fn mark(&mut self, member: usize) {
        self.struck[member] = true;
        self.strikings.push((self.lines.len(), member));
    }

    /// The members that are not struck out.
    pub fn live(&self) -> Vec<Node> {
        let all = self.members.iter().zip(&self.struck);
        all.filter(|(_, struck)| !**struck).map(|(member, _)| *member).collect()
    }

    /// Whether the live members accept a line.
    pub fn accepts(&mut self, line: Line) -> bool {
        let live = self.live();
        match line.kind {
            0x52 => self.store.rup(&live, line.g),
            paths::KIND => self.store.path(&live, line.g),
            _ => self.store.pr(&live, line.g, line.witness),
        }
    }

    /// Writes g as a RUP line if it is accepted as one.
    pub fn rup(&mut self, g: Node) -> bool {
        let holds = self.accepts(Line { kind: 0x52, g, witness: Literals::default() });
        if holds {
            self.write_line(0x52, g, Literals::default());
        }
        holds
    }

    /// Writes g as a path line if it is accepted as one.
    pub fn path(&mut self, g: Node) -> bool {
        let holds = self.accepts(Line { kind: paths::KIND, g, witness: Literals::default() });
        if holds {
            self.write_line(paths::KIND, g, Literals::default());
        }
        holds
    }

    /// Writes g as a PR line with this witness if it is accepted as one.
    pub fn pr(&mut self, g: Node, witness: Literals) -> bool {
        let holds = !self.consequence && self.accepts(Line { kind: 0x50, g, witness });
        if holds {
            self.write_line(0x50, g, witness);
        }
        holds
    }

    /// Writes g and the lines that it needs, of at most so many in all: where g alone is not accepted, first "g or x" and
    /// "g or not x", whose negations under not-g are each other's.
    pub fn derive(&mut self, g: Node, most: usize) -> bool {
        if self.lines.len() >= most || g == 1 {
            return false;
        }
        if self.rup(g) {
            return true;
        }
        let Some(variable) = self.splitting(g) else { return false };
        for literal in [variable, -variable] {
            let literal = self.store.literal(literal);
            let weaker = self.store.or(g, literal);
            if weaker != 1 && !self.derive(weaker, most) {
                return false;
            }
        }
        self.lines.len() < most && self.rup(g)
    }

    /// The first variable of a live member that not-g leaves open.
    fn splitting(&mut self, g: Node) -> Option<i32> {
        let not_g = self.store.not(g);
        let units = self.store.units(not_g);
        let fixed = units.positive | units.negative;
        let members = self.live();
        let open = members.iter().map(|member| {
            let under = self.store.restrict(*member, units);
            self.store.variable(under)
        });
        let first = open.min()?;
        let open = first != u8::MAX && fixed >> (first - 1) & 1 == 0;
        open.then_some(i32::from(first))
    }

    /// The conjunction of all live members.
    pub fn whole(&mut self) -> Node {
        let members = self.live();
        members.iter().fold(1, |whole, member| self.store.and(whole, *member))
    }
}

/// A diagram over some of the variables, without a plan.
pub fn strewn(random: &mut Random, store: &mut Diagrams, variables: usize) -> Node {
    let mut below = vec![0, 1];
    for variable in (1..=variables as u8).rev() {
        let later = below.clone();
        for _ in 0..random.below(3) {
            let (low, high) = (random.pick(&later), random.pick(&later));
            below.push(store.node(variable, low, high));
        }
    }
    below[below.len() - 1]
}
