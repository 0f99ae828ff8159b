//! The checker held against the words of document 01 by brute force, over at most four variables: a
//! function is a word of 16 values, one for each assignment, and the table is searched from end to end.

mod binary;
mod books;
mod drat;
mod index;
mod model;
mod paths;
mod records;
mod single;
mod small;
mod tallies;
mod why;

use crate::operate::Diagrams;
use crate::protocol::{answer, Session};
use crate::table::{bit, Literals};

const N: u32 = 4;
const ALL: u16 = u16::MAX;

/// A function by its values: bit a is the value at assignment a, whose bit i-1 is variable i.
type Function = u16;

struct Random(u64);

impl Random {
    fn below(&mut self, bound: u64) -> u64 {
        self.0 ^= self.0 << 13;
        self.0 ^= self.0 >> 7;
        self.0 ^= self.0 << 17;
        (self.0 >> 11) % bound
    }

    fn function(&mut self) -> Function {
        self.below(1 << 16) as u16
    }

    fn one_in(&mut self, bound: u64) -> bool {
        self.below(bound) == 0
    }
}

fn value(f: Function, assignment: u32) -> bool {
    f >> assignment & 1 == 1
}

fn function(values: impl Fn(u32) -> bool) -> Function {
    (0..16).filter(|&a| values(a)).fold(0, |f, a| f | 1 << a)
}

fn variable(v: u32) -> Function {
    function(|a| a >> (v - 1) & 1 == 1)
}

fn under(f: Function, by: Literals) -> Function {
    function(|a| value(f, (a | by.yes as u32) & !(by.no as u32)))
}

fn distance(a: u32, b: u32) -> u32 {
    (1..=N).filter(|i| (a ^ b) >> (i - 1) & 1 == 1).map(|i| 1 << (N - i)).sum()
}

fn nearest(f: Function, g: Function) -> Function {
    function(|a| {
        let best = (0..16).filter(|&b| value(g, b)).min_by_key(|&b| distance(a, b)).unwrap();
        value(f, best)
    })
}

fn units(f: Function) -> Literals {
    let mut units = Literals::default();
    for v in 1..=N {
        if f & !variable(v) == 0 {
            units.yes |= bit(v);
        }
        if f & variable(v) == 0 {
            units.no |= bit(v);
        }
    }
    units
}

/// A table that is searched from end to end.
#[derive(Clone, PartialEq, Debug)]
struct Plain {
    size: usize,
    peak: usize,
    nodes: Vec<[u32; 3]>,
}

struct NoRoom;

impl Plain {
    fn new(size: usize) -> Plain {
        Plain { size, peak: 2, nodes: vec![[0; 3]; 2] }
    }

    fn place(&mut self, v: u32, low: u32, high: u32) -> Result<u32, NoRoom> {
        let node = [v, low, high];
        if let Some(at) = self.nodes.iter().position(|&other| other == node) {
            return Ok(at as u32);
        }
        if self.nodes.len() == self.size {
            return Err(NoRoom);
        }
        self.nodes.push(node);
        self.peak = self.peak.max(self.nodes.len());
        Ok(self.nodes.len() as u32 - 1)
    }

    fn build(&mut self, f: Function) -> Result<u32, NoRoom> {
        if f == 0 || f == ALL {
            return Ok((f == ALL) as u32);
        }
        let branch = |v: u32| (under(f, Literals { yes: 0, no: bit(v) }), under(f, Literals { yes: bit(v), no: 0 }));
        let v = (1..=N).find(|&v| branch(v).0 != branch(v).1).unwrap();
        let low = self.build(branch(v).0)?;
        let high = self.build(branch(v).1)?;
        self.place(v, low, high)
    }

    fn function(&self, node: u32) -> Function {
        match node {
            0 => 0,
            1 => ALL,
            _ => {
                let [v, low, high] = self.nodes[node as usize];
                (variable(v) & self.function(high)) | (!variable(v) & self.function(low))
            }
        }
    }

    fn text(&self) -> String {
        let nodes: Vec<String> = self.nodes[2..].iter().map(|[v, l, h]| format!("{v},{l},{h}")).collect();
        if nodes.is_empty() {
            "-".into()
        } else {
            nodes.join(";")
        }
    }
}

fn ask(session: &mut Session, line: &str) -> String {
    let mut out = Vec::new();
    answer(session, line.as_bytes(), &mut out);
    String::from_utf8(out).unwrap()
}

/// How many variables of a set an assignment makes true.
fn number_true(set: u64, assignment: u32) -> u32 {
    (1..=N).filter(|&v| set & bit(v) != 0 && value(variable(v), assignment)).count() as u32
}

fn at_least(set: u64, least: u8) -> Function {
    function(|a| number_true(set, a) >= least.into())
}

fn parity(set: u64, odd: u8) -> Function {
    function(|a| number_true(set, a) % 2 == odd.into())
}

/// Literal by literal, so both signs give 1.
fn clause(literals: &[i32]) -> Function {
    let literal = |l: i32| if l > 0 { variable(l as u32) } else { !variable(l.unsigned_abs()) };
    literals.iter().fold(0, |f, &l| f | literal(l))
}

fn random_clause(random: &mut Random, variables: u32) -> (Vec<i32>, Function) {
    let mut literals = Vec::new();
    let mut f = 0;
    for v in 1..=variables {
        match random.below(4) {
            0 => (literals.push(v as i32), f |= variable(v)).1,
            1 => (literals.push(-(v as i32)), f |= !variable(v)).1,
            _ => (),
        }
    }
    (literals, f)
}

/// What parts two tokens, comment lines included.
fn between(random: &mut Random) -> &'static str {
    ["\n", "\r\nc 1 0\n", "\nc\n\nc 0 x\n "].get(random.below(12) as usize).unwrap_or(&" ")
}

fn hex(bytes: &[u8]) -> String {
    if bytes.is_empty() {
        return "-".into();
    }
    bytes.iter().map(|byte| format!("{byte:02x}")).collect()
}

fn push_clause(random: &mut Random, literals: &[i32], text: &mut String) {
    for literal in literals.iter().chain([&0]) {
        text.push_str(&format!("{literal}{}", between(random)));
    }
}
