//! The generator's own diagrams. They choose commands and never judge an answer: the two filters do that.
//!
//! The list of nodes is at every moment a table in good order, so that a part of it from the start can be lent.

use std::collections::{HashMap, HashSet};

pub type Node = usize;

/// Variables made true and variables made false, bit i-1 for variable i.
#[derive(Clone, Copy, PartialEq, Eq, Hash, Default)]
pub struct Literals {
    pub positive: u64,
    pub negative: u64,
}

impl Literals {
    pub fn none(self) -> bool {
        self.positive == 0 && self.negative == 0
    }

    pub fn set(&mut self, literal: i32) {
        let bit = 1 << (literal.unsigned_abs() - 1);
        if literal > 0 {
            self.positive |= bit;
        } else {
            self.negative |= bit;
        }
    }
}

#[derive(Clone, Copy, PartialEq, Eq, Hash)]
enum Work {
    And(Node, Node),
    Not(Node),
    Cofactor(Node, Node),
    Restrict(Node, Literals),
}

#[derive(Clone)]
pub struct Diagrams {
    pub nodes: Vec<(u8, Node, Node)>,
    unique: HashMap<(u8, Node, Node), Node>,
    done: HashMap<Work, Node>,
}

impl Default for Diagrams {
    fn default() -> Self {
        Diagrams { nodes: vec![(0, 0, 0); 2], unique: HashMap::new(), done: HashMap::new() }
    }
}

impl Diagrams {
    pub fn node(&mut self, variable: u8, low: Node, high: Node) -> Node {
        if low == high {
            return low;
        }
        let key = (variable, low, high);
        if let Some(node) = self.unique.get(&key) {
            return *node;
        }
        self.nodes.push(key);
        self.unique.insert(key, self.nodes.len() - 1);
        self.nodes.len() - 1
    }

    /// The root's variable; a constant's is above all others.
    pub fn variable(&self, node: Node) -> u8 {
        if node < 2 {
            u8::MAX
        } else {
            self.nodes[node].0
        }
    }

    fn sides(&self, node: Node, variable: u8) -> (Node, Node) {
        if self.variable(node) == variable {
            (self.nodes[node].1, self.nodes[node].2)
        } else {
            (node, node)
        }
    }

    fn remember(&mut self, work: Work, make: impl FnOnce(&mut Self) -> Node) -> Node {
        if let Some(node) = self.done.get(&work) {
            return *node;
        }
        let node = make(self);
        self.done.insert(work, node);
        node
    }

    pub fn not(&mut self, f: Node) -> Node {
        if f < 2 {
            return 1 - f;
        }
        self.remember(Work::Not(f), |all| {
            let (variable, low, high) = all.nodes[f];
            let (low, high) = (all.not(low), all.not(high));
            all.node(variable, low, high)
        })
    }

    pub fn and(&mut self, f: Node, g: Node) -> Node {
        if f == g || g == 1 || f == 0 {
            return f;
        }
        if f == 1 || g == 0 {
            return g;
        }
        self.remember(Work::And(f.min(g), f.max(g)), |all| {
            let variable = all.variable(f).min(all.variable(g));
            let ((f0, f1), (g0, g1)) = (all.sides(f, variable), all.sides(g, variable));
            let (low, high) = (all.and(f0, g0), all.and(f1, g1));
            all.node(variable, low, high)
        })
    }

    pub fn or(&mut self, f: Node, g: Node) -> Node {
        let (f, g) = (self.not(f), self.not(g));
        let neither = self.and(f, g);
        self.not(neither)
    }

    /// f cofactored by g, which is not 0.
    pub fn cofactor(&mut self, f: Node, g: Node) -> Node {
        if f < 2 || g == 1 {
            return f;
        }
        self.remember(Work::Cofactor(f, g), |all| {
            let variable = all.variable(f).min(all.variable(g));
            let ((f0, f1), (g0, g1)) = (all.sides(f, variable), all.sides(g, variable));
            if g0 == 0 {
                return all.cofactor(f1, g1);
            }
            if g1 == 0 {
                return all.cofactor(f0, g0);
            }
            let (low, high) = (all.cofactor(f0, g0), all.cofactor(f1, g1));
            all.node(variable, low, high)
        })
    }

    pub fn restrict(&mut self, f: Node, literals: Literals) -> Node {
        if f < 2 {
            return f;
        }
        self.remember(Work::Restrict(f, literals), |all| {
            let (variable, low, high) = all.nodes[f];
            let bit = 1u64 << (variable - 1);
            if literals.positive & bit != 0 {
                return all.restrict(high, literals);
            }
            if literals.negative & bit != 0 {
                return all.restrict(low, literals);
            }
            let (low, high) = (all.restrict(low, literals), all.restrict(high, literals));
            all.node(variable, low, high)
        })
    }

    /// The literals that hold wherever f does.
    pub fn units(&self, f: Node) -> Literals {
        let mut known = HashMap::new();
        self.units_known(f, &mut known)
    }

    fn units_known(&self, f: Node, known: &mut HashMap<Node, Literals>) -> Literals {
        match f {
            0 => return Literals { positive: !0, negative: !0 },
            1 => return Literals::default(),
            _ => {}
        }
        if let Some(units) = known.get(&f) {
            return *units;
        }
        let (variable, low, high) = self.nodes[f];
        let (at_low, at_high) = (self.units_known(low, known), self.units_known(high, known));
        let mut units =
            Literals { positive: at_low.positive & at_high.positive, negative: at_low.negative & at_high.negative };
        if low == 0 {
            units.set(i32::from(variable));
        }
        if high == 0 {
            units.set(-i32::from(variable));
        }
        known.insert(f, units);
        units
    }

    pub fn literal(&mut self, literal: i32) -> Node {
        let variable = literal.unsigned_abs() as u8;
        if literal > 0 {
            self.node(variable, 0, 1)
        } else {
            self.node(variable, 1, 0)
        }
    }

    pub fn clause(&mut self, literals: &[i32]) -> Node {
        let mut sorted = literals.to_vec();
        sorted.sort_by_key(|literal| -literal.abs());
        sorted.iter().fold(0, |clause, literal| {
            let literal = self.literal(*literal);
            self.or(literal, clause)
        })
    }

    /// Whether an odd number of the variables, which rise, is true; else whether an even one is.
    pub fn parity(&mut self, variables: &[u8], odd: bool) -> Node {
        let (mut even_below, mut odd_below) = (1, 0);
        for variable in variables.iter().rev() {
            let even = self.node(*variable, even_below, odd_below);
            odd_below = self.node(*variable, odd_below, even_below);
            even_below = even;
        }
        if odd {
            odd_below
        } else {
            even_below
        }
    }

    /// Whether at least so many of the variables, which rise, are true.
    pub fn at_least(&mut self, variables: &[u8], wanted: usize) -> Node {
        let mut row: Vec<Node> = (0..=wanted).map(|want| usize::from(want == 0)).collect();
        for variable in variables.iter().rev() {
            for want in (1..=wanted).rev() {
                row[want] = self.node(*variable, row[want], row[want - 1]);
            }
        }
        row[wanted]
    }

    /// Whether UnitProp of the members conflicts.
    pub fn conflicts(&mut self, mut members: Vec<Node>) -> bool {
        loop {
            let set: HashSet<Node> = members.iter().copied().collect();
            if set.contains(&0) || members.iter().any(|member| set.contains(&self.not(*member))) {
                return true;
            }
            let found = members.iter().map(|member| self.units(*member)).find(|units| !units.none());
            let Some(units) = found else { return false };
            members = members.iter().map(|member| self.restrict(*member, units)).collect();
        }
    }

    fn all_by(&mut self, members: &[Node], g: Node) -> Vec<Node> {
        members.iter().map(|member| self.cofactor(*member, g)).collect()
    }

    /// Whether the members accept g as a RUP line.
    pub fn rup(&mut self, members: &[Node], g: Node) -> bool {
        let not_g = self.not(g);
        if not_g == 0 {
            return false;
        }
        let by_line = self.all_by(members, not_g);
        self.conflicts(by_line)
    }

    /// How many paths lead from the root to 0, at most what a word holds.
    pub fn path_count(&self, f: Node) -> u64 {
        // Children stand before their parents.
        let mut counts = vec![1, 0];
        for (_, low, high) in self.nodes.iter().take(f + 1).skip(2) {
            counts.push(u64::saturating_add(counts[*low], counts[*high]));
        }
        counts[f]
    }

    /// The literals of each path to 0, low side first; none where there are more than so many.
    pub fn paths(&self, f: Node, most: usize) -> Option<Vec<Literals>> {
        if self.path_count(f) > most as u64 {
            return None;
        }
        let (mut found, mut open) = (Vec::new(), vec![(f, Literals::default())]);
        while let Some((node, path)) = open.pop() {
            match node {
                0 => found.push(path),
                1 => {}
                _ => {
                    let (variable, low, high) = self.nodes[node];
                    let side = |literal: i32| {
                        let mut path = path;
                        path.set(literal);
                        path
                    };
                    open.extend([(high, side(i32::from(variable))), (low, side(-i32::from(variable)))]);
                }
            }
        }
        Some(found)
    }

    /// Whether the members accept g as a path line; no where it has more paths than the generator tries.
    pub fn path(&mut self, members: &[Node], g: Node) -> bool {
        const TRIED: usize = 200;
        let Some(paths) = self.paths(g, TRIED) else { return false };
        g != 1
            && paths.into_iter().all(|path| {
                let by_path = members.iter().map(|member| self.restrict(*member, path)).collect();
                self.conflicts(by_path)
            })
    }

    /// Whether the members accept g as a PR line with this witness.
    pub fn pr(&mut self, members: &[Node], g: Node, witness: Literals) -> bool {
        let not_g = self.not(g);
        if not_g == 0 || self.restrict(g, witness) != 1 {
            return false;
        }
        let by_line = self.all_by(members, not_g);
        members.iter().all(|member| {
            let h = self.restrict(*member, witness);
            let not_h = self.not(h);
            not_h == 0 || {
                let by_both = self.all_by(&by_line, not_h);
                self.conflicts(by_both)
            }
        })
    }
}
