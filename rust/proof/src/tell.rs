//! Diagrams in words: clauses, and counts of variables with literals beside them.

use std::collections::{BTreeSet, HashMap};

/// A diagram: 0 and 1 are the constants. Two of one [`Diagrams`] are the same function exactly when they are equal.
pub type Diagram = usize;

/// The diagrams of a line, each of them once.
#[derive(Clone, Debug)]
pub struct Diagrams {
    nodes: Vec<(u8, Diagram, Diagram)>,
    known: HashMap<(u8, Diagram, Diagram), Diagram>,
}

impl Default for Diagrams {
    fn default() -> Self {
        // The constants' rows are never looked at; a variable above all others keeps them below every node.
        Diagrams { nodes: vec![(u8::MAX, 0, 0), (u8::MAX, 1, 1)], known: HashMap::new() }
    }
}

impl Diagrams {
    /// "If the variable then `high` else `low`", for a variable smaller than those of both.
    pub fn node(&mut self, variable: u8, low: Diagram, high: Diagram) -> Diagram {
        if low == high {
            return low;
        }
        let Diagrams { nodes, known } = self;
        *known.entry((variable, low, high)).or_insert_with(|| {
            nodes.push((variable, low, high));
            nodes.len() - 1
        })
    }

    /// The diagram's first variable; above 64 of a constant.
    pub fn variable(&self, f: Diagram) -> u8 {
        self.nodes[f].0
    }

    /// The diagram's first variable, low side and high side; of a constant nothing to rely on.
    pub fn row(&self, f: Diagram) -> (u8, Diagram, Diagram) {
        self.nodes[f]
    }

    /// The diagrams below f and f itself, children first.
    fn below(&self, f: Diagram) -> Vec<Diagram> {
        let mut found = BTreeSet::from([f]);
        let mut open = vec![f];
        while let Some(g) = open.pop() {
            let (_, low, high) = self.nodes[g];
            open.extend([low, high].into_iter().filter(|&child| child > 1 && found.insert(child)));
        }
        // A child is always made before its parent.
        found.into_iter().filter(|&g| g > 1).collect()
    }

    /// How many paths lead from f to 0, at most what a word holds.
    pub fn paths(&self, f: Diagram) -> u64 {
        let mut counts: HashMap<Diagram, u64> = HashMap::from([(0, 1), (1, 0)]);
        for g in self.below(f) {
            let (_, low, high) = self.nodes[g];
            counts.insert(g, counts[&low].saturating_add(counts[&high]));
        }
        counts[&f]
    }

    /// f with the variable set to the value.
    fn set(&mut self, f: Diagram, variable: u8, value: bool) -> Diagram {
        let mut become_of: HashMap<Diagram, Diagram> = HashMap::from([(0, 0), (1, 1)]);
        for g in self.below(f) {
            let (v, low, high) = self.nodes[g];
            let side = if value { high } else { low };
            let set = if v == variable { become_of[&side] } else { self.node(v, become_of[&low], become_of[&high]) };
            become_of.insert(g, set);
        }
        become_of[&f]
    }

    fn variables(&self, f: Diagram) -> Vec<u8> {
        let all: BTreeSet<u8> = self.below(f).iter().map(|&g| self.variable(g)).collect();
        all.into_iter().collect()
    }

    /// The value of f where of its variables just the first so many are true.
    fn at_first(&self, f: Diagram, variables: &[u8], ones: usize) -> bool {
        let mut g = f;
        while g > 1 {
            let (v, low, high) = self.nodes[g];
            g = if variables[..ones].contains(&v) { high } else { low };
        }
        g == 1
    }

    /// The diagram that is `values[k]` where k of the variables, which rise, are true.
    ///
    /// # Panics
    /// Where there is not one value more than variables.
    pub fn counted(&mut self, variables: &[u8], values: &[bool]) -> Diagram {
        assert_eq!(values.len(), variables.len() + 1);
        let mut row: Vec<Diagram> = values.iter().map(|&value| usize::from(value)).collect();
        for &variable in variables.iter().rev() {
            row = row.windows(2).map(|pair| self.node(variable, pair[0], pair[1])).collect();
        }
        row[0]
    }

    /// The function in words, where it is a constant, a clause, a count of variables, or a clause with a count.
    pub fn tell(&mut self, f: Diagram) -> Option<String> {
        if f < 2 {
            return Some(f.to_string());
        }
        let (mut rest, mut parts) = (f, Vec::new());
        for variable in self.variables(f) {
            for value in [true, false] {
                if self.set(f, variable, value) == 1 {
                    parts.push(format!("{}x{variable}", if value { "" } else { "not " }));
                    rest = self.set(rest, variable, !value);
                }
            }
        }
        if rest > 1 {
            let variables = self.variables(rest);
            let values: Vec<bool> = (0..=variables.len()).map(|ones| self.at_first(rest, &variables, ones)).collect();
            if self.counted(&variables, &values) != rest {
                return None;
            }
            let names: Vec<String> = variables.iter().map(|v| format!("x{v}")).collect();
            parts.push(format!("{} {}", count(&values)?, names.join(", ")));
        }
        Some(parts.join(" or "))
    }
}

/// Which counts are taken, in words.
fn count(values: &[bool]) -> Option<String> {
    let ones: Vec<usize> = (0..values.len()).filter(|&ones| values[ones]).collect();
    let (first, last, most) = (*ones.first()?, *ones.last()?, values.len() - 1);
    let together = last - first + 1 == ones.len();
    Some(match (first, last) {
        _ if most > 1 && (0..=most).all(|ones| values[ones] == (ones % 2 == 1)) => "an odd number of".into(),
        _ if most > 1 && (0..=most).all(|ones| values[ones] == (ones % 2 == 0)) => "an even number of".into(),
        _ if !together => return None,
        (0, 0) => "none of".into(),
        (_, last) if first == most && last == most => "all of".into(),
        (_, last) if last == most => format!("at least {first} of"),
        (0, last) => format!("at most {last} of"),
        (first, last) if first == last => format!("exactly {first} of"),
        (first, last) => format!("{first} to {last} of"),
    })
}
