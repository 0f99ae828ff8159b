//! Words that lend an index of wrong size, or another one than the right one.

use crate::random::Random;
use crate::table::{Place, Table};

/// The chain of a node in an index of so many heads.
pub fn chain((variable, low, high): Place, heads: usize) -> usize {
    let key = u32::from(low).wrapping_mul(12_582_917).wrapping_add(u32::from(high).wrapping_mul(4_256_249));
    key.wrapping_add(u32::from(variable)) as usize % heads
}

/// One or both lists of another size than goes with a table of so many places.
pub fn wrong_size(random: &mut Random, size: usize) -> String {
    let heads = random.pick(&[0, 1, size, (2 * size).saturating_sub(1), 2 * size + 1, 2 * size + 2, 4 * size]);
    let links = random.pick(&[0, 1, size.saturating_sub(1), size + 1, 2 * size]);
    match random.below(4) {
        0 | 1 => format!(" !HS={heads}"),
        2 => format!(" !LS={links}"),
        _ => format!(" !LS={links} !HS={heads}"),
    }
}

/// The nodes of a table in good order by their chains, each from the highest number down.
struct Chains {
    of: Vec<Vec<usize>>,
    size: usize,
    count: usize,
}

impl Chains {
    fn of(table: &Table) -> Self {
        let mut of = vec![Vec::new(); 2 * table.size];
        for place in (2..table.count).rev() {
            of[chain(table.places[place], 2 * table.size)].push(place);
        }
        Chains { of, size: table.size, count: table.count }
    }

    /// A chain of at least so many nodes, or none.
    fn longer(&self, random: &mut Random, least: usize) -> Option<usize> {
        let found: Vec<usize> = (0..self.of.len()).filter(|chain| self.of[*chain].len() >= least).collect();
        (!found.is_empty()).then(|| random.pick(&found))
    }

    fn empty(&self, random: &mut Random) -> Option<usize> {
        let found: Vec<usize> = (0..self.of.len()).filter(|chain| self.of[*chain].is_empty()).collect();
        (!found.is_empty()).then(|| random.pick(&found))
    }

    /// A node, or a place that is none: a constant's, one from the count on, one beyond the table.
    fn any(&self, random: &mut Random) -> usize {
        let outside = [0, 1, self.count, self.count + 1, self.size - 1, self.size, 65_535];
        if self.count > 2 && random.percent(60) {
            return random.between(2, self.count - 1);
        }
        random.pick(&outside).min(65_535)
    }
}

/// One kind of damage to the right index of a table in good order; a few of them leave it as it is.
pub fn damage(random: &mut Random, table: &Table) -> String {
    let chains = Chains::of(table);
    for _ in 0..20 {
        let words = match random.below(3) {
            0 => head(random, &chains),
            1 => link(random, &chains),
            _ => either(random, &chains),
        };
        if let Some(words) = words {
            return words;
        }
    }
    // A table of the constants alone: heads and links are 0.
    format!(" !H:{}={}", random.below(2 * table.size), chains.any(random))
}

fn head(random: &mut Random, chains: &Chains) -> Option<String> {
    let (at, value) = match random.below(5) {
        0 => (chains.longer(random, 1)?, 0),
        1 => {
            let at = chains.longer(random, 2)?;
            (at, random.pick(&chains.of[at][1..]))
        }
        2 => {
            let (at, other) = (chains.longer(random, 1)?, chains.longer(random, 1)?);
            (at, random.pick(&chains.of[other]))
        }
        3 => (chains.empty(random)?, chains.any(random)),
        _ => (chains.longer(random, 1)?, chains.any(random)),
    };
    Some(format!(" !H:{at}={value}"))
}

fn link(random: &mut Random, chains: &Chains) -> Option<String> {
    let least = random.pick(&[1, 2, 2, 3]);
    let nodes = &chains.of[chains.longer(random, least)?];
    let at = random.below(nodes.len());
    let (place, value) = match random.below(7) {
        // A node skipped, the chain cut, a loop, a way up.
        0 => (nodes[at], nodes.get(at + 2).copied().unwrap_or(0)),
        1 => (nodes[at], 0),
        2 => (nodes[at], nodes[at]),
        3 => (nodes[at], nodes[0]),
        // Into another chain, or to what is no node.
        4 => {
            let other = chains.longer(random, 1)?;
            (nodes[at], random.pick(&chains.of[other]))
        }
        5 => (nodes[at], chains.any(random)),
        // The link of a constant or of a free place.
        _ => {
            let free = [0, 1, chains.count, chains.size - 1];
            (random.pick(&free).min(chains.size - 1), chains.any(random))
        }
    };
    Some(format!(" !L:{place}={value}"))
}

/// Several words: a chain in another order, or with a node left out or taken in; and words that change nothing.
fn either(random: &mut Random, chains: &Chains) -> Option<String> {
    if random.percent(25) {
        return Some(unchanged(random, chains));
    }
    let least = random.pick(&[1, 2, 2, 3]);
    let at = chains.longer(random, least)?;
    let mut nodes = chains.of[at].clone();
    match random.below(3) {
        0 => random.shuffle(&mut nodes),
        1 => drop(nodes.remove(random.below(nodes.len()))),
        _ => {
            let other = chains.longer(random, 1)?;
            nodes.push(random.pick(&chains.of[other]));
            nodes.sort_unstable_by_key(|node| usize::MAX - node);
        }
    }
    let mut words = format!(" !H:{at}={}", nodes.first().copied().unwrap_or(0));
    for (place, node) in nodes.iter().enumerate() {
        words += &format!(" !L:{node}={}", nodes.get(place + 1).copied().unwrap_or(0));
    }
    Some(words)
}

/// What is right already, what is beyond the lists, what is taken back; sizes that are right.
fn unchanged(random: &mut Random, chains: &Chains) -> String {
    let at = random.below(chains.of.len());
    let right = chains.of[at].first().copied().unwrap_or(0);
    match random.below(5) {
        0 => format!(" !H:{at}={right}"),
        1 => format!(" !H:{}=2 !L:{}=2", 2 * chains.size, chains.size),
        2 => format!(" !L:{}=5", chains.size + random.below(100)),
        3 => format!(" !H:{at}={} !H:{at}={right}", chains.any(random)),
        _ => format!(" !HS={} !LS={}", 2 * chains.size, chains.size),
    }
}

#[cfg(test)]
mod tests {
    use super::*;

    /// Nodes 2 to 4 share a chain of 16, node 5 stands alone.
    fn table() -> Table {
        let places = vec![(0, 0, 0), (0, 0, 0), (3, 0, 1), (19, 0, 1), (35, 0, 1), (2, 0, 1)];
        Table { size: 8, count: 6, places }
    }

    /// What the words make of the right index: whether it is another one.
    fn spoilt(words: &str) -> bool {
        let right = |list: char, at: usize| match (list, at) {
            ('H', 12) => 4,
            ('H', 11) => 5,
            ('L', 4) => 3,
            ('L', 3) => 2,
            _ => 0,
        };
        let mut changed = std::collections::BTreeMap::new();
        for word in words.split_whitespace().filter(|word| !word.contains("S=")) {
            let (list, rest) = (word.chars().nth(1).unwrap(), &word[3..]);
            let (at, value) = rest.split_once('=').unwrap();
            changed.insert((list, at.parse().unwrap()), value.parse().unwrap());
        }
        let beyond = |list: char| if list == 'H' { 16 } else { 8 };
        changed
            .iter()
            .any(|(&(list, at), &value): (&(char, usize), &usize)| at < beyond(list) && value != right(list, at))
    }

    /// Every kind comes, and most of them spoil the index.
    #[test]
    fn most_are_wrong() {
        let random = &mut Random::new(1);
        let words: Vec<String> = (0..2_000).map(|_| damage(random, &table())).collect();
        let wrong = words.iter().filter(|words| spoilt(words)).count();
        assert!((1_500..1_990).contains(&wrong), "{wrong}");
        let wanted = [
            " !H:12=0",
            " !H:12=3",
            " !H:12=5",
            " !H:12=6",
            " !H:11=65535",
            " !L:4=2",
            " !L:4=0",
            " !L:4=4",
            " !L:2=4",
            " !L:5=3",
            " !L:6=2",
            " !L:1=3",
        ];
        for wanted in wanted {
            assert!(words.iter().any(|words| words == wanted), "{wanted}");
        }
        assert!(words.iter().any(|words| words.starts_with(" !H:0=") && spoilt(words)));
    }

    #[test]
    fn nothing_but_constants() {
        let random = &mut Random::new(1);
        let table = Table { size: 2, count: 2, places: vec![(0, 0, 0); 2] };
        assert!((0..200).map(|_| damage(random, &table)).all(|words| words.starts_with(" !")));
    }
}
