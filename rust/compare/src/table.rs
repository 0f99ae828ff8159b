//! Tables to lend to single calls: in good order, or with one clause of good order broken.

use crate::diagram::Diagrams;
use crate::index::chain;
use crate::random::Random;

pub type Place = (u8, u16, u16);

/// A table as a command names it: `places` from place 0 on, zeros above them up to the size.
#[derive(Clone)]
pub struct Table {
    pub size: usize,
    pub count: usize,
    pub places: Vec<Place>,
}

impl Table {
    /// The nodes of a store, with no room left.
    pub fn of(store: &Diagrams) -> Self {
        let short = |node: usize| u16::try_from(node).expect("a table of over 65,536 places");
        let places: Vec<Place> = store.nodes.iter().map(|(v, l, h)| (*v, short(*l), short(*h))).collect();
        Table { size: places.len(), count: places.len(), places }
    }

    /// `SIZE COUNT NODES` as the protocol writes them.
    pub fn text(&self) -> String {
        let zero = |place: &Place| *place == (0, 0, 0);
        let dirty = !self.places.iter().take(2).all(zero);
        let start = if dirty { 0 } else { 2.min(self.places.len()) };
        let end = self.places.iter().rposition(|place| !zero(place)).map_or(start, |last| last + 1).max(start);
        let listed: Vec<String> = self.places[start..end].iter().map(|(v, l, h)| format!("{v},{l},{h}")).collect();
        let mark = if dirty { "@" } else { "" };
        let nodes = if listed.is_empty() { "-".into() } else { listed.join(";") };
        format!("{} {} {mark}{nodes}", self.size, self.count)
    }
}

/// A table in which a chain of the index has many nodes, with some free places.
pub fn one_chain(random: &mut Random) -> Table {
    let size = random.between(6, 40);
    let mut store = Diagrams::default();
    let first = random.between(1, 64) as u8;
    store.node(first, 0, 1);
    let wanted = chain((first, 0, 1), 2 * size);
    for _ in 0..3_000 {
        let variable = random.between(1, 64) as u8;
        let (low, high) = (child(random, &store, variable), child(random, &store, variable));
        let there = chain((variable, low as u16, high as u16), 2 * size) == wanted;
        if (there || random.percent(1)) && store.nodes.len() + 2 < size {
            store.node(variable, low, high);
        }
    }
    Table { size, ..Table::of(&store) }
}

/// A table of 65,536 places, all taken. Its last node stands over the one before, so that its key runs far over the top.
pub fn largest(random: &mut Random) -> Table {
    let variables: Vec<u8> = (2..=64).collect();
    let mut store = store(random, &variables, 65_535);
    store.nodes.truncate(65_535);
    let mut table = Table::of(&store);
    let last = table.places.len() as u16 - 1;
    add(&mut table, if random.percent(50) { (1, last, 0) } else { (1, 1, last) });
    table
}

/// Some of the variables 1 to 64, rising: all up to a number, or strewn.
pub fn variables(random: &mut Random) -> Vec<u8> {
    let many = if random.percent(70) { random.between(1, 10) } else { random.between(1, 64) };
    if random.percent(50) {
        return (1..=many as u8).collect();
    }
    let mut all: Vec<u8> = (1..=64).collect();
    random.shuffle(&mut all);
    all.truncate(many);
    all.sort_unstable();
    all
}

/// A store of about so many nodes: random nodes, and often two shapes that share little with them at the end.
pub fn store(random: &mut Random, variables: &[u8], nodes: usize) -> Diagrams {
    let mut store = Diagrams::default();
    let mut stuck = 0;
    while store.nodes.len() < nodes && stuck < 50 {
        let before = store.nodes.len();
        if random.percent(10) {
            shape(random, &mut store, variables);
        } else {
            node(random, &mut store, variables);
        }
        stuck = if store.nodes.len() == before { stuck + 1 } else { 0 };
    }
    if nodes < 60_000 && random.percent(50) {
        shape(random, &mut store, variables);
        shape(random, &mut store, variables);
    }
    store
}

fn some(random: &mut Random, variables: &[u8]) -> Vec<u8> {
    let kept = random.between(1, 100);
    variables.iter().copied().filter(|_| random.percent(kept)).collect()
}

fn shape(random: &mut Random, store: &mut Diagrams, variables: &[u8]) {
    let chosen = some(random, variables);
    match random.below(3) {
        0 => {
            let odd = random.percent(50);
            store.parity(&chosen, odd);
        }
        1 => {
            let wanted = random.below(chosen.len().min(8) + 1);
            store.at_least(&chosen, wanted);
        }
        _ => {
            let signed = |variable: &u8| if random.percent(50) { i32::from(*variable) } else { -i32::from(*variable) };
            let clause: Vec<i32> = chosen.iter().map(signed).collect();
            store.clause(&clause);
        }
    }
}

fn node(random: &mut Random, store: &mut Diagrams, variables: &[u8]) {
    let variable = random.pick(variables);
    let (low, high) = (child(random, store, variable), child(random, store, variable));
    store.node(variable, low, high);
}

/// A node below a variable: a few tries, or a constant.
fn child(random: &mut Random, store: &Diagrams, variable: u8) -> usize {
    for _ in 0..4 {
        let node = random.below(store.nodes.len());
        if store.variable(node) > variable {
            return node;
        }
    }
    random.below(2)
}

/// Breaks one clause of good order, the others kept where that can be.
pub fn damage(random: &mut Random, table: &mut Table) {
    match random.below(9) {
        0 => dirty_constant(random, table),
        1 => table.count = wrong_count(random, table),
        2 => add(table, (random.pick(&[0, 65, 66, 128, 255]), 0, 1)),
        3 => later_child(random, table),
        4 => wrong_order(random, table),
        5 => {
            let node = random.below(2) as u16;
            add(table, (random.between(1, 64) as u8, node, node));
        }
        6 => twice(random, table),
        7 => past_count(random, table),
        _ => nudge(random, table),
    }
}

/// One more node, for which the table gets room.
fn add(table: &mut Table, node: Place) {
    table.places.truncate(table.count);
    table.places.push(node);
    table.count = table.places.len();
    table.size = table.size.max(table.count);
}

fn dirty_constant(random: &mut Random, table: &mut Table) {
    let place = random.below(2);
    table.places[place] = one_field(random);
}

/// A place with one field that is not zero.
fn one_field(random: &mut Random) -> Place {
    match random.below(3) {
        0 => (random.between(1, 255) as u8, 0, 0),
        1 => (0, random.between(1, 65535) as u16, 0),
        _ => (0, 0, random.between(1, 65535) as u16),
    }
}

fn wrong_count(random: &mut Random, table: &Table) -> usize {
    match random.below(5) {
        0 => 0,
        1 => 1,
        2 => table.size + 1,
        3 => table.size + random.between(1, 100_000),
        _ => random.pick(&[usize::MAX, 1 << 32, 1 << 16 | 2, 65_537]).max(table.size + 1),
    }
}

/// A node whose child is itself or comes after it, its variable being in order.
fn later_child(random: &mut Random, table: &mut Table) {
    let own = table.count as u16;
    let ahead = if random.percent(50) { own } else { own.wrapping_add(1) };
    let node = if random.percent(50) { (1, ahead, 0) } else { (1, 1, ahead) };
    add(table, node);
    if ahead != own && random.percent(70) {
        add(table, (64, 0, 1));
    }
}

/// A node over a child whose variable is not greater.
fn wrong_order(random: &mut Random, table: &mut Table) {
    if table.count < 3 {
        add(table, (random.between(1, 64) as u8, 0, 1));
    }
    let child = random.between(2, table.count - 1);
    let above = table.places[child].0;
    let variable =
        if random.percent(60) { above } else { random.between(usize::from(above), 64.max(above.into())) as u8 };
    let node = if random.percent(50) { (variable, child as u16, 0) } else { (variable, 1, child as u16) };
    add(table, node);
}

fn twice(random: &mut Random, table: &mut Table) {
    if table.count < 3 {
        add(table, (random.between(1, 64) as u8, 0, 1));
    }
    let again = table.places[random.between(2, table.count - 1)];
    add(table, again);
}

/// Dirt from the count on: a strewn field, or nodes that the count leaves out.
fn past_count(random: &mut Random, table: &mut Table) {
    if table.count > 2 && random.percent(40) {
        table.count = random.between(2, table.count - 1);
        return;
    }
    let near = random.pick(&[1, 2, 5, 40]);
    let place = table.count + random.below(near);
    table.places.resize(place + 1, (0, 0, 0));
    table.places[place] = one_field(random);
    table.size = table.size.max(table.places.len());
}

/// Any field of any place a little off: this may also leave the table in good order.
fn nudge(random: &mut Random, table: &mut Table) {
    let place = random.below(table.places.len());
    let (variable, low, high) = &mut table.places[place];
    let step = random.pick(&[1, 2, u16::MAX]);
    match random.below(3) {
        0 => *variable = variable.wrapping_add(step as u8),
        1 => *low = low.wrapping_add(step),
        _ => *high = high.wrapping_add(step),
    }
}
