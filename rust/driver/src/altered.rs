//! Changes to what is lent for a book's call, `!NAME=VALUE` or `!NAME:PLACE=VALUE`.

use crate::books::Opened;
use crate::command::{node, number, places, Node};
use crate::lent::Lists;

/// The lists that are lent.
#[derive(Clone, Copy)]
pub enum List {
    Vars,
    Lows,
    Highs,
    Heads,
    Links,
    Own,
    Members,
    Struck,
    Scratch,
}

const LISTS: [(&str, List); 9] = [
    ("!vars", List::Vars),
    ("!lows", List::Lows),
    ("!highs", List::Highs),
    ("!heads", List::Heads),
    ("!links", List::Links),
    ("!own", List::Own),
    ("!members", List::Members),
    ("!struck", List::Struck),
    ("!scratch", List::Scratch),
];

/// The numbers that are kept.
const NUMBERS: [&str; 12] = [
    "!count",
    "!share",
    "!stage",
    "!number",
    "!place",
    "!variables",
    "!clauses",
    "!lines",
    "!rounds",
    "!charge",
    "!peak",
    "!refuted",
];

pub enum Change {
    /// The value at a place of a list; beyond the list: nothing.
    Place(List, usize, u16),
    /// The length of a list: cut, or zeros at its end.
    Length(List, usize),
    Kept(usize, u64),
    /// A node more at the place of the count, with its right index.
    Node(Node),
}

impl Change {
    pub fn read(word: &str) -> Option<Change> {
        let (name, value) = word.split_once('=')?;
        if name == "!node" {
            return node(value).map(Change::Node);
        }
        if let Some(at) = NUMBERS.iter().position(|number| *number == name) {
            return number(value).map(|value| Change::Kept(at, value));
        }
        let list = |name: &str| LISTS.iter().find(|list| list.0 == name).map(|list| list.1);
        match name.split_once(':') {
            Some((name, place)) => Some(Change::Place(list(name)?, number(place)?, number(value)?)),
            None => Some(Change::Length(list(name)?, places(value)?)),
        }
    }

    pub fn apply(&self, lent: &mut Opened, which: usize) {
        match *self {
            Change::Place(list, place, value) => put(lent, which, list, place, value),
            Change::Length(list, size) => resize(lent, which, list, size),
            Change::Kept(at, value) => keep(lent, which, at, value),
            Change::Node(node) => push(lent, node),
        }
    }
}

fn put(lent: &mut Opened, which: usize, list: List, place: usize, value: u16) {
    let Opened { table, held, scratch, .. } = lent;
    let held = &mut held[which];
    let words = match list {
        List::Vars => return table.vars.lend().get_mut(place).into_iter().for_each(|at| *at = value as u8),
        List::Struck => return held.struck.lend().get_mut(place).into_iter().for_each(|at| *at = value as u8),
        List::Lows => table.lows.lend(),
        List::Highs => table.highs.lend(),
        List::Heads => table.heads.lend(),
        List::Links => table.links.lend(),
        List::Own => held.own.lend(),
        List::Members => held.members.lend(),
        List::Scratch => scratch.lend(),
    };
    words.get_mut(place).into_iter().for_each(|at| *at = value);
}

fn resize(lent: &mut Opened, which: usize, list: List, size: usize) {
    let Opened { table, held, scratch, .. } = lent;
    let held = &mut held[which];
    let words = match list {
        List::Vars => return table.vars = table.vars.resized(size),
        List::Struck => return held.struck = held.struck.resized(size),
        List::Lows => &mut table.lows,
        List::Highs => &mut table.highs,
        List::Heads => &mut table.heads,
        List::Links => &mut table.links,
        List::Own => &mut held.own,
        List::Members => &mut held.members,
        List::Scratch => scratch,
    };
    *words = words.resized(size);
}

fn keep(lent: &mut Opened, which: usize, at: usize, value: u64) {
    let (size, byte, kept) = (value as usize, value as u8, &mut lent.held[which].kept);
    match NUMBERS[at] {
        "!count" => lent.count = size,
        "!share" => kept.share = size,
        "!stage" => kept.stage = byte,
        "!number" => kept.number = byte,
        "!place" => kept.place = size,
        "!variables" => kept.variables = byte,
        "!clauses" => kept.clauses = size,
        "!lines" => kept.lines = size,
        "!rounds" => kept.rounds = value,
        "!charge" => kept.charge = size,
        "!peak" => kept.peak = size,
        _ => kept.refuted = byte,
    }
}

fn push(lent: &mut Opened, (variable, low, high): Node) {
    let Opened { table, count, .. } = lent;
    let place = *count;
    if place >= table.size() {
        return;
    }
    table.vars.lend()[place] = variable;
    table.lows.lend()[place] = low;
    table.highs.lend()[place] = high;
    *count += 1;
    table.index_anew(*count);
}

impl Lists {
    /// Makes the index anew, of the nodes below the count.
    fn index_anew(&mut self, count: usize) {
        let (heads, links) = self.right_index(count);
        self.heads.lend().copy_from_slice(&heads);
        self.links.lend().copy_from_slice(&links);
    }
}
