//! Single calls, with the table alone lent, as the line protocol names them.

use crate::index::{Change, Index, Sizes};
use crate::operate::Diagrams;
use crate::table::{Full, Literals, NodeId, Table, VARIABLES, ZERO};
use crate::tally::{self, Tally};
use crate::words::{decimal, field, node_number, push_list, push_number};

/// A place of a lent table, which may hold anything: variable, low, high.
type Place = [u32; 3];

/// A lent table as written; places not held are zero.
struct LentTable {
    size: u64,
    count: u64,
    places: Vec<Place>,
}

/// A lent index as written: in what it differs from the right one.
#[derive(Default)]
pub struct LentIndex {
    heads: Option<u64>,
    links: Option<u64>,
    pub changes: Vec<Change>,
}

impl LentIndex {
    pub fn sizes(&self, places: u64) -> Sizes {
        let heads = self.heads.unwrap_or(places.saturating_mul(2));
        Sizes { places, heads, links: self.links.unwrap_or(places) }
    }
}

enum Call {
    And(u32, u32),
    Not(u32),
    Cofactor(u32, u32),
    Restrict(u32, Literals),
    Evaluate(u32, u64),
    AtLeast(u64, u8),
}

/// The answer to a single call; none where the words name no call.
pub fn command<'a>(
    d: &mut Diagrams,
    name: &[u8],
    mut words: impl Iterator<Item = &'a [u8]>,
    out: &mut Vec<u8>,
) -> Option<()> {
    let lent = lent_table(&mut words)?;
    let call = match name {
        b"and" => Call::And(node_number(words.next()?)?, node_number(words.next()?)?),
        b"not" => Call::Not(node_number(words.next()?)?),
        b"cof" => Call::Cofactor(node_number(words.next()?)?, node_number(words.next()?)?),
        b"lits" => {
            let f = node_number(words.next()?)?;
            Call::Restrict(f, Literals { yes: decimal(words.next()?)?, no: decimal(words.next()?)? })
        }
        b"eval" => Call::Evaluate(node_number(words.next()?)?, decimal(words.next()?)?),
        b"atleast" => Call::AtLeast(decimal(words.next()?)?, u8::try_from(decimal(words.next()?)?).ok()?),
        _ => return None,
    };
    single(d, &lent, &lent_index(words)?, &call, out);
    Some(())
}

/// A single call: "7, 26, 13, then 27 or 15, then 23 where nodes are made". "A refused single call
/// changes nothing", so its answer shows the table as lent.
fn single(d: &mut Diagrams, lent: &LentTable, index: &LentIndex, call: &Call, out: &mut Vec<u8>) {
    let (number, value) = match run(d, lent, index, call) {
        Ok(value) => (0, value),
        Err(number) => (number, 0),
    };
    let count = if number == 0 { d.table.count() as u64 } else { lent.count };
    push_number(out, number.into());
    out.push(b' ');
    push_number(out, value.into());
    out.push(b' ');
    push_number(out, count);
    match *call {
        Call::Evaluate(..) => return,
        Call::AtLeast(set, least) => push_excluded(out, tally::excluded(set, least).filter(|_| number == 0)),
        _ => (),
    }
    out.extend(b" | ");
    if number == 0 {
        push_table(out, &d.table);
    } else {
        push_lent(out, &lent.places);
    }
}

fn run(d: &mut Diagrams, lent: &LentTable, index: &LentIndex, call: &Call) -> Result<u32, u32> {
    if !index.sizes(lent.size).are_right() {
        return Err(7);
    }
    d.reset(lent.size as usize);
    if !load(&mut d.table, lent) || !index_is_right(&d.table, lent.size as usize, &index.changes) {
        return Err(26);
    }
    let made = match *call {
        Call::And(f, g) => {
            let (f, g) = (node(d, f)?, node(d, g)?);
            d.conjoin(f, g)
        }
        Call::Not(f) => {
            let f = node(d, f)?;
            d.negate(f)
        }
        Call::Cofactor(f, g) => {
            let (f, g) = (node(d, f)?, node(d, g)?);
            if g == ZERO {
                return Err(27);
            }
            d.cofactor(f, g)
        }
        Call::Restrict(f, by) => {
            let f = node(d, f)?;
            if by.clash() {
                return Err(15);
            }
            d.restrict(f, by)
        }
        Call::AtLeast(set, least) => tally::make(d, set, Tally::AtLeast(least)),
        Call::Evaluate(f, word) => return Ok(d.evaluate(node(d, f)?, word).into()),
    };
    made.map(|node| node.0).map_err(|Full| 23)
}

fn node(d: &Diagrams, number: u32) -> Result<NodeId, u32> {
    if d.table.has(number.into()) {
        Ok(NodeId(number))
    } else {
        Err(13)
    }
}

/// "It refuses [..], in single calls, a wrong one with 26." What is not changed is right.
fn index_is_right(table: &Table, size: usize, changes: &[Change]) -> bool {
    changes.is_empty() || Index::of(table, size).stays_with(changes)
}

/// Takes a lent table into an empty one; false where it is not in "good order".
fn load(table: &mut Table, lent: &LentTable) -> bool {
    if lent.count < 2 || lent.count > lent.size || lent.count > lent.places.len().max(2) as u64 {
        return false;
    }
    let (constants, others) = lent.places.split_at(lent.places.len().min(2));
    let (nodes, free) = others.split_at(lent.count as usize - 2);
    let zeros = |places: &[Place]| places.iter().all(|place| *place == [0; 3]);
    zeros(constants) && zeros(free) && nodes.iter().all(|node| admit(table, *node))
}

/// Places one lent node that keeps to good order.
fn admit(table: &mut Table, [variable, low, high]: Place) -> bool {
    let proper = (1..=VARIABLES).contains(&variable) && low != high;
    if !proper || !table.has(low.into()) || !table.has(high.into()) {
        return false;
    }
    let (low, high) = (NodeId(low), NodeId(high));
    let before = variable < table.level(low) && variable < table.level(high);
    if !before || table.find(variable, low, high).is_some() {
        return false;
    }
    table.push(variable, low, high);
    true
}

fn lent_table<'a>(words: &mut impl Iterator<Item = &'a [u8]>) -> Option<LentTable> {
    let size = decimal(words.next()?)?;
    let count = decimal(words.next()?)?;
    let mut places = lent_places(words.next()?)?;
    // "Surplus places beyond SIZE are ignored."
    places.truncate(usize::try_from(size).unwrap_or(usize::MAX));
    Some(LentTable { size, count, places })
}

/// The words after all others that name what is wrong in the lent index.
pub fn lent_index<'a>(words: impl Iterator<Item = &'a [u8]>) -> Option<LentIndex> {
    let mut index = LentIndex::default();
    for word in words {
        let equals = word.iter().position(|&b| b == b'=')?;
        let (name, value) = (&word[..equals], &word[equals + 1..]);
        match name {
            b"!HS" => index.heads = Some(decimal(value)?),
            b"!LS" => index.links = Some(decimal(value)?),
            [b'!', b'H', b':', at @ ..] => index.changes.push(Change::Head(decimal(at)?, node_number(value)?)),
            [b'!', b'L', b':', at @ ..] => index.changes.push(Change::Link(decimal(at)?, node_number(value)?)),
            _ => return None,
        }
    }
    Some(index)
}

fn lent_places(text: &[u8]) -> Option<Vec<Place>> {
    let (mut rest, mut places) = match text {
        [b'@', rest @ ..] => (rest, Vec::new()),
        _ => (text, vec![[0; 3]; 2]),
    };
    if rest == b"-" {
        return Some(places);
    }
    loop {
        let variable = u32::try_from(decimal(field(&mut rest, b',')?)?).ok()?;
        let (low, high) = (field(&mut rest, b',')?, field(&mut rest, b';')?);
        places.push([variable, node_number(low)?, node_number(high)?]);
        if rest.is_empty() {
            return Some(places);
        }
    }
}

/// A table in good order: places 2 to the count.
pub fn push_table(out: &mut Vec<u8>, table: &Table) {
    let nodes: Vec<NodeId> = (2..table.count() as u32).map(NodeId).collect();
    push_list(out, b';', &nodes, |out, &id| {
        push_place(out, &[table.level(id), table.low(id).0, table.high(id).0]);
    });
}

/// A lent table: to the last place that is not zero; from place 0, after `@`, where 0 or 1 is dirty.
fn push_lent(out: &mut Vec<u8>, places: &[Place]) {
    let used = places.iter().rposition(|place| *place != [0; 3]).map_or(0, |last| last + 1);
    let dirty = places.iter().take(2).any(|place| *place != [0; 3]);
    if dirty {
        out.push(b'@');
    }
    let from = if dirty { 0 } else { used.min(2) };
    push_list(out, b';', &places[from..used], push_place);
}

fn push_place(out: &mut Vec<u8>, place: &Place) {
    for (at, &field) in place.iter().enumerate() {
        if at > 0 {
            out.push(b',');
        }
        push_number(out, field.into());
    }
}

fn push_excluded(out: &mut Vec<u8>, excluded: Option<u64>) {
    out.push(b' ');
    match excluded {
        Some(excluded) => push_number(out, excluded),
        None => out.push(b'-'),
    }
}
