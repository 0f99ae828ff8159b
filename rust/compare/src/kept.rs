//! What is lent for a book's call, as the documents have it, and which of it is refused with 26.

use std::collections::{BTreeSet, HashMap};

pub type Node = (u8, u16, u16);

/// The greatest rounds that may be kept.
pub const ROUNDS: u64 = 268_435_456;

/// What is kept for a book. Stage 0: its formula is still to be read; 1: lines are awaited; 2: it is bound by `number` at `place`.
#[derive(Clone, Default)]
pub struct Kept {
    pub share: u64,
    pub stage: u64,
    pub number: u64,
    pub place: u64,
    pub variables: u64,
    pub clauses: u64,
    pub lines: u64,
    pub rounds: u64,
    pub charge: u64,
    pub peak: u64,
    pub refuted: u64,
    /// Its own nodes from node 2 on, its members and their marks: what follows them is zero.
    pub own: Vec<u16>,
    pub members: Vec<u16>,
    pub marks: Vec<u8>,
}

/// The shared table, and what is kept for both books.
#[derive(Clone)]
pub struct State {
    pub size: usize,
    pub nodes: Vec<Node>,
    pub books: [Kept; 2],
}

/// The five numbers of an answer.
pub type Said = [u64; 5];

/// The numbers at the start of an answer.
pub fn said(answer: &str) -> Option<Said> {
    let mut words = answer.split(' ').map(|word| word.parse().ok());
    let mut said = [0; 5];
    for number in &mut said {
        *number = words.next()??;
    }
    Some(said)
}

/// The nodes of an answer's part.
pub fn nodes(part: &str) -> Option<Vec<Node>> {
    if part == "-" {
        return Some(Vec::new());
    }
    part.split(';')
        .map(|node| {
            let mut fields = node.split(',');
            let node = (fields.next()?.parse().ok()?, fields.next()?.parse().ok()?, fields.next()?.parse().ok()?);
            fields.next().is_none().then_some(node)
        })
        .collect()
}

fn list(part: &str) -> Option<Vec<u16>> {
    if part == "-" {
        return Some(Vec::new());
    }
    part.split(',').map(|word| word.parse().ok()).collect()
}

fn marks(part: &str) -> Vec<u8> {
    part.bytes().filter(|byte| *byte != b'-').map(|byte| byte - b'0').collect()
}

/// What a formula's header names, in a formula that was read.
fn variables(formula: &[u8]) -> u64 {
    let mut lines = formula.split(|byte| *byte == b'\n').filter(|line| line.first() != Some(&b'c'));
    let header = lines.find(|line| !line.trim_ascii().is_empty()).unwrap_or_default();
    let words = String::from_utf8_lossy(header);
    words.split_ascii_whitespace().nth(2).and_then(|word| word.parse().ok()).unwrap_or(0)
}

impl State {
    pub fn opened(size: usize, shares: [usize; 2]) -> State {
        let books = shares.map(|share| Kept { share: share as u64, ..Kept::default() });
        State { size, nodes: Vec::new(), books }
    }

    pub fn count(&self) -> usize {
        self.nodes.len() + 2
    }

    pub fn free(&self) -> u64 {
        (self.size - self.count()) as u64
    }

    /// The state after a call: by its answer, by the dump after it, and by the nodes of the check alone of what is accepted, which is
    /// asked for after an accepted call only.
    pub fn after(&self, which: usize, bytes: &[u8], said: Said, dump: &str, alone: Option<&str>) -> Option<State> {
        let mut state = self.clone();
        let parts: Vec<&str> = dump.split(" | ").collect();
        let [_, shared, parts @ ..] = &parts[..] else { return None };
        state.nodes = nodes(shared)?;
        for (book, part) in state.books.iter_mut().zip(parts.chunks(2)) {
            (book.members, book.marks) = (list(part[0])?, marks(part.get(1)?));
        }
        let (was, shared) = (&self.books[which], state.nodes.clone());
        let book = &mut state.books[which];
        let [number, place, lines, rounds, peak] = said;
        if was.stage > 1 {
            return Some(state);
        }
        (book.lines, book.rounds, book.peak) = (lines, rounds, peak);
        book.stage = 1;
        if number != 35 {
            (book.stage, book.number, book.place) = (2, number, place);
        }
        let Some(alone) = alone else { return Some(state) };
        if was.stage == 0 {
            (book.variables, book.clauses) = (variables(bytes), book.members.len() as u64);
        }
        let lines = &book.members[book.clauses as usize..];
        book.refuted = u64::from(lines.contains(&0));
        book.own = numbers(&shared, &nodes(alone)?)?;
        book.charge = book.own.len() as u64;
        Some(state)
    }

    /// What `kept` shows.
    pub fn shown(&self, which: usize) -> String {
        let Kept { share, stage, number, place, variables, clauses, lines, rounds, charge, peak, refuted, own, .. } =
            &self.books[which];
        let own = match own.len() {
            0 => "-".into(),
            _ => own.iter().map(u16::to_string).collect::<Vec<_>>().join(","),
        };
        format!(
            "{share} {stage} {number} {place} {variables} {clauses} {lines} {rounds} {charge} {peak} {refuted} | {own}"
        )
    }

    /// How many nodes a number stands for, those below it among them: added to what is known. What is no number of the table stands for 0.
    fn reach(&self, number: u16, known: &mut BTreeSet<u16>) {
        let Some(place) = usize::from(number).checked_sub(2) else { return };
        let Some(&(_, low, high)) = self.nodes.get(place) else { return };
        if known.insert(number) {
            self.reach(low, known);
            self.reach(high, known);
        }
    }

    /// "A book's charge is what the count less 2 would be if it worked alone, whoever placed a node."
    pub fn charge(&self, which: usize) -> u64 {
        let Kept { stage, clauses, lines, charge, own, members, .. } = &self.books[which];
        if *stage == 0 {
            return 0;
        }
        let mut known = BTreeSet::new();
        let own = own.iter().take(*charge as usize);
        own.chain(members.iter().take((clauses + lines) as usize)).for_each(|number| self.reach(*number, &mut known));
        known.len() as u64
    }

    /// Whether a call over a table in good order is refused with 26: "one of its members not below the count or with a mark above 1, kept
    /// variables, clauses, lines or rounds above 64, 1,024, 1,024 or 268,435,456, a kept charge or peak above its share, or fewer free places
    /// than its share less its charge".
    pub fn unfit(&self, which: usize) -> bool {
        let Kept { share, variables, clauses, lines, rounds, charge, peak, members, marks, .. } = &self.books[which];
        if *variables > 64 || *clauses > 1024 || *lines > 1024 || *rounds > ROUNDS || charge.max(peak) > share {
            return true;
        }
        let many = (clauses + lines) as usize;
        if members.iter().take(many).any(|member| usize::from(*member) >= self.count()) {
            return true;
        }
        if marks.iter().take(many).any(|mark| *mark > 1) {
            return true;
        }
        let charge = self.charge(which);
        charge > *share || self.free() < share - charge
    }
}

/// The numbers in the shared table of the nodes of a table alone.
fn numbers(shared: &[Node], alone: &[Node]) -> Option<Vec<u16>> {
    let places: HashMap<Node, u16> = shared.iter().enumerate().map(|(at, node)| (*node, at as u16 + 2)).collect();
    let mut numbers = vec![0, 1];
    for (variable, low, high) in alone {
        let node = (*variable, numbers[usize::from(*low)], numbers[usize::from(*high)]);
        numbers.push(*places.get(&node)?);
    }
    Some(numbers.split_off(2))
}
