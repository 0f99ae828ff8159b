//! Sessions of two books on one table.

use crate::check::{self, hex};
use crate::clausal;
use crate::random::Random;

/// A formula and a proof in records.
#[derive(Clone)]
pub struct Pair {
    pub formula: Vec<u8>,
    pub proof: Vec<u8>,
}

/// The calls of a book: its formula, then a line or the end each, and calls more.
#[derive(Clone)]
pub struct Side {
    pub share: usize,
    pub calls: Vec<Vec<u8>>,
}

/// An opening that is not refused, and calls.
pub struct Session {
    pub size: usize,
    pub members: [usize; 2],
    pub scratch: usize,
    pub sides: [Side; 2],
    /// The book of each turn, and the bytes of its call.
    pub turns: Vec<(usize, Vec<u8>)>,
    /// An opening that is refused, before a turn.
    pub refused: Option<(usize, String)>,
}

/// The pairs of a session: two of their own, or with something in common.
pub fn pairs(random: &mut Random) -> [Pair; 2] {
    let first = pair(random);
    let second = match random.below(10) {
        0..=2 => first.clone(),
        3..=4 => Pair { formula: first.formula.clone(), proof: pair(random).proof },
        _ => pair(random),
    };
    [first, second]
}

/// One entry too many in a line, or lines too many of a book that has an empty clause, so that every line passes.
fn limits(random: &mut Random) -> Pair {
    let proof = match random.below(3) {
        0 => b"\x52\0\0".repeat(random.between(1_023, 1_026)),
        _ => [b"\x58\0\0\0\0\0\0\0\0\0".repeat(random.between(4_095, 4_098)), b"\x52\0\0".to_vec()].concat(),
    };
    Pair { formula: b"p cnf 1 1\n0\n".to_vec(), proof: [proof, b"\x45".to_vec()].concat() }
}

/// A pair of the comparison's checks, of moderate length; one in a thousand is at a limit.
fn pair(random: &mut Random) -> Pair {
    if random.below(1_000) == 0 {
        return limits(random);
    }
    let most = if random.percent(2) { 20_000 } else { 1_200 };
    loop {
        for command in check::commands(random) {
            let words: Vec<&str> = command.split(' ').collect();
            let ["check", _, _, _, formula, proof, ..] = words[..] else { continue };
            if formula.len() + proof.len() > most {
                continue;
            }
            if let (Some(formula), Some(proof)) = (clausal::bytes(formula), clausal::bytes(proof)) {
                return Pair { formula, proof };
            }
        }
    }
}

/// How long the record is that a byte opens, and whether it is a line.
fn record(kind: u8) -> Option<(usize, bool)> {
    Some(match kind {
        0x4E => (6, false),
        0x58 | 0x4B => (10, false),
        0x54 | 0x46 => (2, false),
        0x44 => (3, false),
        0x50..=0x52 => (3, true),
        _ => return None,
    })
}

/// A proof cut behind each of its lines; from the end on, or where there is no record, nothing is cut.
fn pieces(proof: &[u8]) -> Vec<Vec<u8>> {
    let (mut pieces, mut piece, mut at) = (Vec::new(), Vec::new(), 0);
    while at < proof.len() {
        let Some((length, line)) = record(proof[at]) else { break };
        let end = (at + length).min(proof.len());
        piece.extend(&proof[at..end]);
        at = end;
        if line {
            pieces.push(std::mem::take(&mut piece));
        }
    }
    piece.extend(&proof[at..]);
    pieces.push(piece);
    pieces
}

/// The calls of a pair, some of them with a fault that only calls can have.
fn calls(random: &mut Random, pair: &Pair) -> Vec<Vec<u8>> {
    let mut calls = vec![pair.formula.clone()];
    let pieces = pieces(&pair.proof);
    // A long proof comes to its end.
    let often = 60.max(20 * pieces.len());
    for mut piece in pieces {
        match random.below(often) {
            0 => piece.push(random.pick(&[0x45, 0x52, 0x4E, 0])),
            1 => piece.truncate(piece.len().saturating_sub(3)),
            2 => piece.clear(),
            3 => piece.truncate(random.below(piece.len() + 1)),
            4 => piece.extend(piece.clone()),
            _ => {}
        }
        calls.push(piece);
    }
    let more = random.below(3);
    calls.extend((0..more).map(|_| random.pick(&[&b"\x45"[..], b"", b"\x52\0\0", b"\x44\0\0", b"\xff"]).to_vec()));
    calls
}

/// A share: what the check alone needs, or about that, or any.
fn share(random: &mut Random, peak: usize) -> usize {
    let need = peak.saturating_sub(2).min(30_000);
    match random.below(10) {
        0..=2 => need,
        3..=4 => need.saturating_sub(1),
        5 => need.saturating_sub(random.between(1, 4)),
        6 => random.below(need + 1),
        _ => need + random.below(40),
    }
}

/// A session of two pairs, whose checks alone have such peaks in a large table.
pub fn session(random: &mut Random, pairs: &[Pair; 2], peaks: [usize; 2]) -> Session {
    let sides = [0, 1].map(|at| Side { share: share(random, peaks[at]), calls: calls(random, &pairs[at]) });
    let least = 2 + sides[0].share + sides[1].share;
    let size = if random.percent(1) { 65_536 } else { least + random.pick(&[0, 0, 1, 2, 7, 60]) };
    let turns = turns(random, &sides);
    let members = [0, 1].map(|_| 2048 + random.pick(&[0, 0, 0, 1, 700]));
    let scratch = 4096 + random.pick(&[0, 0, 0, 1, 900]);
    let refused = random.percent(15).then(|| (random.below(turns.len() + 1), refused(random, size)));
    Session { size, members, scratch, sides, turns, refused }
}

/// Both books' calls in any order.
fn turns(random: &mut Random, sides: &[Side; 2]) -> Vec<(usize, Vec<u8>)> {
    let mut order: Vec<usize> = (0..2).flat_map(|which| vec![which; sides[which].calls.len()]).collect();
    if random.percent(80) {
        random.shuffle(&mut order);
    }
    let mut next = sides.each_ref().map(|side| side.calls.iter());
    order.into_iter().map(|which| (which, next[which].next().cloned().unwrap_or_default())).collect()
}

/// An opening with one list of wrong size, or with shares that do not fit.
fn refused(random: &mut Random, size: usize) -> String {
    let left = random.below(size);
    let most = u64::MAX;
    random
        .pick(
            &[
                "open 0 2048 2048 4096 0 0".to_string(),
                "open 1 2048 2048 4096 0 0".to_string(),
                "open 65537 2048 2048 4096 1 1".to_string(),
                format!("open {size} 2047 2048 4096 0 0"),
                format!("open {size} 2048 2047 4096 0 0"),
                format!("open {size} 2048 2048 4095 0 0"),
                format!("open {size} 0 0 0 {size} {size}"),
                format!("open {size} 2048 2048 4096 {left} {}", size - left - 1),
                format!("open {size} 2048 2048 4096 {left} {}", size - left),
                format!("open {size} 2048 2048 4096 {} 0", size - 1),
                format!("open {size} 2048 2048 4096 0 {}", size - 1),
                format!("open {size} 2048 2048 4096 {most} 0"),
                format!("open {size} 2048 2048 4096 0 {most}"),
                format!("open {size} 2048 2048 4096 {most} {most}"),
                format!("open {size} 2048 2048 4096 {} {size}", most - size as u64 + 1),
                format!("open {size} 2048 2048 4096 {} 1", most - 2),
            ]
            .each_ref()
            .map(String::as_str),
        )
        .to_string()
}

impl Session {
    pub fn opening(&self) -> String {
        let [first, second] = self.members;
        let shares = self.sides.each_ref().map(|side| side.share);
        format!("open {} {first} {second} {} {} {}", self.size, self.scratch, shares[0], shares[1])
    }
}

/// The command of a book's call.
pub fn call(which: usize, bytes: &[u8]) -> String {
    format!("book {} {}", name(which), hex(bytes))
}

pub fn name(which: usize) -> &'static str {
    ["A", "B"][which]
}
