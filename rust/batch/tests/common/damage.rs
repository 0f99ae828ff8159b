//! Pairs damaged at random: each is made from one of the pairs of a folder. One in sixteen is left whole; some are longer than a file
//! may be, empty, or lack the proof.

use batch::form::Form;
use batch::pairs::{Found, Pair};
use std::fs;
use std::io;
use std::path::{Path, PathBuf};

/// Numbers that the seed settles (xorshift).
struct Random(u64);

impl Random {
    fn below(&mut self, end: usize) -> usize {
        self.0 ^= self.0 << 13;
        self.0 ^= self.0 >> 7;
        self.0 ^= self.0 << 17;
        (self.0 >> 11) as usize % end.max(1)
    }

    fn byte(&mut self, bytes: &[u8]) -> u8 {
        match self.below(3) {
            0 => self.below(256) as u8,
            1 => b"0123456789- \n\tcdp"[self.below(17)],
            _ => bytes.get(self.below(bytes.len())).copied().unwrap_or(0),
        }
    }

    fn range(&mut self, bytes: &[u8]) -> std::ops::Range<usize> {
        let from = self.below(bytes.len() + 1);
        from..(from + self.below(24)).min(bytes.len())
    }
}

/// One change: a bit, a byte, a piece that goes, comes twice or moves, the end.
fn change(bytes: &mut Vec<u8>, random: &mut Random) {
    let (at, byte) = (random.below(bytes.len()), random.byte(bytes));
    match random.below(8) {
        0 | 1 if !bytes.is_empty() => bytes[at] ^= 1 << random.below(8),
        2 | 3 if !bytes.is_empty() => bytes[at] = byte,
        4 => bytes.insert(at, byte),
        5 => drop(bytes.drain(random.range(bytes))),
        6 => {
            let piece = bytes[random.range(bytes)].to_vec();
            let at = random.below(bytes.len() + 1);
            bytes.splice(at..at, piece);
        }
        _ => bytes.truncate(at),
    }
}

fn damaged(bytes: &mut Vec<u8>, random: &mut Random) {
    match random.below(100) {
        0 => bytes.clear(),
        1 => bytes.resize(65_536 + random.below(2), b'\n'),
        _ => (0..1 + random.below(3)).for_each(|_| change(bytes, random)),
    }
}

fn write(to: &Path, at: usize, pair: &Pair, random: &mut Random) -> io::Result<()> {
    let read = |path: &Option<PathBuf>| fs::read(path.as_deref().unwrap_or(Path::new("")));
    let (mut formula, mut proof) = (read(&pair.formula)?, read(&pair.proof)?);
    match random.below(16) {
        0 => {}
        1..6 => damaged(&mut formula, random),
        _ => damaged(&mut proof, random),
    }
    let ending = match pair.form {
        Form::Records => "proof",
        Form::Text => "drat",
        Form::Binary => "bdrat",
    };
    fs::write(to.join(format!("{at:06}.cnf")), formula)?;
    match random.below(200) {
        0 => Ok(()),
        _ => fs::write(to.join(format!("{at:06}.{ending}")), proof),
    }
}

/// Writes so many pairs to a new folder. The seed settles them.
pub fn damage(from: &Path, to: &Path, count: usize, seed: u64) -> io::Result<()> {
    let mut found = Found::default();
    found.look(from);
    found.pairs.retain(|pair| pair.formula.is_some() && pair.proof.is_some());
    let mut random = Random(seed.wrapping_mul(0x9e37_79b9_7f4a_7c15) | 1);
    fs::create_dir(to)?;
    for at in 0..count {
        let pair = &found.pairs[random.below(found.pairs.len())];
        write(to, at, pair, &mut random)?;
    }
    Ok(())
}
