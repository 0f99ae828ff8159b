//! The record at a place of a proof, and the diagram that it is about.

use proof::{Diagram, Diagrams, Reader, Record};
use std::collections::BTreeMap;

pub struct Found {
    /// The line of the proof that the record belongs to, counted from 1.
    pub line: usize,
    pub bytes: Vec<u8>,
    pub record: Option<Record>,
    pub diagrams: Diagrams,
    pub diagram: Option<Diagram>,
    pub witness: Vec<i64>,
}

/// The open line: its diagrams, its entries (none where one cannot be made), and its witness.
struct Open {
    diagrams: Diagrams,
    entries: Vec<Option<Diagram>>,
    witness: Vec<i64>,
}

impl Default for Open {
    fn default() -> Open {
        Open { diagrams: Diagrams::default(), entries: vec![Some(0), Some(1)], witness: Vec::new() }
    }
}

impl Open {
    fn entry(&self, number: u16) -> Option<Diagram> {
        self.entries.get(usize::from(number)).copied().flatten()
    }

    /// The diagram that the record makes, or the line's that it closes.
    fn diagram(&mut self, record: Record) -> Option<Diagram> {
        match record {
            Record::Node { variable, low, high } => {
                let (low, high) = (self.entry(low)?, self.entry(high)?);
                let before = self.diagrams.variable(low).min(self.diagrams.variable(high));
                (0 < variable && variable < before).then(|| self.diagrams.node(variable, low, high))
            }
            Record::Parity { set, byte } => Some(self.counted(set, |ones| ones % 2 == usize::from(byte))),
            Record::AtLeast { set, least } => Some(self.counted(set, |ones| ones >= usize::from(least))),
            _ => self.entry(root(record)?),
        }
    }

    fn counted(&mut self, set: u64, holds: impl Fn(usize) -> bool) -> Diagram {
        let variables: Vec<u8> = (1..=64).filter(|variable| set >> (variable - 1) & 1 == 1).collect();
        let values: Vec<bool> = (0..=variables.len()).map(holds).collect();
        self.diagrams.counted(&variables, &values)
    }
}

/// The root entry of a record that closes a line.
fn root(record: Record) -> Option<u16> {
    match record {
        Record::Rup { root } | Record::Pr { root } | Record::Path { root } => Some(root),
        _ => None,
    }
}

/// A clause's diagram; none where a variable is not one of 1 to 64. A clause with both signs of a variable is always true.
pub fn clause(literals: &[i64]) -> Option<(Diagrams, Diagram)> {
    let mut diagrams = Diagrams::default();
    let mut signs: BTreeMap<u8, bool> = BTreeMap::new();
    for &literal in literals {
        let variable = u8::try_from(literal.unsigned_abs()).ok().filter(|variable| (1..=64).contains(variable))?;
        if signs.insert(variable, literal > 0).is_some_and(|sign| sign != (literal > 0)) {
            return Some((diagrams, 1));
        }
    }
    let above = |f, (&variable, &sign): (&u8, &bool)| {
        if sign {
            diagrams.node(variable, f, 1)
        } else {
            diagrams.node(variable, 1, f)
        }
    };
    let f = signs.iter().rev().fold(0, above);
    Some((diagrams, f))
}

/// What the record is, in words.
pub fn kind(record: Option<Record>) -> &'static str {
    match record {
        Some(Record::Rup { .. }) => "a claim that is to follow from the rules (RUP line)",
        Some(Record::Path { .. }) => "a claim that is to follow from the rules, path by path (path line)",
        Some(Record::Pr { .. }) => "a claim that may be assumed without loss (PR line)",
        Some(Record::Node { .. } | Record::Parity { .. } | Record::AtLeast { .. }) => "a part of a claim",
        Some(Record::Witness { .. }) => "a part of a claim's witness",
        Some(Record::Strike { .. }) => "the striking of an earlier claim or rule",
        Some(Record::End) => "the proof's end",
        None => "no record of any kind",
    }
}

/// Reads the records up to the place and makes the open line's diagrams on the way. None where no record starts there.
pub fn find(proof: &[u8], place: usize) -> Option<Found> {
    let mut reader = Reader::new(proof);
    let (mut line, mut open) = (1, Open::default());
    loop {
        let (at, rest) = (reader.place(), reader.rest());
        let record = reader.take().ok();
        let diagram = record.and_then(|record| open.diagram(record));
        if at >= place || record.is_none() {
            let length = (reader.place() - at).max(usize::from(!rest.is_empty()));
            let Open { diagrams, witness, .. } = open;
            let found = Found { line, bytes: rest[..length].to_vec(), record, diagrams, diagram, witness };
            return (at == place).then_some(found);
        }
        match record? {
            Record::Node { .. } | Record::Parity { .. } | Record::AtLeast { .. } => open.entries.push(diagram),
            Record::Witness { variable, value } => {
                open.witness.push(if value { 1 } else { -1 } * i64::from(variable));
            }
            closing if root(closing).is_some() => (line, open) = (line + 1, Open::default()),
            _ => {}
        }
    }
}

#[cfg(test)]
mod tests {
    use super::*;

    #[test]
    fn the_record_at_a_place() {
        let proof = b"\x4E\x02\0\0\x01\0\x52\x02\0\x4E\x01\0\0\x01\0\x54\x01\x50\x02\0\x45";
        let found = find(proof, 17).unwrap();
        assert_eq!((found.line, found.witness, found.bytes), (2, vec![1], vec![0x50, 2, 0]));
        assert_eq!(found.diagram.map(|f| found.diagrams.row(f)), Some((1, 0, 1)));
        assert_eq!(find(proof, 20).unwrap().record, Some(Record::End));
        assert!(find(proof, 1).is_none());
        let (diagrams, f) = clause(&[3, -1, 3]).unwrap();
        let (variable, low, high) = diagrams.row(f);
        assert_eq!((variable, low, diagrams.row(high)), (1, 1, (3, 0, 1)));
        assert_eq!(clause(&[]).map(|(_, f)| f), Some(0));
        assert_eq!(clause(&[2, -2]).map(|(_, f)| f), Some(1));
        assert!(clause(&[65]).is_none() && clause(&[i64::MIN]).is_none());
        // Bytes that are no record; entries and variables that are not there.
        assert_eq!(find(b"\x00", 0).map(|found| (found.record, found.bytes)), Some((None, vec![0])));
        assert_eq!(find(b"\x52\xff\xff", 0).map(|found| found.diagram), Some(None));
        assert_eq!(find(b"\x4E\0\0\0\x01\0", 0).map(|found| found.diagram), Some(None));
    }
}
