//! What a worker writes to the pool: messages of one length, shorter than PIPE_BUF, so that a pipe keeps each of them whole.

use crate::check::{Answer, Place};
use crate::files::Source;
use crate::sha256::Digest;
use crate::twice::{Line, Second};

#[derive(Clone, Copy, Debug, PartialEq, Eq)]
pub enum Message {
    /// What came of the pair that the worker was at, and the next one, which it begins; at the start and at the end one of the two.
    Turn { worker: u32, answered: Option<(u32, Answer)>, begun: Option<u32> },
    /// The pool's own, after the worker has ended: everything that the worker wrote is read.
    Drained { worker: u32 },
}

/// Words of eight bytes, then the two digests.
const WORDS: usize = 20;
/// The second method's answers, but for a line of its own.
const SECONDS: [Second; 6] =
    [Second::NotAsked, Second::Agrees, Second::NoTable, Second::OverSix, Second::NoRecords, Second::NoAnswer];
/// What a message has, as bits of its first word.
const ANSWERED: u64 = 1;
const BEGUN: u64 = 2;
const DRAINED: u64 = 4;

/// The second method's answer in words: its number here, or its line's number beyond them; place, lines and rounds.
fn second(second: Second) -> [u64; 4] {
    match second {
        Second::Differs(Line { number, place, lines, rounds }) => {
            [SECONDS.len() as u64 + u64::from(number), place, lines, rounds]
        }
        _ => [SECONDS.iter().position(|&one| one == second).unwrap_or(0) as u64, 0, 0, 0],
    }
}

fn second_of([kind, place, lines, rounds]: [u64; 4]) -> Second {
    let differs = || Line { number: (kind - SECONDS.len() as u64) as u8, place, lines, rounds };
    SECONDS.get(kind as usize).copied().unwrap_or_else(|| Second::Differs(differs()))
}

impl Message {
    pub const BYTES: usize = 8 * WORDS + 64;

    pub fn worker(&self) -> u32 {
        let (Message::Turn { worker, .. } | Message::Drained { worker }) = self;
        *worker
    }

    fn words(&self) -> [u64; WORDS] {
        let mut words = [0; WORDS];
        words[1] = self.worker().into();
        let Message::Turn { answered, begun, .. } = *self else {
            words[0] = DRAINED;
            return words;
        };
        if let Some(pair) = begun {
            words[0] |= BEGUN;
            words[2] = pair.into();
        }
        if let Some((pair, a)) = answered {
            words[0] |= ANSWERED;
            words[3] = pair.into();
            let line = [a.number.into(), a.file as u64, a.place, a.lines, a.rounds, a.peak, a.nanoseconds];
            words[4..11].copy_from_slice(&line);
            words[11] = a.known.into();
            for (two, source) in words[12..16].chunks_exact_mut(2).zip([a.formula, a.proof]) {
                two.copy_from_slice(&[source.digest.is_some().into(), source.bytes]);
            }
            words[16..].copy_from_slice(&second(a.second));
        }
        words
    }

    pub fn packed(&self) -> [u8; Message::BYTES] {
        let mut out = [0; Message::BYTES];
        for (eight, word) in out.chunks_exact_mut(8).zip(self.words()) {
            eight.copy_from_slice(&word.to_le_bytes());
        }
        if let Message::Turn { answered: Some((_, answer)), .. } = self {
            let digests = out[8 * WORDS..].chunks_exact_mut(32);
            for (digest, source) in digests.zip([answer.formula, answer.proof]) {
                digest.copy_from_slice(&source.digest.unwrap_or_default());
            }
        }
        out
    }

    pub fn unpacked(bytes: &[u8; Message::BYTES]) -> Message {
        let word = |at: usize| u64::from_le_bytes(bytes[8 * at..8 * at + 8].try_into().expect("eight bytes"));
        let worker = word(1) as u32;
        if word(0) & DRAINED != 0 {
            return Message::Drained { worker };
        }
        let source = |number: usize| {
            let from = 8 * WORDS + 32 * number;
            let digest = Digest::try_from(&bytes[from..from + 32]).expect("32 bytes");
            Source { digest: (word(12 + 2 * number) != 0).then_some(digest), bytes: word(13 + 2 * number) }
        };
        let answer = || {
            let file = [Place::Nowhere, Place::Formula, Place::Proof][word(5) as usize % 3];
            let (number, place, lines, rounds, peak) = (word(4) as u8, word(6), word(7), word(8), word(9));
            let (nanoseconds, known, formula, proof) = (word(10), word(11) != 0, source(0), source(1));
            let second = second_of([word(16), word(17), word(18), word(19)]);
            Answer { number, file, place, lines, rounds, peak, nanoseconds, second, formula, proof, known }
        };
        let answered = (word(0) & ANSWERED != 0).then(|| (word(3) as u32, answer()));
        let begun = (word(0) & BEGUN != 0).then(|| word(2) as u32);
        Message::Turn { worker, answered, begun }
    }
}

#[cfg(test)]
mod tests {
    use super::*;

    #[test]
    fn there_and_back() {
        let formula = Source { digest: Some([7; 32]), bytes: 65_536 };
        let proof = Source { digest: None, bytes: 3 };
        let answer = Answer {
            number: 19,
            file: Place::Proof,
            place: 1,
            lines: 2,
            rounds: 1 << 40,
            peak: 4,
            nanoseconds: 5,
            second: Second::NotAsked,
            formula,
            proof,
            known: true,
        };
        let messages = [
            Message::Turn { worker: 1, answered: None, begun: Some(u32::MAX) },
            Message::Turn { worker: 2, answered: Some((3, answer)), begun: Some(0) },
            Message::Turn { worker: 3, answered: Some((3, Answer { formula: proof, ..answer })), begun: None },
            Message::Drained { worker: 4 },
        ];
        for message in messages {
            assert_eq!(Message::unpacked(&message.packed()), message);
        }
        let lines = [0, 19, 255].map(|number| Second::Differs(Line { number, place: 1, lines: 2, rounds: 1 << 40 }));
        for second in SECONDS.into_iter().chain(lines) {
            let message = Message::Turn { worker: 1, answered: Some((0, Answer { second, ..answer })), begun: Some(9) };
            assert_eq!(Message::unpacked(&message.packed()), message);
        }
        // POSIX promises that a pipe keeps writes of at most 512 bytes whole.
        const { assert!(Message::BYTES <= 512) };
    }
}
