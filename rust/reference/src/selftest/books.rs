//! Two books on one table, held against the check of each book alone, call by call; the shared table is held
//! against one that is searched from end to end.

use super::model::*;
use super::records::Given;
use super::*;

#[derive(Clone, Copy, PartialEq)]
enum Kind {
    /// A line, or the end.
    Whole,
    /// With a byte after its line.
    Surplus,
    /// Without its line.
    Nothing,
}

struct Call {
    kind: Kind,
    steps: Vec<Step>,
}

impl Call {
    fn closes(step: &Step) -> bool {
        matches!(step, Step::Line(..) | Step::End)
    }

    /// The records before the line or the end.
    fn before(&self) -> &[Step] {
        &self.steps[..self.steps.len() - 1]
    }

    fn bytes(&self) -> Vec<u8> {
        let all = |steps: &[Step]| steps.iter().flat_map(|&step| bytes(step)).collect::<Vec<u8>>();
        match self.kind {
            Kind::Whole => all(&self.steps),
            Kind::Surplus => [all(&self.steps), vec![0x45]].concat(),
            Kind::Nothing => all(self.before()),
        }
    }
}

/// Each line and the end with the records before it.
fn calls(random: &mut Random, steps: &[Step]) -> Vec<Call> {
    let pieces = steps.split_inclusive(Call::closes);
    let kind = |random: &mut Random| match random.below(30) {
        0 => Kind::Surplus,
        1 => Kind::Nothing,
        _ => Kind::Whole,
    };
    pieces.map(|steps| Call { kind: kind(random), steps: steps.to_vec() }).collect()
}

struct Side {
    name: char,
    share: usize,
    given: Given,
    calls: Vec<Call>,
    made: usize,
    /// The bytes of the lines accepted so far.
    proof: Vec<u8>,
    /// From the formula on.
    model: Option<Model>,
    last: Option<String>,
}

impl Side {
    fn new(random: &mut Random, name: char) -> Side {
        let given = Given::random(random);
        let share = if random.one_in(3) { random.below(20) as usize } else { 20 + random.below(60) as usize };
        let calls = calls(random, &given.steps);
        Side { name, share, given, calls, made: 0, proof: Vec::new(), model: None, last: None }
    }

    /// The next call, what it says, and what it keeps in the shared table.
    fn call(&mut self, random: &mut Random, session: &mut Session, shared: &mut Plain) {
        let bytes = match self.made.checked_sub(1) {
            None => self.given.text.clone().into_bytes(),
            Some(made) => self.calls.get(made).map_or(vec![random.below(256) as u8], Call::bytes),
        };
        let said = ask(session, &format!("book {} {}", self.name, hex(&bytes)));
        if let Some(last) = &self.last {
            assert_eq!(&said, last);
            return;
        }
        assert_eq!(said, self.wanted(&bytes), "{}", self.given.text);
        let accepted = said.starts_with("35 ");
        self.keep(accepted, &bytes, shared);
        self.last = (!accepted).then_some(said);
        self.made += 1;
    }

    /// The check alone with more bytes than the accepted ones: its numbers.
    fn alone(&self, more: &[u8]) -> Vec<usize> {
        let (formula, proof) = (hex(self.given.text.as_bytes()), hex(&[&self.proof, more].concat()));
        let line = format!("check {} 2048 4096 {formula} {proof}", self.share + 2);
        let said = ask(&mut Session::new(), &line);
        said.split(' ').take(6).map(|word| word.parse().unwrap()).collect()
    }

    fn wanted(&self, bytes: &[u8]) -> String {
        let before: Vec<u8> = match self.made.checked_sub(1) {
            None => Vec::new(),
            Some(made) => match self.calls[made].kind {
                Kind::Whole => bytes.to_vec(),
                _ => self.calls[made].before().iter().flat_map(|&step| super::model::bytes(step)).collect(),
            },
        };
        let alone = self.alone(&before);
        // The check finds no end record: all was accepted.
        let went_on = alone[0] == 10 && alone[1] == self.proof.len() + before.len();
        let kind = self.made.checked_sub(1).map_or(Kind::Whole, |made| self.calls[made].kind);
        let (number, place) = match kind {
            _ if !went_on && self.made == 0 => (alone[0], alone[1]),
            _ if !went_on => (alone[0], alone[1] - self.proof.len()),
            Kind::Whole => (35, bytes.len()),
            Kind::Surplus => (11, bytes.len() - 1),
            Kind::Nothing => (10, bytes.len()),
        };
        format!("{number} {place} {} {} {}", alone[2], alone[3], alone[5] - 2)
    }

    /// What stays of a call: the nodes of the clauses or of the entries, where it is accepted; marks always.
    fn keep(&mut self, accepted: bool, bytes: &[u8], shared: &mut Plain) {
        let Some(model) = &mut self.model else {
            self.model = opened(self.given.variables, self.share + 2, &self.given.clauses);
            let clauses = self.given.clauses.iter().filter(|_| accepted);
            clauses.for_each(|&f| assert!(shared.build(f).is_ok()));
            return;
        };
        let call = &self.calls[self.made - 1];
        let steps = if call.kind == Kind::Whole { &call.steps } else { call.before() };
        let mut entries = Vec::new();
        for &step in steps {
            if model.take(step).is_err() {
                break;
            }
            entries.extend(
                matches!(step, Step::Node(..) | Step::AtLeast(..) | Step::Parity(..)).then(|| model.last_entry()),
            );
        }
        if accepted {
            entries.iter().for_each(|&f| assert!(shared.build(f).is_ok()));
            self.proof.extend(bytes);
        }
    }

    fn shown(&self, shared: &Plain) -> String {
        let Some(model) = self.model.as_ref().filter(|model| !model.members.is_empty()) else {
            return "- | -".into();
        };
        let node = |&f: &Function| shared.clone().build(f).ok().unwrap().to_string();
        let marks: String = (0..model.members.len()).map(|at| if model.is_struck(at) { '1' } else { '0' }).collect();
        format!("{} | {marks}", model.members.iter().map(node).collect::<Vec<String>>().join(","))
    }
}

#[test]
fn each_book_says_what_it_says_alone() {
    let mut random = Random(0xB00C);
    let mut session = Session::new();
    let mut seen = [0u32; 36];
    for _ in 0..2_500 {
        let mut sides = [Side::new(&mut random, 'A'), Side::new(&mut random, 'B')];
        let size = 2 + sides[0].share + sides[1].share + random.below(3) as usize;
        let shares = format!("{} {}", sides[0].share, sides[1].share);
        let opened = ask(&mut session, &format!("open {size} 2048 2048 4096 {shares}"));
        assert_eq!(opened, "35 0 0 0 0");
        let mut shared = Plain::new(size);
        let calls = random.below(16);
        for _ in 0..calls {
            let side = &mut sides[random.below(2) as usize];
            side.call(&mut random, &mut session, &mut shared);
            let kept = format!("{} | {}", shared.nodes.len(), shared.text());
            let wanted = format!("{kept} | {} | {}", sides[0].shown(&shared), sides[1].shown(&shared));
            assert_eq!(ask(&mut session, "dump"), wanted);
        }
        for last in sides.iter().filter_map(|side| side.last.as_ref()) {
            seen[last.split(' ').next().unwrap().parse::<usize>().unwrap()] += 1;
        }
    }
    for number in [0, 8, 10, 11, 16, 18, 19, 20, 23, 28] {
        assert!(seen[number] > 5, "{number} seen {} times only", seen[number]);
    }
}
