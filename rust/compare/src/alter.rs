//! Calls of a book that are lent something else than the last call left: what they answer.

use crate::kept::{Node, Said, State, ROUNDS};
use crate::random::Random;

/// A change to what is lent.
#[derive(Clone)]
enum Change {
    /// A kept number.
    Kept(&'static str, u64),
    /// A place of one of the book's lists.
    Own(usize, u16),
    Member(usize, u16),
    Mark(usize, u8),
    /// A node more in the table, in good order.
    Node(Node),
    /// Anything after which the table, or its index, is not in good order.
    Disorder(String),
    /// A list of wrong size.
    Size(String),
    /// A longer list of proper size, and what does not count.
    Nothing(String),
}

/// What an altered call answers where it is refused with neither 7 nor 26.
enum Answers {
    /// What the call answers that is lent nothing else.
    Same,
    /// The same, and it leaves the same table, members and marks.
    Alike,
    Exactly(Said),
    /// These, and any peak.
    But([u64; 4]),
    /// Any number but 7 and 26.
    Any,
}

/// An altered call: the words behind its bytes, what it is about, and what it answers.
pub struct Altered {
    pub words: String,
    pub kind: &'static str,
    wrong_size: bool,
    unfit: bool,
    answers: Answers,
}

/// The call that is altered: the state before it, the book, its bytes, its answer, and the dump after it.
pub struct Call<'a> {
    pub state: &'a State,
    pub which: usize,
    pub bytes: &'a [u8],
    pub said: Said,
    pub dump: &'a str,
}

impl Altered {
    /// What is wrong with the answer, if anything.
    pub fn judge(&self, call: &Call, answer: &str) -> Result<u64, &'static str> {
        let said = crate::kept::said(answer).ok_or("no answer")?;
        if self.wrong_size || self.unfit {
            let number = if self.wrong_size { 7 } else { 26 };
            return if said == [number, 0, 0, 0, 0] { Ok(number) } else { Err("7 or 26 is not given") };
        }
        let dump = answer.split_once(" | ").map_or("", |parts| parts.1);
        let right = match self.answers {
            Answers::Same => said == call.said,
            Answers::Alike => said == call.said && dump.starts_with(&format!("{} | ", call.dump)),
            Answers::Exactly(wanted) => said == wanted,
            Answers::But(wanted) => said[..4] == wanted,
            Answers::Any => !matches!(said[0], 7 | 26),
        };
        if right {
            Ok(said[0])
        } else {
            Err("the altered call answers something else")
        }
    }
}

impl Altered {
    /// What is wanted, in words.
    pub fn wanted(&self, call: &Call) -> String {
        let [number, place, lines, rounds, peak] = call.said;
        let same = format!("{number} {place} {lines} {rounds} {peak}");
        match &self.answers {
            _ if self.wrong_size => "7 0 0 0 0".into(),
            _ if self.unfit => "26 0 0 0 0".into(),
            Answers::Same => same,
            Answers::Alike => format!("{same} | {} | ..", call.dump),
            Answers::Exactly(wanted) => format!("{wanted:?}"),
            Answers::But(wanted) => format!("{wanted:?} and a peak"),
            Answers::Any => "neither 7 nor 26".into(),
        }
    }
}

fn word(change: &Change) -> String {
    match change {
        Change::Kept(name, value) => format!("!{name}={value}"),
        Change::Own(place, value) => format!("!own:{place}={value}"),
        Change::Member(place, value) => format!("!members:{place}={value}"),
        Change::Mark(place, value) => format!("!struck:{place}={value}"),
        Change::Node((variable, low, high)) => format!("!node={variable},{low},{high}"),
        Change::Disorder(words) | Change::Size(words) | Change::Nothing(words) => words.clone(),
    }
}

fn put<T: Copy + Default>(list: &mut Vec<T>, place: usize, value: T) {
    if list.len() <= place {
        list.resize(place + 1, T::default());
    }
    list[place] = value;
}

fn apply(change: &Change, state: &mut State, which: usize) {
    let book = &mut state.books[which];
    match *change {
        Change::Own(place, value) => put(&mut book.own, place, value),
        Change::Member(place, value) => put(&mut book.members, place, value),
        Change::Mark(place, value) => put(&mut book.marks, place, value),
        Change::Node(node) => state.nodes.push(node),
        Change::Kept(name, value) => match name {
            "share" => book.share = value,
            "stage" => book.stage = value,
            "variables" => book.variables = value,
            "clauses" => book.clauses = value,
            "lines" => book.lines = value,
            "rounds" => book.rounds = value,
            "charge" => book.charge = value,
            "peak" => book.peak = value,
            _ => {}
        },
        Change::Disorder(_) | Change::Size(_) | Change::Nothing(_) => {}
    }
}

/// Some altered calls.
pub fn draw(random: &mut Random, call: &Call, many: usize) -> Vec<Altered> {
    (0..many)
        .map(|_| {
            let (kind, changes, answers) = one(random, call);
            let mut state = call.state.clone();
            changes.iter().for_each(|change| apply(change, &mut state, call.which));
            let wrong_size = changes.iter().any(|change| matches!(change, Change::Size(_)));
            let disorder = changes.iter().any(|change| matches!(change, Change::Disorder(_)));
            let words = changes.iter().map(word).collect::<Vec<_>>().join(" ");
            Altered { words, kind, wrong_size, unfit: disorder || state.unfit(call.which), answers }
        })
        .collect()
}

type Drawn = (&'static str, Vec<Change>, Answers);

fn one(random: &mut Random, call: &Call) -> Drawn {
    let (kind, mut changes, mut answers) = match random.below(16) {
        0 => variables(random, call),
        1 => clauses(random, call),
        2 => lines(random, call),
        3 => rounds(random, call),
        4 => charge(random, call),
        5 => peak(random, call),
        6 => share(random, call),
        7 => free_places(random, call),
        8 => member(random, call),
        9 => mark(random, call),
        10 => own(random, call),
        11 => disorder(random, call),
        12 => size(random, call),
        13 => stage(random, call),
        14 => refuted(random, call),
        _ => nothing(random, call),
    };
    // Two causes at once: 7 comes before 26.
    if !matches!(kind, "size" | "nothing") && random.percent(4) {
        changes.extend(size(random, call).1);
        answers = Answers::Any;
    }
    (kind, changes, answers)
}

/// By the stage of the book: before the formula, while lines are awaited, bound.
fn by_stage(call: &Call, formula: Answers, lines: Answers, bound: Answers) -> Answers {
    match call.state.books[call.which].stage {
        0 => formula,
        1 => lines,
        _ => bound,
    }
}

fn variables(random: &mut Random, call: &Call) -> Drawn {
    let value = random.pick(&[64, 64, 65, 66, 255]);
    let lines = if call.said[0] == 12 { Answers::Any } else { Answers::Alike };
    let answers = by_stage(call, Answers::Alike, lines, Answers::Alike);
    ("variables", vec![Change::Kept("variables", value)], answers)
}

fn clauses(random: &mut Random, call: &Call) -> Drawn {
    let value = random.pick(&[1024, 1024, 1025, 1026, u64::MAX]);
    ("clauses", vec![Change::Kept("clauses", value)], by_stage(call, Answers::Alike, Answers::Any, Answers::Same))
}

/// With 1,024 lines the next one is 22, where it would be accepted.
fn lines(random: &mut Random, call: &Call) -> Drawn {
    let value = random.pick(&[1024, 1024, 1025, 1026, u64::MAX]);
    let [number, place, _, rounds, peak] = call.said;
    let kept = call.state.books[call.which].rounds;
    let accepted = match number {
        35 => Answers::But([22, place.saturating_sub(3), 1024, kept]),
        _ => Answers::Any,
    };
    let bound = Answers::Exactly([number, place, 1024, rounds, peak]);
    ("lines", vec![Change::Kept("lines", value)], by_stage(call, Answers::Alike, accepted, bound))
}

fn rounds(random: &mut Random, call: &Call) -> Drawn {
    let value = random.pick(&[ROUNDS, ROUNDS, ROUNDS - 1, ROUNDS + 1, u64::MAX]);
    let [number, place, lines, rounds, peak] = call.said;
    let own = rounds - call.state.books[call.which].rounds.min(rounds);
    let more = Answers::Exactly([number, place, lines, value.saturating_add(own), peak]);
    let bound = Answers::Exactly([number, place, lines, value, peak]);
    ("rounds", vec![Change::Kept("rounds", value)], by_stage(call, Answers::Alike, more, bound))
}

/// Places beyond the own nodes are zero and stand for the constant 0.
fn charge(random: &mut Random, call: &Call) -> Drawn {
    let share = call.state.books[call.which].share;
    let kept = call.state.books[call.which].charge;
    let value = random.pick(&[share, share, share + 1, share + 2, u64::MAX, kept / 2]);
    let answers = if value < kept { Answers::Any } else { Answers::Alike };
    ("charge", vec![Change::Kept("charge", value)], answers)
}

fn peak(random: &mut Random, call: &Call) -> Drawn {
    let share = call.state.books[call.which].share;
    let value = random.pick(&[share, share, share + 1, share + 2, u64::MAX]);
    let [number, place, lines, rounds, peak] = call.said;
    let most = || Answers::Exactly([number, place, lines, rounds, value.max(peak)]);
    ("peak", vec![Change::Kept("peak", value)], by_stage(call, Answers::Alike, most(), most()))
}

/// As small as charge and peak let it, and as large as the free places.
fn share(random: &mut Random, call: &Call) -> Drawn {
    let book = &call.state.books[call.which];
    let least = book.charge.max(book.peak);
    let most = call.state.charge(call.which) + call.state.free();
    let value = match random.below(7) {
        0 => least,
        1 => least.saturating_sub(1),
        2 | 3 => most,
        4 => most + 1,
        5 => most + 2,
        _ => random.pick(&[u64::MAX, u64::MAX - 1, u64::MAX - 2, call.state.size as u64, call.state.size as u64 - 1]),
    };
    // With a larger share nothing is refused for room that was not, and a book that is bound repeats its answer.
    let roomy = value >= book.share && !matches!(call.said[0], 8 | 23);
    let grown = || if roomy { Answers::Same } else { Answers::Any };
    ("share", vec![Change::Kept("share", value)], by_stage(call, grown(), grown(), Answers::Same))
}

/// Nodes of the other book, or of nobody, until there are just as many free places as the book may need, or one less.
fn free_places(random: &mut Random, call: &Call) -> Drawn {
    let book = &call.state.books[call.which];
    let spare = (call.state.free() + call.state.charge(call.which)).saturating_sub(book.share) as usize;
    let wanted = spare + random.below(3);
    let literals = (1..=64).rev().flat_map(|variable| [(variable, 0, 1), (variable, 1, 0)]);
    let fresh = literals.filter(|node| !call.state.nodes.contains(node));
    let room = call.state.free() as usize;
    let changes: Vec<Change> = fresh.take(wanted.min(room)).map(Change::Node).collect();
    ("free places", changes, Answers::Same)
}

/// One of the members, or the first place behind them, which is not looked at.
fn member(random: &mut Random, call: &Call) -> Drawn {
    let book = &call.state.books[call.which];
    let (count, many) = (call.state.count(), book.members.len());
    let value = random.pick(&[count, count, count - 1, count + 1, 0, 1, 65_535]).min(65_535) as u16;
    if many == 0 || random.percent(25) {
        return ("member", vec![Change::Member(many, value)], Answers::Alike);
    }
    let answers = by_stage(call, Answers::Alike, Answers::Any, Answers::Same);
    ("member", vec![Change::Member(random.below(many), value)], answers)
}

fn mark(random: &mut Random, call: &Call) -> Drawn {
    let many = call.state.books[call.which].members.len();
    let value = random.pick(&[1, 1, 2, 3, 255]);
    if many == 0 || random.percent(25) {
        return ("mark", vec![Change::Mark(many, value)], Answers::Alike);
    }
    let answers = by_stage(call, Answers::Alike, Answers::Any, Answers::Same);
    ("mark", vec![Change::Mark(random.below(many), value)], answers)
}

/// A number that is none, in the own nodes or behind them; or the own nodes in another order, which changes no answer.
fn own(random: &mut Random, call: &Call) -> Drawn {
    let own = &call.state.books[call.which].own;
    if own.is_empty() || random.percent(25) {
        return ("own", vec![Change::Own(own.len(), random.pick(&[2, 65_535]))], Answers::Alike);
    }
    if random.percent(50) {
        let mut order = own.clone();
        random.shuffle(&mut order);
        let changes = order.iter().enumerate().map(|(place, number)| Change::Own(place, *number)).collect();
        return ("own", changes, Answers::Alike);
    }
    let answers = by_stage(call, Answers::Alike, Answers::Any, Answers::Same);
    ("own", vec![Change::Own(random.below(own.len()), random.pick(&[0, 1, 2, 65_535]))], answers)
}

/// A table or an index that is not in good order.
fn disorder(random: &mut Random, call: &Call) -> Drawn {
    let State { size, nodes, .. } = call.state;
    let count = call.state.count();
    let mut words = vec![
        format!("!count={}", count + 1),
        "!count=1".into(),
        "!count=0".into(),
        format!("!count={}", size + 1),
        format!("!count={}", u64::MAX),
        "!vars:0=1".into(),
        "!lows:1=1".into(),
        "!highs:0=65535".into(),
        "!links:0=1".into(),
        format!("!heads:{}=1", random.below(2 * size)),
        format!("!links:{}=65535", random.below(*size)),
    ];
    if count < *size {
        let place = random.between(count, size - 1);
        words.extend([format!("!vars:{place}=1"), format!("!lows:{place}=1"), format!("!highs:{place}=1")]);
    }
    if let Some(last) = nodes.last() {
        let place = random.between(2, count - 1);
        let (_, low, _) = nodes[place - 2];
        words.extend([
            format!("!count={}", count - 1),
            "!count=2".into(),
            format!("!vars:{place}=0"),
            format!("!vars:{place}=65"),
            format!("!lows:{place}={place}"),
            format!("!highs:{place}={low}"),
            format!("!highs:{place}={count}"),
        ]);
        if count < *size {
            words.push(format!("!node={},{},{}", last.0, last.1, last.2));
        }
    }
    let at = random.below(words.len());
    ("disorder", vec![Change::Disorder(words.swap_remove(at))], Answers::Any)
}

/// A list that is too short or too long, or not as long as another.
fn size(random: &mut Random, call: &Call) -> Drawn {
    let size = call.state.size;
    let other = random.pick(&[size - 1, size + 1, 0, 2 * size]);
    let heads = random.pick(&[2 * size - 1, 2 * size + 1, 0, size]);
    let words = match random.below(11) {
        0 => format!("!vars={other}"),
        1 => format!("!lows={other}"),
        2 => format!("!highs={other}"),
        3 => format!("!heads={heads}"),
        4 => format!("!links={other}"),
        5 | 6 => format!("!own={other}"),
        7 => "!members=2047 !struck=2047".into(),
        8 => format!("!struck={}", random.pick(&[0, 2047, 5000])),
        9 => format!("!members={}", random.pick(&[0, 2047, 5000])),
        _ => format!("!scratch={}", random.pick(&[0, 4095])),
    };
    ("size", vec![Change::Size(words)], Answers::Any)
}

/// Another stage: what is bound repeats what is kept, whatever byte says so.
fn stage(random: &mut Random, call: &Call) -> Drawn {
    let book = &call.state.books[call.which];
    let (number, place) = (random.pick(&[0, 8, 19, 35, 255]), random.pick(&[0, 9, u64::MAX]));
    let stage = random.pick(&[0, 1, 2, 2, 3, 255]);
    let changes = [("stage", stage), ("number", number), ("place", place)];
    let answers = match stage {
        0 | 1 if book.stage == stage => Answers::Alike,
        0 | 1 => Answers::Any,
        _ => Answers::Exactly([number, place, book.lines, book.rounds, book.peak]),
    };
    ("stage", changes.map(|(name, value)| Change::Kept(name, value)).to_vec(), answers)
}

/// Whether a 0 line was accepted decides between 0 and 20 alone.
fn refuted(random: &mut Random, call: &Call) -> Drawn {
    let value = random.pick(&[0, 1, 2, 255]);
    let [number, place, lines, rounds, peak] = call.said;
    let said = match (number, value) {
        (0, 0) => 20,
        (20, 1..) => 0,
        _ => number,
    };
    let changed = Answers::Exactly([said, place, lines, rounds, peak]);
    ("refuted", vec![Change::Kept("refuted", value)], by_stage(call, Answers::Alike, changed, Answers::Alike))
}

/// Longer lists, and what the scratch list holds, do not count.
fn nothing(random: &mut Random, _: &Call) -> Drawn {
    let words = random.pick(&["!members=5000 !struck=5000", "!scratch=9000", "!scratch:0=1", "!scratch:4095=65535"]);
    ("nothing", vec![Change::Nothing(words.into())], Answers::Alike)
}
