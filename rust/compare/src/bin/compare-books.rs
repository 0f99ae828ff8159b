//! `compare-books [SESSIONS] [SEED] [--left COMMAND] [--right COMMAND]`
//!
//! Plays SESSIONS random sessions of two books on one table with two filters: both have to give the same answers, and the same table, members
//! and marks after each call. Of the left one are compared besides: what is kept for each book and the numbers of its own nodes, with what
//! the right one's answers and its check of each book alone say; calls that are lent something else than the last call left (7, 26, or what
//! is still settled); and each book's answers with the other book silent, and with other calls of it. Shows the commands of the session where
//! one of these fails, and ends with status 1.

use compare::alter::{self, Altered, Call};
use compare::books::{self, Pair, Session, Side};
use compare::check::hex;
use compare::filter::Filter;
use compare::kept::{self, Said, State};
use compare::options::Options;
use compare::random::Random;
use std::collections::BTreeMap;
use std::process::exit;

/// How many sessions are asked for at once.
const BATCH: usize = 50;
/// How many altered calls there are for each call.
const ALTERED: usize = 3;

#[derive(Default)]
struct Tally {
    calls: BTreeMap<u64, usize>,
    openings: BTreeMap<u64, usize>,
    /// By what is altered: how often 7, 26 and anything else was given.
    altered: BTreeMap<&'static str, [usize; 3]>,
    silent: usize,
}

fn main() {
    let options = Options::given(200, "compare-books [SESSIONS]");
    let mut random = Random::new(options.seed);
    let [mut left, mut right] = options.filters.each_ref().map(|command| Filter::start(command));
    let mut tally = Tally::default();
    let mut played = 0;
    while played < options.count {
        let many = BATCH.min(options.count - played);
        let sessions = draw(&mut random, &mut right, many);
        let plays = play(&mut right, &sessions);
        for (session, play) in sessions.iter().zip(&plays) {
            compare(&mut random, &mut left, session, play, &mut tally);
        }
        apart(&mut random, &mut left, &sessions, &plays, &mut tally);
        played += many;
    }
    show(&tally);
    if ![left, right].into_iter().all(Filter::end) {
        println!("compare-books: a filter ended badly");
        exit(1);
    }
    println!("compare-books: {played} sessions from seed {}, no difference", options.seed);
}

fn show(tally: &Tally) {
    let text = |numbers: &BTreeMap<u64, usize>| {
        numbers.iter().map(|(number, times)| format!("{number}: {times}")).collect::<Vec<_>>().join(", ")
    };
    println!("openings: {}", text(&tally.openings));
    println!("calls: {}", text(&tally.calls));
    for (kind, [sevens, unfit, other]) in &tally.altered {
        println!("altered, {kind}: 7: {sevens}, 26: {unfit}, judged: {other}");
    }
    println!("the other book silent or with other calls: {} calls", tally.silent);
}

/// Stops at a difference.
fn fail(what: &str, commands: &[String], wanted: &str, answer: &str) -> ! {
    println!("compare-books: {what}\n{}\nwanted: {wanted}\nanswer: {answer}", commands.join("\n"));
    exit(1)
}

/// Sessions, with shares near to what the checks alone need.
fn draw(random: &mut Random, right: &mut Filter, many: usize) -> Vec<Session> {
    let pairs: Vec<[Pair; 2]> = (0..many).map(|_| books::pairs(random)).collect();
    let checks: Vec<String> = pairs
        .iter()
        .flatten()
        .map(|pair| format!("check 65536 2048 4096 {} {}", hex(&pair.formula), hex(&pair.proof)))
        .collect();
    let peak = |answer: &String| answer.split(' ').nth(5).and_then(|word| word.parse().ok()).unwrap_or(2);
    let peaks: Vec<usize> = right.ask(&checks).iter().map(peak).collect();
    let peaks = peaks.chunks(2).map(|both| [both[0], both[1]]);
    pairs.iter().zip(peaks).map(|(pairs, peaks)| books::session(random, pairs, peaks)).collect()
}

/// A session as the right filter plays it: the answer of each turn, the dump after it, the state before each turn and after the last.
struct Play {
    answers: Vec<Said>,
    dumps: Vec<String>,
    states: Vec<State>,
    /// What the opening that is refused is given.
    refused: Option<String>,
}

/// The commands that both filters are asked.
fn commands(session: &Session) -> Vec<String> {
    let mut commands = vec![session.opening()];
    for (turn, (which, bytes)) in session.turns.iter().enumerate() {
        commands.extend(refused_at(session, turn));
        commands.extend([books::call(*which, bytes), "dump".into()]);
    }
    commands
}

fn refused_at(session: &Session, turn: usize) -> Option<String> {
    session.refused.as_ref().filter(|refused| refused.0 == turn).map(|refused| refused.1.clone())
}

fn play(right: &mut Filter, sessions: &[Session]) -> Vec<Play> {
    let asked: Vec<String> = sessions.iter().flat_map(commands).collect();
    let mut answers = right.ask(&asked).into_iter();
    let mut plays = Vec::new();
    for session in sessions {
        let mut play = Play { answers: Vec::new(), dumps: Vec::new(), states: Vec::new(), refused: None };
        let opened = answers.next().unwrap_or_default();
        if opened != "35 0 0 0 0" {
            fail("the right filter opens no session", &commands(session), "35 0 0 0 0", &opened);
        }
        for turn in 0..session.turns.len() {
            if refused_at(session, turn).is_some() {
                play.refused = answers.next();
            }
            let answer = answers.next().unwrap_or_default();
            let Some(said) = kept::said(&answer) else {
                fail("the right filter gives no answer", &commands(session), "five numbers", &answer)
            };
            play.answers.push(said);
            play.dumps.push(answers.next().unwrap_or_default());
        }
        plays.push(play);
    }
    let alone = alone(right, sessions, &plays);
    for ((session, play), alone) in sessions.iter().zip(&mut plays).zip(alone) {
        play.states = states(session, play, &alone);
    }
    plays
}

/// Of each accepted turn the nodes of the book's check alone, with its share and two places, of the bytes accepted so far.
fn alone(right: &mut Filter, sessions: &[Session], plays: &[Play]) -> Vec<Vec<Option<String>>> {
    let mut asked = Vec::new();
    let mut wanted = Vec::new();
    for (session, play) in sessions.iter().zip(plays) {
        let (mut formulas, mut proofs) = ([None, None], [Vec::new(), Vec::new()]);
        let turns = session.turns.iter().zip(&play.answers);
        wanted.push(
            turns
                .map(|((which, bytes), said)| {
                    said[0] == 35 && {
                        let share = session.sides[*which].share;
                        match &formulas[*which] {
                            None => formulas[*which] = Some(hex(bytes)),
                            Some(_) => proofs[*which].extend(bytes),
                        }
                        let formula = formulas[*which].as_deref().unwrap_or("-");
                        asked.push(format!("check {} 2048 4096 {formula} {}", share + 2, hex(&proofs[*which])));
                        true
                    }
                })
                .collect::<Vec<bool>>(),
        );
    }
    let nodes = |answer: String| answer.split(" | ").nth(1).unwrap_or("").to_string();
    let mut answers = right.ask(&asked).into_iter().map(nodes);
    wanted
        .iter()
        .map(|wanted| wanted.iter().map(|wanted| if *wanted { answers.next() } else { None }).collect())
        .collect()
}

fn states(session: &Session, play: &Play, alone: &[Option<String>]) -> Vec<State> {
    let mut states = vec![State::opened(session.size, session.sides.each_ref().map(|side| side.share))];
    for (turn, (which, bytes)) in session.turns.iter().enumerate() {
        let (said, dump) = (play.answers[turn], &play.dumps[turn]);
        let Some(next) = states[turn].after(*which, bytes, said, dump, alone[turn].as_deref()) else {
            fail("the right filter's dump is not of its check alone", &commands(session), "", dump)
        };
        states.push(next);
    }
    states
}

/// What the left filter is asked and has to answer.
enum Wanted {
    Text(String),
    Altered(usize, Altered),
}

/// A session as the left filter plays it, with altered calls before each call.
fn compare(random: &mut Random, left: &mut Filter, session: &Session, play: &Play, tally: &mut Tally) {
    let (mut asked, mut wanted) = (vec![session.opening()], vec![Wanted::Text("35 0 0 0 0".into())]);
    let text = |said: &Said| said.map(|number| number.to_string()).join(" ");
    let calls: Vec<Call> = (0..session.turns.len()).map(|turn| asked_at(session, play, turn)).collect();
    for (turn, call) in calls.iter().enumerate() {
        if let (Some(command), Some(answer)) = (refused_at(session, turn), &play.refused) {
            asked.push(command);
            wanted.push(Wanted::Text(answer.clone()));
        }
        for altered in alter::draw(random, call, ALTERED) {
            asked.push(
                format!("altered {} {} {}", books::name(call.which), hex(call.bytes), altered.words).trim_end().into(),
            );
            wanted.push(Wanted::Altered(turn, altered));
        }
        asked.extend([books::call(call.which, call.bytes), "dump".into(), "kept A".into(), "kept B".into()]);
        let after = &play.states[turn + 1];
        let texts = [text(&call.said), call.dump.into(), after.shown(0), after.shown(1)];
        wanted.extend(texts.map(Wanted::Text));
    }
    let answers = left.ask(&asked);
    for (at, wanted) in wanted.iter().enumerate() {
        let answer = answers.get(at).map_or("(the filter ended)", String::as_str);
        if let Err((what, wanted)) = judge(wanted, &calls, answer, tally) {
            fail(what, &asked[..=at], &wanted, answer);
        }
    }
    *tally.openings.entry(35).or_insert(0) += 1;
    if let Some(said) = play.refused.as_deref().and_then(kept::said) {
        *tally.openings.entry(said[0]).or_insert(0) += 1;
    }
    play.answers.iter().for_each(|said| *tally.calls.entry(said[0]).or_insert(0) += 1);
}

fn asked_at<'a>(session: &'a Session, play: &'a Play, turn: usize) -> Call<'a> {
    let (which, bytes) = &session.turns[turn];
    Call { state: &play.states[turn], which: *which, bytes, said: play.answers[turn], dump: &play.dumps[turn] }
}

fn judge(wanted: &Wanted, calls: &[Call], answer: &str, tally: &mut Tally) -> Result<(), (&'static str, String)> {
    match wanted {
        Wanted::Text(text) if text == answer => Ok(()),
        Wanted::Text(text) => Err(("the filters differ", text.clone())),
        Wanted::Altered(turn, altered) => {
            let number = altered.judge(&calls[*turn], answer).map_err(|what| (what, altered.wanted(&calls[*turn])))?;
            let counted = tally.altered.entry(altered.kind).or_default();
            counted[[7, 26].iter().position(|given| *given == number).unwrap_or(2)] += 1;
            Ok(())
        }
    }
}

/// Each book's answers are the same with the other book silent, and with other calls of it: those of another session.
fn apart(random: &mut Random, left: &mut Filter, sessions: &[Session], plays: &[Play], tally: &mut Tally) {
    for (at, (session, play)) in sessions.iter().zip(plays).enumerate() {
        let other = &sessions[(at + 1) % sessions.len()];
        for which in [0, 1] {
            for other in [None, Some(&other.sides[1 - which])] {
                let (asked, own) = alone_turns(random, session, which, other);
                let answers = left.ask(&asked);
                let answers: Vec<&String> = own.iter().filter_map(|at| answers.get(*at)).collect();
                let turns = session.turns.iter().zip(&play.answers).filter(|(turn, _)| turn.0 == which);
                let wanted: Vec<String> =
                    turns.map(|(_, said)| said.map(|number| number.to_string()).join(" ")).collect();
                if answers != wanted.iter().collect::<Vec<_>>() {
                    fail(
                        "the other book's calls change a book's answers",
                        &asked,
                        &wanted.join("\n"),
                        &format!("{answers:?}"),
                    );
                }
                tally.silent += wanted.len();
            }
        }
    }
}

/// The calls of one book of a session, between others of the other book, and at which places they are.
fn alone_turns(
    random: &mut Random,
    session: &Session,
    which: usize,
    other: Option<&Side>,
) -> (Vec<String>, Vec<usize>) {
    let (mut asked, mut own) = (vec![session.opening()], Vec::new());
    let mut others = other.into_iter().flat_map(|side| &side.calls);
    for (_, bytes) in session.turns.iter().filter(|turn| turn.0 == which) {
        let before = random.below(3);
        asked.extend(others.by_ref().take(before).map(|bytes| books::call(1 - which, bytes)));
        own.push(asked.len());
        asked.push(books::call(which, bytes));
    }
    (asked, own)
}
