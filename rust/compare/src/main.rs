//! `compare [COUNT] [SEED] [--left COMMAND] [--right COMMAND] [--only WORD,WORD,..]`
//!
//! Asks two filters the same random commands, COUNT of them, and some again: checks in tables around their peak, checks of DRAT
//! proofs in the other form, conversions back, why checks are refused. Compares what they say of DRAT proofs with RUP and RAT over clauses, what they say
//! in the other form with what they said (all but the place), and conversions byte by byte with its own. Says how often each
//! number came; ends with status 1 and shows the command where the answers differ. The filters are `driver` and `reference`
//! beside this program where none are named. A WORD is a single call, `check`, `drat`, `dratb`, `convert`, or `cons` before one
//! of the checks.

use compare::filter::Filter;
use compare::random::Random;
use compare::{binary, check, clausal, convert, drat, paths, single, tally, why};
use std::collections::BTreeMap;
use std::process::exit;

struct Options {
    count: usize,
    seed: u64,
    filters: [String; 2],
    words: Vec<String>,
}

fn main() {
    let options = options();
    let mut random = Random::new(options.seed);
    let mut filters = options.filters.each_ref().map(|command| Filter::start(command));
    let mut tally = Tally::default();
    let mut sizes = Random::new(options.seed);
    let mut reasons = Random::new(options.seed);
    let mut drawn = 0;
    while drawn < options.count {
        let commands = batch(&mut random, &options.words, options.count - drawn);
        drawn += commands.len();
        let answers = agreed(&options, &mut filters, &commands, &mut tally);
        let again = refilled(&mut sizes, &commands, &answers);
        let refilled = agreed(&options, &mut filters, &again, &mut tally);
        explained(&options, &mut filters, &mut reasons, commands.iter().zip(&answers), &mut tally);
        explained(&options, &mut filters, &mut reasons, again.iter().zip(&refilled), &mut tally);
        in_other_form(&options, &mut filters, &mut sizes, &commands, &answers, &mut tally);
    }
    print!("{}", tally.text());
    if !filters.into_iter().all(Filter::end) {
        println!("compare: a filter ended badly");
        exit(1);
    }
    println!("compare: {} commands from seed {}, no difference", tally.asked, options.seed);
}

/// The answers that both filters give to the commands; ends where they differ.
fn agreed(options: &Options, filters: &mut [Filter; 2], commands: &[String], tally: &mut Tally) -> Vec<String> {
    let [left, right] = ask(filters, commands);
    for (at, command) in commands.iter().enumerate() {
        let (left, right) = (left.get(at), right.get(at));
        if left.is_none() || left != right {
            differ(options, command, [left, right]);
        }
        let held = clausal::hold(command, left.unwrap());
        if let Some((said, false)) = held {
            println!("compare: by RUP and RAT over clauses: {said:?}");
            differ(options, command, [left, right]);
        }
        if convert::hold(command, left.unwrap()) == Some(false) {
            println!("compare: not what the conversion must give");
            differ(options, command, [left, right]);
        }
        tally.add(command, left.unwrap(), held.map(|(said, _)| said.by_rat > 0));
    }
    left
}

/// Some of the checks again, in tables that are just large enough or fill, and what was converted back.
fn refilled(random: &mut Random, commands: &[String], answers: &[String]) -> Vec<String> {
    let mut again = Vec::new();
    for (command, answer) in commands.iter().zip(answers) {
        if random.percent(5) {
            again.extend(check::around_peak(random, command, answer));
        }
        again.extend(convert::back(random, command, answer));
    }
    again
}

/// Some of the checks of DRAT proofs again, in the other form: the answers are the same but for the place.
fn in_other_form(
    options: &Options,
    filters: &mut [Filter; 2],
    random: &mut Random,
    commands: &[String],
    answers: &[String],
    tally: &mut Tally,
) {
    let asked = commands.iter().zip(answers).filter(|_| random.percent(20));
    let pairs = asked.filter_map(|(command, answer)| convert::in_other_form(command, answer));
    let (again, wanted): (Vec<String>, Vec<String>) = pairs.unzip();
    let answers = agreed(options, filters, &again, tally);
    for ((command, answer), wanted) in again.iter().zip(&answers).zip(&wanted) {
        if convert::placeless(answer).as_ref() != Some(wanted) {
            println!("compare: in the other form all but the place was: {wanted}");
            differ(options, command, [Some(answer), Some(answer)]);
        }
        tally.count("in the other form", answer);
    }
}

/// Of some of the checks, and of all that have a cause beside their number, why they are refused: the number is the check's, 30 where it did not refuse, and the piece starts at its place.
fn explained<'a>(
    options: &Options,
    filters: &mut [Filter; 2],
    random: &mut Random,
    checks: impl Iterator<Item = (&'a String, &'a String)>,
    tally: &mut Tally,
) {
    let asked = checks.filter_map(|(command, answer)| why::of(command, answer));
    let asked = asked.filter(|(_, wanted)| random.percent(25) || wanted.has_cause());
    let (questions, wanted): (Vec<String>, Vec<why::Wanted>) = asked.unzip();
    let answers = agreed(options, filters, &questions, tally);
    for ((question, answer), wanted) in questions.iter().zip(&answers).zip(&wanted) {
        if !wanted.met(answer) {
            println!("compare: the check says {wanted:?}");
            differ(options, question, [Some(answer), Some(answer)]);
        }
    }
}

fn options() -> Options {
    let beside = |name: &str| std::env::current_exe().unwrap().with_file_name(name).display().to_string();
    let words = single::WORDS.iter().chain(&KINDS.map(|(word, _)| word)).map(|word| word.to_string()).collect();
    let mut options = Options { count: 2000, seed: 1, filters: [beside("driver"), beside("reference")], words };
    let mut numbers = 0;
    let mut given = std::env::args().skip(1);
    while let Some(word) = given.next() {
        let mut value = || given.next().unwrap_or_else(|| usage());
        match word.as_str() {
            "--left" => options.filters[0] = value(),
            "--right" => options.filters[1] = value(),
            "--only" => options.words = value().split(',').map(String::from).collect(),
            number => {
                let number = number.parse().unwrap_or_else(|_| usage());
                match numbers {
                    0 => options.count = number as usize,
                    1 => options.seed = number,
                    _ => usage(),
                }
                numbers += 1;
            }
        }
    }
    options
}

fn usage() -> ! {
    eprintln!("usage: compare [COUNT] [SEED] [--left COMMAND] [--right COMMAND] [--only WORD,WORD,..]");
    exit(2)
}

/// The kinds of commands that are no single calls, each with its share.
const KINDS: [(&str, usize); 7] =
    [("check", 9), ("cons check", 4), ("drat", 4), ("cons drat", 2), ("dratb", 3), ("cons dratb", 2), ("convert", 2)];

/// Some commands, at most so many.
fn batch(random: &mut Random, words: &[String], most: usize) -> Vec<String> {
    let kind = |word: &str| KINDS.iter().any(|(kind, _)| *kind == word);
    let singles: Vec<&str> = words.iter().map(String::as_str).filter(|word| !kind(word)).collect();
    let wanted = |word: &str| words.iter().any(|other| other == word);
    let shares = KINDS.into_iter().filter(|(word, _)| wanted(word));
    let mut kinds: Vec<&str> = shares.flat_map(|(word, share)| vec![word; share]).collect();
    kinds.extend(vec![""; if singles.is_empty() { 0 } else { 9 }]);
    let mut commands = Vec::new();
    while commands.len() < most.min(200) {
        let kind = random.pick(&kinds);
        let (profile, word) = kind.strip_prefix("cons ").map_or(("", kind), |rest| ("cons ", rest));
        let more = match word {
            "check" => check::commands(random),
            "drat" => drat::commands(random),
            "dratb" => binary::commands(random),
            "convert" => convert::commands(random),
            _ => single::commands(random, &singles),
        };
        commands.extend(more.into_iter().map(|command| format!("{profile}{command}")));
    }
    commands.truncate(most);
    commands
}

fn ask(filters: &mut [Filter; 2], commands: &[String]) -> [Vec<String>; 2] {
    let [left, right] = filters;
    std::thread::scope(|scope| {
        let asked = scope.spawn(|| left.ask(commands));
        let right = right.ask(commands);
        [asked.join().unwrap(), right]
    })
}

/// Shows a difference, cut where it is long, and leaves it whole in a file.
fn differ(options: &Options, command: &str, answers: [Option<&String>; 2]) -> ! {
    let cut = |text: &str| text.chars().take(3000).collect::<String>();
    let none = "(the filter ended)".to_string();
    let answers = answers.map(|answer| answer.unwrap_or(&none));
    println!("compare: a difference\ncommand: {}", cut(command));
    for (filter, answer) in options.filters.iter().zip(answers) {
        println!("{filter}: {}", cut(answer));
    }
    let file = std::env::current_exe().unwrap().with_file_name("difference.txt");
    if std::fs::write(&file, format!("{command}\n{}\n{}\n", answers[0], answers[1])).is_ok() {
        println!("compare: whole in {}", file.display());
    }
    exit(1)
}

/// How often each number came, by command.
#[derive(Default)]
struct Tally {
    asked: usize,
    numbers: BTreeMap<String, BTreeMap<u32, usize>>,
}

impl Tally {
    /// `held` where clauses were asked too: whether a clause is RAT and not RUP.
    fn add(&mut self, command: &str, answer: &str, held: Option<bool>) {
        self.asked += 1;
        let (profile, asked) = command.strip_prefix("cons ").map_or(("", command), |rest| ("cons ", rest));
        let word = format!("{profile}{}", asked.split(' ').next().unwrap_or(""));
        let mut add = |what: String| self.count(&what, answer);
        // The checks that struck out a member, those with a record of a set or a path line, those that end at a path line, and the proofs
        // compared with clauses, once more.
        if answer.split(" | ").nth(3).is_some_and(|marks| marks.contains('1')) {
            add(format!("{word}, struck"));
        }
        let proof = if word.ends_with("check") { asked.split(' ').nth(5).unwrap_or("") } else { "" };
        if tally::stands_in(proof) {
            add(format!("{word}, sets"));
        }
        if paths::stands_in(proof) {
            add(format!("{word}, paths"));
        }
        if paths::ended_at(proof, answer) {
            add(format!("{word}, at a path line"));
        }
        if held.is_some() {
            add(format!("{word}, by clauses"));
        }
        if held == Some(true) {
            add(format!("{word}, by clauses, RAT"));
        }
        add(word);
    }

    /// Counts an answer by its number.
    fn count(&mut self, what: &str, answer: &str) {
        let number = answer.split(' ').next().and_then(|word| word.parse().ok()).unwrap_or(99);
        *self.numbers.entry(what.into()).or_default().entry(number).or_default() += 1;
    }

    fn text(&self) -> String {
        let mut text = String::new();
        for (word, numbers) in &self.numbers {
            text += &format!("{word}:");
            for (number, times) in numbers {
                text += &format!("  {number} x {times}");
            }
            text += "\n";
        }
        text
    }
}
