//! `compare-small [COUNT] [SEED] [--left COMMAND] [--right COMMAND]`
//!
//! Asks two filters to check COUNT random formulas of at most seven variables by truth table (`small`), and the left one also over diagrams
//! with 65,536 places (`check`). The filters have to agree; for at most six variables number, place, lines and rounds have to be the same by
//! both methods, wherever neither gives 7, 8 or 23; for seven the answer by truth table is 2. Shows the command where one of these fails, and
//! ends with status 1.

use compare::check;
use compare::filter::Filter;
use compare::options::Options;
use compare::random::Random;
use std::collections::BTreeMap;
use std::process::exit;

fn main() {
    let options = Options::given(2000, "compare-small [COUNT]");
    let mut random = Random::new(options.seed);
    let mut filters = options.filters.each_ref().map(|command| Filter::start(command));
    let mut numbers = BTreeMap::new();
    let mut asked = 0;
    while asked < options.count {
        let drawn: Vec<Drawn> =
            (0..200).flat_map(|_| check::commands(&mut random)).filter_map(|command| drawn(&command)).collect();
        let small: Vec<String> = drawn.iter().map(|drawn| format!("small {}", drawn.words)).collect();
        let diagrams: Vec<String> = drawn.iter().map(|drawn| format!("check 65536 {}", drawn.words)).collect();
        let [left, right] = &mut filters;
        let answers = [left.ask(&small), right.ask(&small), left.ask(&diagrams)];
        for (at, drawn) in drawn.iter().enumerate() {
            let answers =
                answers.each_ref().map(|answers| answers.get(at).map_or("(the filter ended)", String::as_str));
            if let Err(what) = agree(drawn, answers) {
                println!("compare-small: {what}\nsmall {}\n{}", drawn.words, answers.join("\n"));
                exit(1);
            }
            *numbers.entry(number(answers[0])).or_insert(0) += 1;
        }
        asked += drawn.len();
    }
    println!(
        "small: {}",
        numbers.iter().map(|(number, times)| format!("{number}: {times}")).collect::<Vec<_>>().join(", ")
    );
    if !filters.into_iter().all(Filter::end) {
        println!("compare-small: a filter ended badly");
        exit(1);
    }
    println!("compare-small: {asked} commands from seed {}, no difference", options.seed);
}

/// The words MEMBERS SCRATCH FORMULA PROOF of a command, and how many variables the header names.
struct Drawn {
    words: String,
    variables: usize,
}

/// What is asked, of a check of a formula with at most seven variables and with lists of any size.
fn drawn(command: &str) -> Option<Drawn> {
    let words: Vec<&str> = command.split(' ').collect();
    let [word, _, members, scratch, formula, proof, ..] = words[..] else { return None };
    let variables = variables(formula)?;
    let wanted = word == "check" && variables <= 7;
    wanted.then(|| Drawn { words: format!("{members} {scratch} {formula} {proof}"), variables })
}

/// The number behind `p cnf ` in a formula's hex, where it is one; a header that is no such line is refused alike by both methods.
fn variables(formula: &str) -> Option<usize> {
    let bytes: Vec<u8> =
        (0..formula.len() / 2).map_while(|at| u8::from_str_radix(formula.get(2 * at..2 * at + 2)?, 16).ok()).collect();
    let text = String::from_utf8_lossy(&bytes);
    let header = text.split('\n').find(|line| !line.starts_with('c') && !line.trim().is_empty())?;
    let mut words = header.split_whitespace();
    match (words.next(), words.next(), words.next()) {
        (Some("p"), Some("cnf"), Some(number)) => number.parse().ok(),
        _ => None,
    }
}

fn number(answer: &str) -> u8 {
    answer.split(' ').next().and_then(|word| word.parse().ok()).unwrap_or(255)
}

/// What is wrong with the answers of the left filter and the right one by truth table, and of the left one over diagrams.
fn agree(drawn: &Drawn, [left, right, diagrams]: [&str; 3]) -> Result<(), &'static str> {
    if left != right {
        return Err("the filters differ");
    }
    let same = diagrams.strip_prefix(left).is_some_and(|rest| rest.starts_with(' '));
    if drawn.variables > 6 {
        return if same || matches!(number(left), 2 | 7) { Ok(()) } else { Err("more than six variables") };
    }
    let aside = [left, diagrams].iter().any(|answer| matches!(number(answer), 7 | 8 | 23));
    if same || aside {
        Ok(())
    } else {
        Err("the two methods differ")
    }
}
