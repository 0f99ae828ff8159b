//! Commands of the whole check.

use crate::diagram::Literals;
use crate::families::{self, Problem};
use crate::fault;
use crate::formula::Formula;
use crate::index;
use crate::large;
use crate::paths;
use crate::proof::{strewn, Builder, Writer};
use crate::random::Random;
use crate::strike;
use crate::tally;

/// A few commands over one formula and one proof.
pub fn commands(random: &mut Random) -> Vec<String> {
    match random.below(100) {
        0..=13 => {
            let problem = small(random);
            let text = problem.formula.faulty(random);
            vec![command(random, 4096, &text, &finished(&problem))]
        }
        14..=16 => wrong_sizes(random),
        17 => paths::wide(random),
        18..=52 => faulty_proof(random),
        53..=61 => mutated(random),
        62..=65 => renumbered(random),
        66..=75 => nearly_full(random),
        76..=85 => {
            let problem = small(random);
            vec![plain(random, &problem)]
        }
        86..=87 => large::sets(random),
        88..=96 => {
            let problem = family(random);
            vec![plain(random, &problem)]
        }
        _ => large::limits(random),
    }
}

/// Bytes in hex, `-` for none.
pub fn hex(bytes: &[u8]) -> String {
    if bytes.is_empty() {
        return "-".into();
    }
    bytes.iter().map(|byte| format!("{byte:02x}")).collect()
}

/// The command, with lists as short as they may be or longer.
pub fn command(random: &mut Random, size: usize, formula: &[u8], proof: &[u8]) -> String {
    command_of(random, "check", size, formula, proof)
}

/// The same of the check by this word.
pub fn command_of(random: &mut Random, word: &str, size: usize, formula: &[u8], proof: &[u8]) -> String {
    let members = 2048 + random.pick(&[0, 0, 0, 1, 700]);
    let scratch = 4096 + random.pick(&[0, 0, 0, 1, 900]);
    format!("{word} {size} {members} {scratch} {} {}", hex(formula), hex(proof))
}

fn finished(problem: &Problem) -> Vec<u8> {
    let mut writer = problem.builder.writer.clone();
    writer.end();
    writer.bytes
}

fn plain(random: &mut Random, problem: &Problem) -> String {
    let size = random.pick(&[1000, 4096, 4096, 4096, 20_000, 65_536]);
    let text = problem.formula.strewn(random);
    command(random, size, &text, &finished(problem))
}

/// A problem of a family, some of them with path lines, with entries of sets or with strikings.
fn family(random: &mut Random) -> Problem {
    let mut problem = families::any(random);
    if random.percent(30) {
        problem = paths::strewn(random, &problem);
    }
    let sets = tally::dice(random);
    if sets > 0 {
        problem = tally::shortened(random, &problem, sets);
    }
    some_struck(random, problem, 30)
}

fn some_struck(random: &mut Random, problem: Problem, often: usize) -> Problem {
    if random.percent(often) {
        strike::strewn(random, &problem)
    } else {
        problem
    }
}

/// A random formula of few variables with a proof of random lines, which often ends in a 0 line, and of strikings. Half of them have no PR
/// line, so that the consequence profile has more to accept.
fn small(random: &mut Random) -> Problem {
    let formula = small_formula(random);
    let mut builder = Builder { consequence: random.percent(50), ..Builder::new(&formula) };
    builder.writer.sets = tally::dice(random);
    let striking = random.pick(&[0, 0, 20, 60]);
    for _ in 0..random.below(6) {
        line(random, &mut builder, formula.variables);
        if random.percent(striking) {
            strike::one(random, &mut builder);
        }
    }
    if builder.whole() == 0 && random.percent(85) {
        builder.derive(0, 60);
    }
    if random.percent(10) {
        line(random, &mut builder, formula.variables);
    }
    let mut problem = some_struck(random, Problem { formula, builder }, 25);
    if random.percent(15) {
        problem = paths::strewn(random, &problem);
    }
    problem
}

pub fn small_formula(random: &mut Random) -> Formula {
    let variables = random.between(1, 7);
    let clauses = random.below(5 * variables);
    let width = random.between(1, 4);
    let mut formula = families::random_clauses(random, variables, clauses, width);
    for clause in &mut formula.clauses {
        let least = usize::from(random.percent(97));
        clause.truncate(random.between(least, width));
    }
    if random.percent(5) {
        formula = Formula { variables: random.below(3), clauses: Vec::new() };
    }
    if random.percent(40) {
        spread(random, &mut formula);
    }
    formula
}

/// Gives the variables other numbers in the same order, up to 64.
fn spread(random: &mut Random, formula: &mut Formula) {
    let mut numbers: Vec<i32> = (1..=64).collect();
    random.shuffle(&mut numbers);
    numbers.truncate(formula.variables);
    numbers.sort_unstable();
    for literal in formula.clauses.iter_mut().flatten() {
        let number = numbers[literal.unsigned_abs() as usize - 1];
        *literal = literal.signum() * number;
    }
    formula.variables = random.between(numbers.last().map_or(0, |last| *last as usize), 64);
}

/// One more line: implied and accepted by RUP or as a path line, or a PR line with a witness.
fn line(random: &mut Random, builder: &mut Builder, variables: usize) {
    let whole = builder.whole();
    if random.percent(10) {
        tally::strew(random, &mut builder.writer, variables);
    }
    for _ in 0..4 {
        let any = if random.percent(25) {
            tally::diagram(random, &mut builder.store, variables)
        } else {
            strewn(random, &mut builder.store, variables)
        };
        let done = match random.below(5) {
            0 => {
                let implied = builder.store.or(whole, any);
                implied != 1 && builder.rup(implied)
            }
            1 => {
                let implied = builder.store.or(whole, any);
                builder.derive(implied, builder.lines.len() + 12)
            }
            2 if builder.members.len() > 1 => {
                let (f, g) = (random.pick(&builder.members), random.pick(&builder.members));
                families::both(builder, f, g)
            }
            3 => {
                let implied = builder.store.or(whole, any);
                builder.path(implied)
            }
            _ => builder.pr(any, witness(random, variables)),
        };
        if done {
            return;
        }
    }
}

pub fn witness(random: &mut Random, variables: usize) -> Literals {
    let mut literals = Literals::default();
    let set = random.pick(&[20, 50, 90]);
    for variable in 1..=variables as i32 {
        if random.percent(set) {
            literals.set(if random.percent(50) { variable } else { -variable });
        }
    }
    literals
}

fn wrong_sizes(random: &mut Random) -> Vec<String> {
    let problem = small(random);
    vec![wrong_size(random, "check", &problem.formula.text(), &finished(&problem))]
}

/// A command of the check by this word with one lent part of a wrong size.
pub fn wrong_size(random: &mut Random, word: &str, formula: &[u8], proof: &[u8]) -> String {
    let (mut size, mut members, mut scratch, mut index) = (4096, 2048, 4096, String::new());
    match random.below(5) {
        0 => size = random.pick(&[0, 1, 65_537, 70_000]),
        1 => members = random.pick(&[0, 1, 1024, 2047]),
        2 => scratch = random.pick(&[0, 1, 2048, 4095]),
        3 => index = index::wrong_size(random, size),
        _ => {
            size = random.pick(&[2, 3, 64, 1000, 65_536]);
            index = index::wrong_size(random, size);
        }
    }
    format!("{word} {size} {members} {scratch} {} {}{index}", hex(formula), hex(proof))
}

/// The same formula and proof in tables of one place, one more and so on: full at each making.
fn nearly_full(random: &mut Random) -> Vec<String> {
    let problem = if random.percent(80) { small(random) } else { family(random) };
    let (text, proof) = (problem.formula.strewn(random), finished(&problem));
    small_sizes(random).map(|size| command(random, size, &text, &proof)).collect()
}

/// A few sizes that follow each other, small ones most often.
pub fn small_sizes(random: &mut Random) -> std::ops::Range<usize> {
    let first = random.pick(&[2, 4, 8, 15, 25, 40, 70, 150, 300]);
    let first = first + random.below(first);
    first..first + random.between(1, 8)
}

/// The same check in tables of its peak, one place more, one fewer and some sizes below: those above the formula's own peak fill in the proof,
/// each at another making. None where the answer tells no peak, or the peak of an empty table.
pub fn around_peak(random: &mut Random, command: &str, answer: &str) -> Vec<String> {
    let peak = answer.split(' ').nth(5).and_then(|word| word.parse::<usize>().ok()).unwrap_or(0);
    let (profile, asked) = command.strip_prefix("cons ").map_or(("", command), |rest| ("cons ", rest));
    let mut words = asked.splitn(3, ' ');
    let (Some(word @ ("check" | "drat" | "dratb")), Some(_), Some(rest), true) =
        (words.next(), words.next(), words.next(), peak > 2)
    else {
        return Vec::new();
    };
    let mut sizes = vec![peak - 1, peak, (peak + 1).min(65_536)];
    sizes.extend((0..3).map(|_| random.between(2, peak - 1)));
    sizes.extend((2..peak - 1).rev().take(if random.percent(20) { 20 } else { 2 }));
    sizes.sort_unstable();
    sizes.dedup();
    sizes.iter().map(|size| format!("{profile}{word} {size} {rest}")).collect()
}

/// A few bytes of the formula or of the proof changed, taken away or put in.
fn mutated(random: &mut Random) -> Vec<String> {
    let problem = if random.percent(80) { small(random) } else { family(random) };
    let (mut text, mut proof) = (problem.formula.strewn(random), finished(&problem));
    for _ in 0..random.between(1, 3) {
        if random.percent(30) {
            mutate(random, &mut text, LETTERS);
        } else {
            mutate(random, &mut proof, &KINDS_AND_NUMBERS);
        }
    }
    vec![command(random, 4096, &text, &proof)]
}

/// What stands in a formula, and in a text with `d`.
pub const LETTERS: &[u8] = b" \n\t\r0123456789-cdpx";

const KINDS_AND_NUMBERS: [u8; 20] =
    [0x4e, 0x58, 0x4b, 0x54, 0x46, 0x52, 0x50, 0x51, 0x44, 0x45, 0, 1, 2, 3, 4, 5, 6, 7, 64, 255];

pub fn mutate(random: &mut Random, bytes: &mut Vec<u8>, alphabet: &[u8]) {
    if bytes.is_empty() {
        return;
    }
    let at = random.below(bytes.len());
    match random.below(5) {
        0 => bytes.insert(at, random.pick(alphabet)),
        1 => drop(bytes.remove(at)),
        2 => bytes[at] ^= 1 << random.below(8),
        3 => bytes.truncate(at),
        _ => bytes[at] = random.pick(alphabet),
    }
}

/// A proof with strikings, one of them of another member: struck already, not there yet, or wanted still.
fn renumbered(random: &mut Random) -> Vec<String> {
    let problem = small(random);
    let problem = strike::strewn(random, &problem);
    let mut proof = finished(&problem);
    let starts = problem.builder.writer.records.iter().filter(|start| proof[**start] == 0x44);
    let starts: Vec<usize> = starts.copied().collect();
    if !starts.is_empty() {
        let start = random.pick(&starts);
        let (members, own) = (problem.builder.members.len(), usize::from(proof[start + 1]));
        let others = [0, 1, own + 1, own.saturating_sub(1), own + 256, members - 1, members, members + 1, 65_535];
        let other = random.pick(&others) as u16;
        proof[start + 1..start + 3].copy_from_slice(&other.to_le_bytes());
    }
    let text = problem.formula.strewn(random);
    vec![command(random, 4096, &text, &proof)]
}

/// A proof that is fine up to a line, where one fault of the numbers 9 to 21, 28, 29 or 34 follows.
fn faulty_proof(random: &mut Random) -> Vec<String> {
    let problem = small(random);
    let whole = &problem.builder.writer;
    let lines = random.below(whole.lines.len().max(1));
    let cut = whole.lines.get(lines).copied().unwrap_or(0);
    let mut writer = Writer::default();
    fault::write(random, &mut writer, &problem, lines);
    let mut proof = whole.bytes[..cut].to_vec();
    proof.extend(&writer.bytes);
    if random.percent(70) {
        proof.extend(&whole.bytes[cut..]);
        proof.push(0x45);
    }
    let text = problem.formula.strewn(random);
    vec![command(random, 4096, &text, &proof)]
}

#[cfg(test)]
mod tests {
    use super::*;

    fn sizes(commands: &[String]) -> Vec<usize> {
        commands.iter().map(|command| command.split(' ').nth(1).unwrap().parse().unwrap()).collect()
    }

    #[test]
    fn sizes_around_the_peak() {
        let mut random = Random::new(1);
        for peak in [3, 4, 10, 500, 65_536] {
            let answer = format!("0 12 2 1 3 {peak} | - | -");
            let commands = around_peak(&mut random, "check 4096 2048 4096 70 45", &answer);
            assert!(commands.iter().all(|command| command.ends_with(" 2048 4096 70 45")));
            let sizes = sizes(&commands);
            assert!([peak - 1, peak].iter().all(|size| sizes.contains(size)), "{sizes:?}");
            assert!(peak == 65_536 || sizes.contains(&(peak + 1)), "{sizes:?}");
            assert!(sizes.iter().all(|size| (2..=65_536).contains(size)), "{sizes:?}");
            assert!(peak < 5 || sizes.contains(&(peak - 2)), "{sizes:?}");
        }
    }

    /// In the profile and of binary proofs too.
    #[test]
    fn other_words_around_the_peak() {
        let mut random = Random::new(1);
        for word in ["cons check", "drat", "dratb", "cons dratb"] {
            let commands = around_peak(&mut random, &format!("{word} 4096 2048 4096 70 45"), "0 12 2 1 3 9 | - | -");
            assert!(commands.contains(&format!("{word} 8 2048 4096 70 45")), "{commands:?}");
        }
    }

    #[test]
    fn nothing_around_no_peak() {
        let mut random = Random::new(1);
        for answer in ["7 0 0 0 2 0 | - | -", "1 0 0 0 2 2 | - | -", "error: not a command", ""] {
            assert!(around_peak(&mut random, "check 4096 2048 4096 - -", answer).is_empty());
        }
        assert!(around_peak(&mut random, "and 4 4 1,0,1;1,1,0 2 3", "0 0 4 | 1,0,1;1,1,0").is_empty());
    }
}
