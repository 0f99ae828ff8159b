//! Commands of the check of DRAT texts: clauses that are RUP or RAT, strikings, and faults among them.

use crate::check;
use crate::clausal::{rat, rup, Literals};
use crate::families;
use crate::formula::{self, Formula};
use crate::outside;
use crate::random::Random;

/// A clause of a text, its literals as they are written.
#[derive(Clone)]
pub struct Step {
    pub strikes: bool,
    pub literals: Vec<i32>,
}

/// A formula and a text for it in the making, with the clauses that are live.
#[derive(Clone)]
pub struct Problem {
    pub formula: Formula,
    pub steps: Vec<Step>,
    live: Vec<Literals>,
}

/// A few commands over one formula and one text.
pub fn commands(random: &mut Random) -> Vec<String> {
    match random.below(100) {
        0..=29 => {
            let problem = any(random);
            vec![plain(random, &problem)]
        }
        30..=47 => faulty_tokens(random),
        48..=57 => mutated(random),
        58..=69 => {
            let problem = any(random);
            let (formula, text) = (problem.formula.strewn(random), strewn(random, &problem.tokens()));
            check::small_sizes(random).map(|size| command(random, size, &formula, &text)).collect()
        }
        70..=74 => {
            let problem = small(random);
            let (formula, text) = (problem.formula.faulty(random), strewn(random, &problem.tokens()));
            vec![command(random, 4096, &formula, &text)]
        }
        75..=77 => {
            let problem = small(random);
            let (formula, text) = (problem.formula.text(), strewn(random, &problem.tokens()));
            vec![check::wrong_size(random, "drat", &formula, &text)]
        }
        78..=80 => limits(random),
        81..=86 => {
            let problem = outside::damaged(random);
            vec![plain(random, &problem)]
        }
        _ => {
            let problem = long(random);
            vec![plain(random, &problem)]
        }
    }
}

fn command(random: &mut Random, size: usize, formula: &[u8], text: &[u8]) -> String {
    check::command_of(random, "drat", size, formula, text)
}

fn plain(random: &mut Random, problem: &Problem) -> String {
    let size = random.pick(&[1000, 4096, 4096, 20_000, 65_536]);
    let (formula, text) = (problem.formula.strewn(random), strewn(random, &problem.tokens()));
    command(random, size, &formula, &text)
}

/// Tokens as a text, with comments or without.
pub fn strewn(random: &mut Random, tokens: &[String]) -> Vec<u8> {
    let mut text = String::new();
    let often = random.pick(&[0, 10, 50]);
    formula::strew(random, &mut text, tokens, often);
    text.into_bytes()
}

impl Problem {
    pub fn new(formula: Formula) -> Self {
        let live = formula.clauses.iter().map(|clause| Literals::of(clause)).collect();
        Problem { formula, steps: Vec::new(), live }
    }

    pub fn tokens(&self) -> Vec<String> {
        let mut tokens = Vec::new();
        for step in &self.steps {
            tokens.extend(step.strikes.then(|| "d".into()));
            tokens.extend(step.literals.iter().chain(&[0]).map(i32::to_string));
        }
        tokens
    }

    fn shows(&self, clause: &[i32]) -> bool {
        let set = Literals::of(clause);
        rup(&self.live, set) || clause.first().is_some_and(|pivot| rat(&self.live, *pivot, set))
    }

    fn add(&mut self, literals: Vec<i32>) {
        self.live.push(Literals::of(&literals));
        self.steps.push(Step { strikes: false, literals });
    }

    /// Strikes out a clause that is live.
    fn strike(&mut self, literals: Vec<i32>) {
        let set = Literals::of(&literals);
        let at = self.live.iter().position(|clause| *clause == set);
        self.live.remove(at.expect("a live clause"));
        self.steps.push(Step { strikes: true, literals });
    }

    /// Adds a clause and those that it needs, split by variable after variable; whether all are RUP, with at most so many steps.
    fn derive(&mut self, random: &mut Random, clause: &[i32], most: usize) -> bool {
        if self.steps.len() >= most {
            return false;
        }
        if !rup(&self.live, Literals::of(clause)) {
            let open: Vec<i32> = (1..=self.formula.variables as i32)
                .filter(|v| !clause.iter().any(|literal| literal.abs() == *v))
                .collect();
            if open.is_empty() {
                return false;
            }
            let variable = random.pick(&open);
            let sides = [variable, -variable].map(|literal| [clause, &[literal]].concat());
            if !sides.iter().all(|side| self.derive(random, side, most)) || self.steps.len() >= most {
                return false;
            }
        }
        self.add(clause.to_vec());
        true
    }
}

/// A text of few clauses or a longer one.
pub fn any(random: &mut Random) -> Problem {
    if random.percent(80) {
        small(random)
    } else {
        long(random)
    }
}

/// A random formula of few variables, which may be spread over 64, with a text of random clauses that often ends in the empty one.
pub fn small(random: &mut Random) -> Problem {
    let mut formula = check::small_formula(random);
    if random.percent(75) {
        for clause in &mut formula.clauses {
            one_sign(clause);
        }
    }
    let mut problem = Problem::new(formula);
    let striking = random.pick(&[0, 0, 25, 60]);
    for _ in 0..random.below(7) {
        one(random, &mut problem);
        if random.percent(striking) {
            strike(random, &mut problem);
        }
    }
    if random.percent(60) {
        finish(random, &mut problem, 60);
    }
    // Behind the empty clause, or with none.
    for _ in 0..random.pick(&[0, 0, 0, 1, 2]) {
        one(random, &mut problem);
        strike(random, &mut problem);
    }
    problem
}

/// A formula of a family with a text that is longer.
pub fn long(random: &mut Random) -> Problem {
    let formula = match random.below(3) {
        0 => {
            let variables = random.between(8, 64);
            let (clauses, width) = (variables * random.between(2, 5), random.between(2, 4));
            families::random_clauses(random, variables, clauses.min(1024), width)
        }
        _ => families::any(random).formula,
    };
    let mut problem = Problem::new(formula);
    let striking = random.pick(&[0, 10, 40]);
    for _ in 0..random.below(25) {
        one(random, &mut problem);
        if random.percent(striking) {
            strike(random, &mut problem);
        }
    }
    if problem.formula.variables <= 30 || random.percent(20) {
        finish(random, &mut problem, 150);
    }
    problem
}

/// The empty clause with those that it needs, where they are not too many.
fn finish(random: &mut Random, problem: &mut Problem, more: usize) {
    let (steps, mut whole) = (problem.steps.len(), problem.clone());
    let done = whole.derive(random, &[], steps + more);
    if done || random.percent(10) {
        *problem = whole;
    }
}

fn one_sign(clause: &mut Vec<i32>) {
    let mut kept: Vec<i32> = Vec::new();
    clause.retain(|literal| {
        let fine = !kept.contains(&-literal);
        kept.push(*literal);
        fine
    });
}

fn literal(random: &mut Random, variables: usize) -> i32 {
    let variable = random.between(1, variables) as i32;
    random.pick(&[variable, -variable])
}

/// One more clause: mostly one that is shown, now and then any.
fn one(random: &mut Random, problem: &mut Problem) {
    let any_way = random.percent(15);
    for _ in 0..8 {
        let clause = candidate(random, problem);
        if any_way || problem.shows(&clause) {
            let written = repeated(random, clause);
            return problem.add(written);
        }
    }
}

/// A clause that may be RUP or RAT: random literals, alone or behind a clause of the formula or a resolvent of two.
fn candidate(random: &mut Random, problem: &Problem) -> Vec<i32> {
    let (variables, clauses) = (problem.formula.variables, &problem.formula.clauses);
    if variables == 0 {
        return Vec::new();
    }
    let mut clause: Vec<i32> = match random.below(4) {
        0 if !clauses.is_empty() => {
            let at = random.below(clauses.len());
            clauses[at].clone()
        }
        1 if clauses.len() > 1 => {
            let (first, second) = (random.below(clauses.len()), random.below(clauses.len()));
            let both = [&clauses[first][..], &clauses[second][..]].concat();
            both.iter().filter(|literal| !both.contains(&-**literal)).copied().collect()
        }
        _ => Vec::new(),
    };
    for _ in 0..random.below(4) {
        clause.push(literal(random, variables));
    }
    one_sign(&mut clause);
    if random.percent(60) {
        random.shuffle(&mut clause);
    }
    if random.percent(2) {
        let second = literal(random, variables);
        clause.extend([second, -second]);
    }
    clause
}

/// Some literals once more, the pivot among them.
fn repeated(random: &mut Random, mut clause: Vec<i32>) -> Vec<i32> {
    while !clause.is_empty() && random.percent(12) {
        let again = random.pick(&clause);
        let at = random.between(1, clause.len());
        clause.insert(at, again);
    }
    clause
}

/// Strikes out a live clause, mostly one that the others show; now and then one that may be none.
fn strike(random: &mut Random, problem: &mut Problem) {
    if random.percent(5) {
        let literals = candidate(random, problem);
        return problem.steps.push(Step { strikes: true, literals });
    }
    let written = problem.steps.iter().filter(|step| !step.strikes).map(|step| &step.literals);
    let known: Vec<&Vec<i32>> = problem.formula.clauses.iter().chain(written).collect();
    let (at, careless) = (random.below(known.len().max(1)), random.percent(25));
    let Some(&clause) = known.get(at) else { return };
    let set = Literals::of(clause);
    let Some(place) = problem.live.iter().position(|live| *live == set) else { return };
    let mut others = problem.live.clone();
    others.remove(place);
    if careless || rup(&others, set) {
        let mut literals = repeated(random, clause.clone());
        random.shuffle(&mut literals);
        problem.strike(literals);
    }
}

/// One token at fault, or the text cut: 3, 4 or 6. Some faults leave another text that is fine.
fn faulty_tokens(random: &mut Random) -> Vec<String> {
    let problem = small(random);
    let mut tokens = problem.tokens();
    let text_words = ["d1", "1 d", "d d", "D", "dd", "d-1", "-d", "d", "0 d", "d 0", "d 0 d 0", "d\rc", "0d"];
    match random.below(6) {
        0 => formula::replace(random, &mut tokens, &formula::NO_NUMBERS),
        1 | 2 => formula::replace(random, &mut tokens, &text_words),
        3 => formula::replace_beyond(random, &mut tokens, problem.formula.variables),
        4 => {
            tokens.truncate(random.below(tokens.len() + 1));
            tokens.extend(random.pick(&[None, Some("d"), Some("1"), Some("d\nc 0\n1")]).map(String::from));
        }
        _ => {
            let at = random.below(tokens.len() + 1);
            tokens.insert(at, random.pick(&["d", "0", "1", "-1", "d 0", "c"]).into());
        }
    }
    let (formula, text) = (problem.formula.strewn(random), strewn(random, &tokens));
    vec![command(random, 4096, &formula, &text)]
}

/// A few bytes of the formula or of the text changed, taken away or put in.
fn mutated(random: &mut Random) -> Vec<String> {
    let problem = any(random);
    let (mut formula, mut text) = (problem.formula.strewn(random), strewn(random, &problem.tokens()));
    for _ in 0..random.between(1, 3) {
        let bytes = if random.percent(20) { &mut formula } else { &mut text };
        check::mutate(random, bytes, check::LETTERS);
    }
    vec![command(random, 4096, &formula, &text)]
}

/// About 1,024 clauses of a text, over up to 1,024 of a formula; the last one may be at fault, which 22 comes before or after.
fn limits(random: &mut Random) -> Vec<String> {
    let mut formula = Formula { variables: 64, clauses: vec![vec![1, 2], vec![-1, 3], vec![2, -3], vec![-2, 64]] };
    if random.percent(30) {
        let clauses = random.pick(&[1023, 1024]);
        formula.clauses = formula.clauses.iter().cycle().take(clauses).cloned().collect();
    }
    let (lines, striking) = (random.pick(&[1023, 1024, 1024, 1025]), random.percent(50));
    let mut tokens: Vec<String> = Vec::new();
    for _ in 0..lines {
        tokens.push(random.pick(&["2 0", "64 2 0", "2 1 0", "3 2 0"]).into());
        if striking {
            tokens.push(format!("d {}", tokens[tokens.len() - 1]));
        }
    }
    // `7 -8 9` has nodes of its own, which are not made once 22 is given.
    let last = ["0", "1 -1 0", "2", "d 2 0", "65 0", "x", "d 1 2 0", "-64 0", "2 0 0", "2 7 -8 9 0", "7 -8 9 0"];
    tokens.push(random.pick(&last).into());
    let text = strewn(random, &tokens);
    vec![command(random, 4096, &formula.text(), &text)]
}

#[cfg(test)]
mod tests {
    use super::*;
    use crate::clausal::{says, Asked};
    use crate::read::Form;

    const TEXT: Asked = Asked { form: Form::Text, consequence: false };

    /// Among the small texts all endings are often: refuted, 17, 19, 20 and 28; RAT clauses and strikings stand in many.
    #[test]
    fn small_texts() {
        let random = &mut Random::new(1);
        let (mut numbers, mut by_rat, mut struck, mut told) = ([0; 32], 0, 0, 0);
        for _ in 0..2_000 {
            let problem = small(random);
            let text = strewn(random, &problem.tokens());
            struck += usize::from(problem.steps.iter().any(|step| step.strikes));
            if let Some(said) = says(TEXT, &problem.formula.text(), &text) {
                told += 1;
                numbers[usize::from(said.number)] += 1;
                by_rat += usize::from(said.by_rat > 0);
            }
        }
        assert!(told > 1_200 && struck > 400 && by_rat > 200, "{told} {struck} {by_rat}");
        assert!(numbers[0] > 300 && numbers[19] > 100 && numbers[20] > 300 && numbers[28] > 20, "{numbers:?}");
    }

    /// Every fault of a token comes, and 22.
    #[test]
    fn faults() {
        let random = &mut Random::new(1);
        let mut numbers = [0; 32];
        let commands: Vec<String> = (0..400).flat_map(|_| faulty_tokens(random)).collect();
        let limits: Vec<String> = (0..60).flat_map(|_| limits(random)).collect();
        for command in commands.iter().chain(&limits) {
            let answer = "0 0 0 0 2 2 | - | 2 | 0";
            if let Some((said, _)) = crate::clausal::hold(command, answer) {
                numbers[usize::from(said.number)] += 1;
            }
        }
        assert!([3, 4, 6, 22].iter().all(|number| numbers[*number] > 10), "{numbers:?}");
    }
}
