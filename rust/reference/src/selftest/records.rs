//! Checks of proofs in records.

use super::model::*;
use super::*;

/// Records that make a function, its children first; the entry that holds it.
fn make(f: Function, entries: &mut Vec<Function>, steps: &mut Vec<Step>) -> u16 {
    if let Some(at) = entries.iter().position(|&other| other == f) {
        return at as u16;
    }
    let v = Model::root(f);
    let low = make(under(f, Literals { yes: 0, no: bit(v) }), entries, steps);
    let high = make(under(f, Literals { yes: bit(v), no: 0 }), entries, steps);
    steps.push(Step::Node(v, low, high));
    entries.push(f);
    entries.len() as u16 - 1
}

/// A proof of lines that often, not always, follow.
fn proof(random: &mut Random, variables: u32, clauses: &[Function]) -> Vec<Step> {
    let mut members = clauses.to_vec();
    let mut steps = Vec::new();
    for _ in 0..random.below(5) {
        let mut entries = vec![0, ALL];
        let mut g = 0;
        for _ in 0..1 + random.below(3) {
            g |= !members.get(random.below(members.len() as u64 + 1) as usize).copied().unwrap_or(ALL);
        }
        g = !g | if random.one_in(3) { random_clause(random, variables).1 } else { 0 };
        if random.one_in(4) {
            g = random_clause(random, variables).1;
        }
        let mut root = make(g, &mut entries, &mut steps);
        if random.one_in(6) {
            let (step, f) = tally(random, variables);
            steps.push(step);
            entries.push(f);
            (g, root) = (f, entries.len() as u16 - 1);
        }
        if random.one_in(8) {
            steps.push(noise(random));
        }
        let rule = [Rule::Rup, Rule::Rup, Rule::Pr, Rule::Pr, Rule::Path][random.below(5) as usize];
        for v in 1..=variables {
            if rule == Rule::Pr && random.one_in(2) {
                steps.push(Step::Witness(v, under(g, Literals { yes: bit(v), no: 0 }) == ALL || random.one_in(2)));
            }
        }
        steps.push(Step::Line(root, rule));
        members.push(g);
        if random.one_in(3) {
            steps.push(Step::Strike(random.below(members.len() as u64) as u16));
        }
    }
    if !random.one_in(3) {
        steps.push(Step::Line(0, if random.one_in(4) { Rule::Path } else { Rule::Rup }));
    }
    steps.push(Step::End);
    steps
}

fn tally(random: &mut Random, variables: u32) -> (Step, Function) {
    let set = random.below(1 << variables);
    let (least, odd) = (random.below(6) as u8, random.below(2) as u8);
    if random.one_in(2) {
        (Step::AtLeast(set, least), at_least(set, least))
    } else {
        (Step::Parity(set, odd), parity(set, odd))
    }
}

fn noise(random: &mut Random) -> Step {
    let entry = |random: &mut Random| random.below(8) as u16;
    match random.below(7) {
        0 => Step::Witness(random.below(6) as u32, random.one_in(2)),
        1 => Step::Line(entry(random), [Rule::Rup, Rule::Pr, Rule::Path][random.below(3) as usize]),
        2 => Step::Strike(random.below(12) as u16),
        3 => Step::AtLeast(random.below(20), random.below(6) as u8),
        4 => Step::Parity(random.below(20), random.below(3) as u8),
        _ => Step::Node(random.below(6) as u32, entry(random), entry(random)),
    }
}

/// A formula that is well written, and a proof.
pub(super) struct Given {
    pub(super) variables: u32,
    pub(super) clauses: Vec<Function>,
    pub(super) text: String,
    pub(super) steps: Vec<Step>,
    pub(super) size: usize,
}

impl Given {
    pub(super) fn random(random: &mut Random) -> Given {
        let variables = 1 + random.below(N as u64) as u32;
        let made: Vec<_> = (0..random.below(9)).map(|_| random_clause(random, variables)).collect();
        let clauses: Vec<Function> = made.iter().map(|clause| clause.1).collect();
        let steps = proof(random, variables, &clauses);
        let size = if random.one_in(2) { 200 } else { 2 + random.below(40) as usize };
        Given { variables, text: formula(random, variables, &made), clauses, steps, size }
    }

    pub(super) fn proof(&self) -> Vec<u8> {
        self.steps.iter().flat_map(|&step| bytes(step)).collect()
    }

    /// The words after the name of a command that checks it.
    pub(super) fn words(&self) -> String {
        format!("{} 2048 4096 {} {}", self.size, hex(self.text.as_bytes()), hex(&self.proof()))
    }

    pub(super) fn models(&self) -> Function {
        self.clauses.iter().fold(ALL, |all, clause| all & clause)
    }

    /// The model after the first refusal or the end, its number and place; none where a clause finds no room.
    pub(super) fn judged(&self, cons: bool) -> Option<(u32, usize, Model)> {
        let mut model = opened(self.variables, self.size, &self.clauses)?;
        model.cons = cons;
        let mut place = 0;
        for &step in &self.steps {
            if let Err(number) = model.take(step) {
                return Some((number, place, model));
            }
            place += bytes(step).len();
        }
        unreachable!("every proof has an end record")
    }
}

/// Whether an answer is 8 as it must be.
fn no_room(said: &str, size: usize) -> bool {
    said.starts_with("8 ") && said.ends_with(&format!("0 0 2 {size} | - | - | -"))
}

#[test]
fn checks_are_what_the_rules_say_and_0_is_said_of_nothing_satisfiable() {
    let mut random = Random(0xC0FFEE);
    let mut d = Session::new();
    let mut seen = [0u32; 36];
    let (mut accepted_pr, mut refuted_struck) = (0, 0);
    for _ in 0..40_000 {
        let given = Given::random(&mut random);
        let line = format!("check {}", given.words());
        let said = ask(&mut d, &line);
        match given.judged(false) {
            Some((number, place, model)) => assert_eq!(said, report(number, place, model), "{line}"),
            None => assert!(no_room(&said, given.size), "{line}"),
        }
        let number: usize = said.split(' ').next().unwrap().parse().unwrap();
        seen[number] += 1;
        accepted_pr += (number == 0 && given.proof().contains(&0x50)) as u32;
        refuted_struck += (number == 0 && given.proof().contains(&0x44)) as u32;
        assert!(number != 0 || given.models() == 0, "0 said of a satisfiable formula: {line}");
    }
    for number in [0, 8, 12, 13, 14, 15, 16, 17, 18, 19, 20, 23, 28, 29] {
        assert!(seen[number] > 20, "{number} seen {} times only", seen[number]);
    }
    assert!(accepted_pr > 50, "{accepted_pr}");
    assert!(refuted_struck > 50, "{refuted_struck}");
}

#[test]
fn in_the_profile_every_accepted_line_follows_from_the_formula() {
    let mut random = Random(0xC045);
    let mut d = Session::new();
    let (mut refused, mut followed, mut cut_off) = (0, 0, 0);
    for _ in 0..20_000 {
        let given = Given::random(&mut random);
        let line = format!("cons check {}", given.words());
        let said = ask(&mut d, &line);
        let Some((number, place, model)) = given.judged(true) else {
            assert!(no_room(&said, given.size), "{line}");
            continue;
        };
        assert!(model.members.iter().all(|member| given.models() & !member == 0), "{line}");
        followed += (given.models() != 0 && model.lines > 0) as u32;
        refused += (number == 33) as u32;
        assert_eq!(said, report(number, place, model), "{line}");
        let outside = ask(&mut d, line.strip_prefix("cons ").unwrap());
        let pr = given.steps.iter().any(|step| matches!(step, Step::Line(_, Rule::Pr)));
        assert!(pr || said == outside, "{line}");
        let (.., model) = given.judged(false).unwrap();
        cut_off += model.members.iter().any(|member| given.models() & !member != 0) as u32;
    }
    assert!(refused > 1_000 && followed > 1_000 && cut_off > 100, "{refused} {followed} {cut_off}");
}
