//! DRAT proofs, in text and in binary.

use super::model::*;
use super::*;

/// A clause with its literals in any order, some twice, now and then with both signs of a variable.
fn written_clause(random: &mut Random, variables: u32) -> Vec<i32> {
    let mut literals = random_clause(random, variables).0;
    for _ in 0..random.below(3) {
        if let Some(&literal) = literals.get(random.below(4) as usize) {
            literals.push(if random.one_in(8) { -literal } else { literal });
        }
    }
    for at in (1..literals.len()).rev() {
        literals.swap(at, random.below(at as u64 + 1) as usize);
    }
    literals
}

/// A DRAT proof in both forms, with the places of its clauses in each.
#[derive(Default)]
pub(super) struct Written {
    pub(super) text: String,
    pub(super) binary: Vec<u8>,
    places: Vec<(usize, usize)>,
    /// Where each clause ends, its 0 included.
    ends: Vec<(usize, usize)>,
}

impl Written {
    pub(super) fn new(random: &mut Random) -> Written {
        Written { text: between(random).to_string(), ..Default::default() }
    }

    pub(super) fn push(&mut self, random: &mut Random, strikes: bool, literals: &[i32]) {
        self.places.push((self.text.len(), self.binary.len()));
        if strikes {
            self.text.push_str(&format!("d{}", between(random)));
        }
        for literal in literals {
            self.text.push_str(&format!("{literal}{}", between(random)));
        }
        self.text.push('0');
        let text_end = self.text.len();
        self.text.push_str(between(random));
        self.binary.push(if strikes { b'd' } else { b'a' });
        self.binary.extend(literals.iter().map(|&l| (2 * l.unsigned_abs()) as u8 + (l < 0) as u8));
        self.binary.push(0);
        self.ends.push((text_end, self.binary.len()));
    }

    /// What `why` shows of a clause that is refused, or of the end.
    fn shown(&self, places: (usize, usize)) -> (String, String) {
        let step = self.places.iter().position(|&other| other == places);
        let ends = step.map_or(places, |step| self.ends[step]);
        let part = |start, end| format!("p {start} {}", end - start);
        (part(places.0, ends.0), part(places.1, ends.1))
    }
}

/// A clause to be struck is now and then one of the formula.
fn random_step(random: &mut Random, variables: u32, made: &[(Vec<i32>, Function)], last: bool) -> (bool, Vec<i32>) {
    let strikes = random.one_in(4);
    let literals = written_clause(random, variables);
    match made.get(random.below(12) as usize) {
        Some((same, _)) if strikes => (true, same.iter().rev().copied().collect()),
        _ if last && !strikes => (false, Vec::new()),
        _ => (strikes, literals),
    }
}

/// A formula, a DRAT proof and the model after its first refusal or its end.
struct Case {
    cons: bool,
    size: usize,
    clauses: Vec<Function>,
    formula: String,
    proof: Written,
    /// The number, the places in text and in binary, the model; none where a clause of the formula finds no room.
    judged: Option<(u32, (usize, usize), Model)>,
}

impl Case {
    fn random(random: &mut Random) -> Case {
        let variables = 1 + random.below(N as u64) as u32;
        let made: Vec<_> = (0..random.below(10)).map(|_| random_clause(random, variables)).collect();
        let clauses: Vec<Function> = made.iter().map(|clause| clause.1).collect();
        let size = if random.one_in(2) { 200 } else { 2 + random.below(40) as usize };
        let cons = random.one_in(4);
        let mut proof = Written::new(random);
        let steps: Vec<_> = (0..random.below(8)).map(|step| random_step(random, variables, &made, step > 4)).collect();
        steps.iter().for_each(|(strikes, literals)| proof.push(random, *strikes, literals));
        let formula = hex(formula(random, variables, &made).as_bytes());
        let judged = opened(variables, size, &clauses).map(|mut model| {
            model.cons = cons;
            judged(model, &steps, &proof)
        });
        Case { cons, size, clauses, formula, proof, judged }
    }

    fn line(&self, name: &str, proof: &[u8]) -> String {
        let cons = if self.cons { "cons " } else { "" };
        format!("{cons}{name} {} 2048 4096 {} {}", self.size, self.formula, hex(proof))
    }
}

fn judged(mut model: Model, steps: &[(bool, Vec<i32>)], proof: &Written) -> (u32, (usize, usize), Model) {
    for ((strikes, literals), &places) in steps.iter().zip(&proof.places) {
        let taken = if *strikes { model.strike(literals) } else { model.add(literals) };
        if let Err(number) = taken {
            return (number, places, model);
        }
    }
    (if model.refuted { 0 } else { 20 }, (proof.text.len(), proof.binary.len()), model)
}

#[test]
fn drat_proofs_are_what_the_two_tries_say() {
    let mut random = Random(0xD2A7);
    let mut session = Session::new();
    let mut seen = [0u32; 32];
    for _ in 0..20_000 {
        let case = Case::random(&mut random);
        let (text, binary) = (case.proof.text.as_bytes(), &case.proof.binary);
        let [t, b, why_t, why_b] = [("drat", text), ("dratb", binary), ("why t", text), ("why b", binary)]
            .map(|(name, proof)| ask(&mut session, &case.line(name, proof)));
        let line = case.line("drat", text);
        let Some((number, places, model)) = case.judged else {
            assert!(t.starts_with("8 ") && b == t && why_t.starts_with("8 | f ") && why_b == why_t, "{line}");
            continue;
        };
        let cause = if number == 19 { model.unshown() } else { "-".into() };
        let why = |part: String| match number {
            0 => "30 | f 0 0 | -".to_string(),
            _ => format!("{number} | {part} | {cause}"),
        };
        let shown = case.proof.shown(places);
        assert_eq!((why_t, why_b), (why(shown.0), why(shown.1)), "{line}");
        let wanted = report(number, places.0, model);
        assert_eq!(t, wanted, "{line}");
        let place = |place| format!("{number} {place} ");
        assert_eq!(b, wanted.replacen(&place(places.0), &place(places.1), 1), "{line}");
        let models = case.clauses.iter().fold(ALL, |all, clause| all & clause);
        assert!(number != 0 || models == 0, "0 said of a satisfiable formula: {line}");
        seen[number as usize] += 1;
    }
    for number in [0, 17, 19, 20, 23, 28] {
        assert!(seen[number] > 100, "{number} seen {} times only", seen[number]);
    }
}

/// RUP over clauses: with the clause's literals false, unit propagation makes some clause empty.
fn rup_over_clauses(clauses: &[Vec<i32>], clause: &[i32]) -> bool {
    let mut falsified: Vec<i32> = clause.to_vec();
    loop {
        if falsified.iter().any(|&literal| falsified.contains(&-literal)) {
            return true;
        }
        let left = |clause: &[i32]| -> Vec<i32> {
            let satisfied = clause.iter().any(|&l| falsified.contains(&-l));
            clause.iter().copied().filter(|l| !satisfied && !falsified.contains(l)).collect()
        };
        let falsifies = |clause: &Vec<i32>| clause.iter().all(|l| falsified.contains(l));
        if clauses.iter().any(falsifies) {
            return true;
        }
        let Some(unit) = clauses.iter().map(|clause| left(clause)).find(|left| left.len() == 1) else {
            return false;
        };
        falsified.push(-unit[0]);
    }
}

/// RAT over clauses: every resolvent on the pivot is RUP.
fn rat_over_clauses(clauses: &[Vec<i32>], clause: &[i32]) -> bool {
    let Some(pivot) = clause.first() else {
        return false;
    };
    clauses.iter().filter(|other| other.contains(&-pivot)).all(|other| {
        let mut resolvent = clause.to_vec();
        resolvent.extend(other.iter().filter(|&literal| *literal != -pivot));
        rup_over_clauses(clauses, &resolvent)
    })
}

#[test]
fn the_two_tries_accept_what_rup_and_rat_over_clauses_accept() {
    let mut random = Random(0xAA7);
    let mut d = Session::new();
    let mut seen = [0u32; 3];
    for _ in 0..20_000 {
        let variables = 1 + random.below(10) as u32;
        let made: Vec<_> = (0..random.below(14)).map(|_| wide_clause(&mut random, variables)).collect();
        let clause = wide_clause(&mut random, variables);
        let mut text = format!("p cnf {variables} {}\n", made.len());
        made.iter().for_each(|literals| push_clause(&mut random, literals, &mut text));
        let mut added = String::new();
        push_clause(&mut random, &clause, &mut added);
        let line = format!("drat 4096 2048 4096 {} {}", hex(text.as_bytes()), hex(added.as_bytes()));
        let said = ask(&mut d, &line);
        let (rup, rat) = (rup_over_clauses(&made, &clause), rat_over_clauses(&made, &clause));
        let number = if !rup && !rat { "19 0" } else { ["20", "0"][clause.is_empty() as usize] };
        assert!(said.starts_with(&format!("{number} ")), "{line}\n{text}\n{added}\n{said}");
        seen[if rup { 0 } else { 1 + rat as usize }] += 1;
    }
    assert!(seen.iter().all(|&times| times > 1_000), "{seen:?}");
}

/// At most three literals of different variables, in any order.
fn wide_clause(random: &mut Random, variables: u32) -> Vec<i32> {
    let mut literals: Vec<i32> = Vec::new();
    for _ in 0..random.below(4) {
        let v = 1 + random.below(variables as u64) as i32;
        if !literals.iter().any(|l| l.abs() == v) {
            literals.push(if random.one_in(2) { v } else { -v });
        }
    }
    literals
}
