//! The truth-table method held against the definitions, and against the check on diagrams.

use super::*;
use crate::truth::{self, Word, TRUE};

const SIX: u32 = truth::VARIABLES;

fn at(f: Word, assignment: u32) -> bool {
    f >> assignment & 1 == 1
}

fn word(values: impl Fn(u32) -> bool) -> Word {
    (0..64).filter(|&a| values(a)).fold(0, |f, a| f | 1 << a)
}

fn random_word(random: &mut Random) -> Word {
    random.below(1 << 32) << 32 | random.below(1 << 32)
}

fn weight(a: u32, b: u32) -> u32 {
    (1..=SIX).filter(|v| (a ^ b) >> (v - 1) & 1 == 1).map(|v| 1 << (SIX - v)).sum()
}

#[test]
fn words_are_what_the_definitions_say() {
    let mut random = Random(0x7247);
    for _ in 0..2_000 {
        let (f, mut g) = (random_word(&mut random), random_word(&mut random) & random_word(&mut random));
        for _ in 0..random.below(6) {
            g &= random_word(&mut random);
        }
        let g = if g == 0 { 1 << random.below(64) } else { g };
        let closest = |a: u32| (0..64).filter(|&b| at(g, b)).min_by_key(|&b| weight(a, b)).unwrap();
        assert_eq!(truth::nearest(f, g), word(|a| at(f, closest(a))));
        let yes = random.below(64);
        let by = Literals { yes, no: random.below(64) & !yes };
        assert_eq!(truth::under(f, by), word(|a| at(f, (a | by.yes as u32) & !(by.no as u32))));
        let (set, least) = (random.below(64), random.below(9) as u8);
        let trues = |a: u32| (a & set as u32).count_ones();
        assert_eq!(truth::odd(set), word(|a| trues(a) % 2 == 1));
        assert_eq!(truth::at_least(set, least), word(|a| trues(a) >= least.into()));
        let h = truth::under(g, by) & g;
        let forced = |v: u32, value: bool| (0..64).all(|a| !at(h, a) || (a >> (v - 1) & 1 == 1) == value);
        let all = |value: bool| (1..=SIX).filter(|&v| forced(v, value)).fold(0, |set, v| set | bit(v));
        assert_eq!(truth::units(h), Literals { yes: all(true), no: all(false) });
        // Each assignment that makes a function false is on one path, and no other is on any.
        let on =
            |a: u32| truth::paths(g).iter().filter(|way| way.yes as u32 & !a == 0 && way.no as u32 & a == 0).count();
        assert!((0..64).all(|a| on(a) == !at(g, a) as usize));
    }
}

/// Records that make a function, and its entry.
fn make(f: Word, entries: &mut Vec<Word>, proof: &mut Vec<u8>) -> u16 {
    if let Some(entry) = entries.iter().position(|&other| other == f) {
        return entry as u16;
    }
    let v = truth::root(f).unwrap();
    let low = make(truth::under(f, Literals::default().with(v, false)), entries, proof);
    let high = make(truth::under(f, Literals::default().with(v, true)), entries, proof);
    let ([l0, l1], [h0, h1]) = (low.to_le_bytes(), high.to_le_bytes());
    proof.extend([0x4E, v as u8, l0, l1, h0, h1]);
    entries.push(f);
    entries.len() as u16 - 1
}

fn random_literals(random: &mut Random, variables: u32, one_in: u64) -> Literals {
    (1..=variables).fold(Literals::default(), |literals, v| match random.below(one_in) {
        0 => literals.with(v, true),
        1 => literals.with(v, false),
        _ => literals,
    })
}

/// A function that often follows from the members.
fn line(random: &mut Random, variables: u32, members: &[Word]) -> Word {
    match random.below(8) {
        0 | 3 | 4 => truth::clause(random_literals(random, variables, 5)),
        1 => random_word(random) & random_word(random) & random_word(random),
        2 => 0,
        _ => {
            let some = (0..1 + random.below(3)).map(|_| members[random.below(members.len() as u64) as usize]);
            let both = some.collect::<Vec<Word>>().into_iter().fold(TRUE, |all, f| all & f);
            let more = truth::clause(random_literals(random, variables, 5));
            both | if random.one_in(2) { more } else { 0 }
        }
    }
}

/// The function as one that names only the first variables.
fn narrowed(f: Word, variables: u32) -> Word {
    (variables + 1..=SIX).fold(f, |f, v| truth::under(f, Literals::default().with(v, false)))
}

fn push_line(random: &mut Random, variables: u32, members: &mut Vec<Word>, proof: &mut Vec<u8>) {
    let mut entries = vec![0, TRUE];
    let mut g = narrowed(line(random, variables, members), variables);
    let mut root = make(g, &mut entries, proof);
    if random.one_in(5) {
        let (set, last) = (random.below(1 << variables), random.below(4) as u8);
        let kind = if random.one_in(2) { 0x4B } else { 0x58 };
        proof.push(kind);
        proof.extend(set.to_le_bytes());
        proof.push(last);
        g = if kind == 0x4B { truth::at_least(set, last) } else { truth::odd(set) ^ (last as u64).wrapping_sub(1) };
        root = entries.len() as u16;
    }
    let kind = [0x52, 0x52, 0x51, 0x50][random.below(4) as usize];
    if kind == 0x50 || random.one_in(30) {
        push_witness(random, variables, g, proof);
    }
    proof.push(kind);
    proof.extend(root.to_le_bytes());
    members.push(g);
    if random.one_in(4) {
        proof.push(0x44);
        proof.extend((random.below(members.len() as u64) as u16).to_le_bytes());
    }
}

fn push_witness(random: &mut Random, variables: u32, g: Word, proof: &mut Vec<u8>) {
    let mut left = g;
    for v in 1..=variables {
        let value = truth::under(left, Literals::default().with(v, true)) != 0;
        if random.one_in(2) {
            left = truth::under(left, Literals::default().with(v, value));
            proof.extend([if value { 0x54 } else { 0x46 }, v as u8]);
        }
    }
}

/// A formula of up to six variables, now and then of seven, and a proof that is now and then damaged.
fn random_book(random: &mut Random) -> (String, Vec<u8>) {
    let variables = if random.one_in(100) { 7 } else { random.below(7) as u32 };
    let known = variables.min(SIX);
    let (number, sparse) = (random.below(30), 3 + random.below(5));
    let clauses: Vec<Literals> = (0..number).map(|_| random_literals(random, known, sparse)).collect();
    let mut text = format!("p cnf {variables} {}\n", clauses.len());
    for &literals in &clauses {
        let signed = |v: u32| if literals.yes & bit(v) != 0 { v as i32 } else { -(v as i32) };
        let written: Vec<i32> = (1..=known).filter(|&v| literals.variables() & bit(v) != 0).map(signed).collect();
        push_clause(random, &written, &mut text);
    }
    let mut members: Vec<Word> = clauses.iter().map(|&literals| truth::clause(literals)).collect();
    members.push(TRUE);
    let mut proof = Vec::new();
    for _ in 0..random.below(6) {
        push_line(random, known, &mut members, &mut proof);
    }
    if random.one_in(2) {
        proof.extend([if random.one_in(3) { 0x51 } else { 0x52 }, 0, 0]);
    }
    proof.push(0x45);
    if random.one_in(20) {
        proof.push(0x45);
    }
    if random.one_in(4) {
        let place = random.below(proof.len() as u64) as usize;
        let most = if random.one_in(2) { 8 } else { 256 };
        proof[place] = random.below(most) as u8;
    }
    (text, proof)
}

#[test]
fn the_small_method_says_what_the_check_says() {
    let mut random = Random(0x511A);
    let mut d = Session::new();
    let mut seen = [0u32; 36];
    let (mut lines, mut rounds) = (0, 0);
    for _ in 0..30_000 {
        let (text, proof) = random_book(&mut random);
        let (formula, proof) = (hex(text.as_bytes()), hex(&proof));
        let small = ask(&mut d, &format!("small 2048 4096 {formula} {proof}"));
        let check = ask(&mut d, &format!("check 65536 2048 4096 {formula} {proof}"));
        if text.starts_with("p cnf 7") {
            assert_eq!(small, "2 0 0 0");
            continue;
        }
        assert!(check.starts_with(&format!("{small} ")), "{formula} {proof}\n{small}\n{check}");
        let numbers: Vec<usize> = small.split(' ').map(|word| word.parse().unwrap()).collect();
        seen[numbers[0]] += 1;
        lines += numbers[2];
        rounds += numbers[3];
    }
    for number in [0, 9, 10, 11, 12, 13, 14, 16, 17, 18, 19, 20, 28, 29] {
        assert!(seen[number] > 5, "{number} seen {} times only", seen[number]);
    }
    assert!(lines > 10_000 && rounds > 1_000, "{lines} {rounds}");
}
