//! The batch's lines are those of the proved call `report`, on pairs damaged at random, in every form, in both profiles and by both methods.
//! `examples/test-batch` compares them with the programs' lines.

mod common;
#[path = "common/damage.rs"]
mod damage;

use cablesalak::{Form, Mode, Workspace};
use common::{all, folder, EXAMPLES};
use std::collections::{BTreeMap, BTreeSet};
use std::env;
use std::fs;
use std::path::Path;

/// How many pairs: 1,000, or what the variable PAIRS says.
fn pairs() -> usize {
    env::var("PAIRS").map_or(1_000, |count| count.parse().expect("a number"))
}

fn compare(folder: &Path, consequence: bool) -> BTreeSet<String> {
    let words: &[&str] = if consequence { &["--consequence", "pairs"] } else { &["pairs"] };
    let said = all(folder, words);
    assert_eq!((said.status, said.lines.len()), (Some(2), pairs()), "{}", said.error);
    let mut workspace = Workspace::new(4_096).unwrap();
    let mut numbers = BTreeSet::new();
    for line in &said.lines {
        let [line, formula, proof] = line.split('\t').collect::<Vec<_>>()[..] else { panic!("{line}") };
        let form = match Path::new(proof).extension().and_then(|ending| ending.to_str()) {
            Some("drat") => Form::Text,
            Some("bdrat") => Form::Binary,
            _ => Form::Records,
        };
        let read = |name: &str| fs::read(folder.join(name)).ok();
        let proof_bytes = read(proof).filter(|_| !proof.is_empty());
        let report = workspace.report(Mode { form, consequence }, read(formula).as_deref(), proof_bytes.as_deref());
        assert_eq!(line, report.to_string(), "{formula} {proof} {consequence}");
        numbers.insert(line.split(' ').next().unwrap().to_string());
    }
    numbers
}

/// By both methods: the lines are those of the check over diagrams, but for what cannot be checked twice.
fn compare_twice(folder: &Path) {
    let files = |line: &str| line.split_once('\t').map(|(_, files)| files.to_string()).unwrap();
    let once: BTreeMap<String, String> =
        all(folder, &["pairs"]).lines.into_iter().map(|line| (files(&line), line)).collect();
    let said = all(folder, &["--twice", "pairs"]);
    assert_eq!((said.status, said.lines.len()), (Some(2), once.len()), "{}", said.error);
    let mut numbers = BTreeMap::new();
    for line in &said.lines {
        match line.strip_prefix("- ") {
            Some(why) if why.starts_with("not twice: no records") => assert!(!line.ends_with(".proof"), "{line}"),
            Some(why) => assert!(why.starts_with("not twice: over six variables"), "{line}"),
            None => {
                assert_eq!(line, &once[&files(line)]);
                *numbers.entry(line.split(' ').next().unwrap()).or_insert(0) += 1;
            }
        }
    }
    assert!(numbers.len() > 10 && numbers["0"] > pairs() / 100, "{numbers:?}");
}

#[test]
fn lines_are_the_proved_calls() {
    let folder = folder("lines");
    damage::damage(Path::new(EXAMPLES), &folder.join("pairs"), pairs(), 1).unwrap();
    compare_twice(&folder);
    let (outside, inside) = (compare(&folder, false), compare(&folder, true));
    assert!(outside.len() > 18, "{outside:?}");
    for number in ["0", "9", "19", "24", "25", "28", "31", "33"] {
        assert!(inside.contains(number), "{number}: {inside:?}");
    }
}
