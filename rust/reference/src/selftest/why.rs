//! What `why` shows of a refused check in records.

use super::model::*;
use super::records::Given;
use super::*;

/// The step at a place of the proof, which a refusal names.
fn step_at(given: &Given, place: usize) -> Step {
    let mut start = 0;
    for &step in &given.steps {
        if start == place {
            return step;
        }
        start += bytes(step).len();
    }
    unreachable!("a place within the proof")
}

fn wanted(given: &Given, number: u32, place: usize, model: &Model) -> String {
    if number == 0 {
        return "30 | f 0 0 | -".into();
    }
    let step = step_at(given, place);
    let cause = match (number, step) {
        (14, Step::Node(v, low, high)) => model.not_before(v, low, high),
        (18, Step::Line(root, _)) => model.falsified(root),
        (19, _) => model.unshown(),
        _ => "-".into(),
    };
    format!("{number} | p {place} {} | {cause}", bytes(step).len())
}

#[test]
fn causes_are_those_of_the_definitions() {
    let mut random = Random(0x3A4);
    let mut d = Session::new();
    let mut seen = [0u32; 36];
    let (mut with_rounds, mut with_member) = (0, 0);
    for _ in 0..40_000 {
        let given = Given::random(&mut random);
        let cons = random.one_in(4);
        let line = format!("{}why r {}", if cons { "cons " } else { "" }, given.words());
        let said = ask(&mut d, &line);
        let Some((number, place, model)) = given.judged(cons) else {
            assert!(said.starts_with("8 | f "), "{line}");
            continue;
        };
        assert_eq!(said, wanted(&given, number, place, &model), "{line}");
        seen[number as usize] += 1;
        let fixed = said.rsplit(" | ").next().unwrap().split(' ').next().unwrap();
        with_rounds += (number == 19 && fixed != "-") as u32;
        with_member += said.contains('m') as u32;
    }
    for number in [0, 12, 13, 14, 15, 16, 17, 18, 19, 20, 23, 28, 29, 33] {
        assert!(seen[number] > 20, "{number} seen {} times only", seen[number]);
    }
    assert!(with_rounds > 1_000 && with_member > 100, "{with_rounds} {with_member}");
}
