//! Paths to 0, and what a path line says.

use super::model::paths_to_0;
use super::*;
use crate::paths::{self, Paths};
use crate::table::NodeId;

#[test]
fn paths_are_those_of_the_function_low_side_first() {
    let mut random = Random(0x9A75);
    let mut d = Session::new();
    for _ in 0..2_000 {
        let mut table = Plain::new(256);
        for _ in 0..2 {
            assert!(table.build(random.function() & random.function()).is_ok());
        }
        ask(&mut d, &format!("not {} {} {} 0", table.size, table.nodes.len(), table.text()));
        for node in 0..table.nodes.len() as u32 {
            let wanted = paths_to_0(table.function(node));
            let mut paths = Paths::new(NodeId(node));
            let given: Vec<Literals> = std::iter::from_fn(|| paths.next(&d.diagrams.table)).collect();
            assert_eq!(given, wanted);
            for most in 0..10 {
                assert_eq!(paths::more_than(&d.diagrams.table, NodeId(node), most), wanted.len() > most);
            }
        }
    }
}

/// All assignments along a path, and no other, make the line false; so what its paths show is so.
#[test]
fn an_accepted_path_line_follows_from_the_clauses() {
    let mut random = Random(0xFA7);
    let mut d = Session::new();
    let mut accepted = 0;
    for _ in 0..20_000 {
        let made: Vec<_> = (0..random.below(9)).map(|_| random_clause(&mut random, N)).collect();
        let set = random.below(16);
        let line = parity(set, 1);
        let mut text = format!("p cnf {N} {}\n", made.len());
        made.iter().for_each(|(literals, _)| push_clause(&mut random, literals, &mut text));
        let proof = [&[0x58], &set.to_le_bytes()[..], &[1, 0x51, 2, 0, 0x45]].concat();
        let said = ask(&mut d, &format!("check 200 2048 4096 {} {}", hex(text.as_bytes()), hex(&proof)));
        let models = made.iter().fold(ALL, |all, clause| all & clause.1);
        let passed = said.starts_with("20 13 1 ") || said.starts_with("0 13 1 ");
        assert!(passed || said.starts_with("19 10 0 "), "{said}");
        assert!(!passed || models & !line == 0);
        accepted += (passed && models != 0) as u32;
    }
    assert!(accepted > 100, "{accepted}");
}
