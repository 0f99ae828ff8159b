//! Single calls and the facts of the nodes.

use super::*;
use crate::table::NodeId;

/// Number, node, count and table that a single call must give when its result is f.
fn expected(table: &Plain, f: Function) -> String {
    let mut after = table.clone();
    match after.build(f) {
        Ok(node) => format!("0 {node} {} | {}", after.nodes.len(), after.text()),
        Err(NoRoom) => format!("23 0 {} | {}", table.nodes.len(), table.text()),
    }
}

#[test]
fn single_calls_are_what_the_definitions_say() {
    let mut random = Random(0x5EED);
    let mut d = Session::new();
    for _ in 0..10_000 {
        let mut table = Plain::new(256);
        for _ in 0..1 + random.below(3) {
            let f = random.function() & if random.one_in(2) { ALL } else { random.function() };
            assert!(table.build(f).is_ok());
        }
        let count = table.nodes.len() as u64;
        table.size = (count + random.below(12)) as usize;
        let (f, g) = (random.below(count) as u32, random.below(count) as u32);
        let (ff, gg) = (table.function(f), table.function(g));
        let head = format!("{} {count} {}", table.size, table.text());
        assert_eq!(ask(&mut d, &format!("and {head} {f} {g}")), expected(&table, ff & gg));
        assert_eq!(ask(&mut d, &format!("not {head} {f}")), expected(&table, !ff));
        if gg != 0 {
            assert_eq!(ask(&mut d, &format!("cof {head} {f} {g}")), expected(&table, nearest(ff, gg)));
        }
        let yes = random.below(16);
        let by = Literals { yes, no: random.below(16) & !yes };
        let line = format!("lits {head} {f} {} {}", by.yes, by.no);
        assert_eq!(ask(&mut d, &line), expected(&table, under(ff, by)));
        let (set, least) = (random.below(16), random.below(6) as u8);
        let at_least = at_least(set, least);
        let answer = expected(&table, at_least);
        let shown = if answer.starts_with("23") { "-".into() } else { one_by_one(set, at_least).to_string() };
        let answer = answer.replacen(" |", &format!(" {shown} |"), 1);
        assert_eq!(ask(&mut d, &format!("atleast {head} {set} {least}")), answer);
        let word = random.below(16);
        let seen = value(ff, word as u32) as u32;
        assert_eq!(ask(&mut d, &format!("eval {head} {f} {word}")), format!("0 {seen} {count}"));
        for node in 0..count as u32 {
            facts_hold(&mut d.diagrams, &table, node, by);
        }
    }
}

/// How many assignments of a set, all else false, a function excludes.
fn one_by_one(set: u64, f: Function) -> usize {
    (0..16).filter(|&a| a as u64 & !set == 0 && !value(f, a)).count()
}

/// Units, the question for 1 and the tie to the negation, in the table loaded by the last call.
fn facts_hold(d: &mut Diagrams, table: &Plain, node: u32, by: Literals) {
    let f = table.function(node);
    let only = |l: Literals| Literals { yes: l.yes & 15, no: l.no & 15 };
    assert_eq!(only(d.table.units(NodeId(node))), units(f));
    assert_eq!(d.is_one_under(NodeId(node), by), under(f, by) == ALL);
    let negation = (0..table.nodes.len() as u32).find(|&other| table.function(other) == !f);
    assert_eq!(d.table.negation(NodeId(node)), negation.map(NodeId));
}

#[test]
fn units_are_read_from_both_branches() {
    // Example H: x2 and (x1 or x3), the root x1.
    let mut d = Diagrams::new();
    d.reset(16);
    let x2 = d.clause(Literals { yes: 2, no: 0 }).unwrap();
    let either = d.clause(Literals { yes: 5, no: 0 }).unwrap();
    let both = d.conjoin(x2, either).unwrap();
    assert_eq!(d.table.level(both), 1);
    assert_eq!(d.table.units(both), Literals { yes: 2, no: 0 });
}
