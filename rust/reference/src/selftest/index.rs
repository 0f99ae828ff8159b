//! The lent index.

use super::*;
use crate::index::Index;

/// The chain of a head: its nodes, "from the highest number down".
fn chain(table: &Plain, head: u64) -> Vec<u32> {
    let key = |[v, low, high]: [u32; 3]| v as u64 + low as u64 * 12_582_917 + high as u64 * 4_256_249;
    let here = |at: &u32| key(table.nodes[*at as usize]) % (1 << 32) % (2 * table.size as u64) == head;
    (2..table.nodes.len() as u32).rev().filter(here).collect()
}

fn index_by_chains(table: &Plain) -> Index {
    let mut index = Index { heads: vec![0; 2 * table.size], links: vec![0; table.size] };
    for head in 0..index.heads.len() {
        let chain = chain(table, head as u64);
        index.heads[head] = chain.first().copied().unwrap_or(0);
        for pair in chain.windows(2) {
            index.links[pair[0] as usize] = pair[1];
        }
    }
    index
}

#[test]
fn a_lent_index_is_right_only_with_every_chain_from_the_highest_number_down() {
    let mut random = Random(0x1DE);
    let mut d = Session::new();
    let mut longest = 0;
    for _ in 0..300 {
        let mut table = Plain::new(256);
        for _ in 0..random.below(4) {
            assert!(table.build(random.function()).is_ok());
        }
        table.size = table.nodes.len() + random.below(4) as usize;
        let head = format!("{} {} {}", table.size, table.nodes.len(), table.text());
        ask(&mut d, &format!("not {head} 0"));
        let right = index_by_chains(&table);
        assert_eq!(Index::of(&d.diagrams.table, table.size), right);
        longest = (0..2 * table.size as u64).map(|head| chain(&table, head).len()).chain([longest]).max().unwrap();
        for _ in 0..40 {
            let (name, list) = if random.one_in(2) { ('H', &right.heads) } else { ('L', &right.links) };
            let at = random.below(list.len() as u64 + 1);
            let there = list.get(at as usize).copied();
            let value = if random.one_in(2) { there.unwrap_or(0) } else { random.below(table.size as u64) as u32 };
            let said = ask(&mut d, &format!("eval {head} 1 0 !{name}:{at}={value}"));
            let number = if there.is_some_and(|there| there != value) { "26 0" } else { "0 1" };
            assert_eq!(said, format!("{number} {}", table.nodes.len()));
        }
    }
    assert!(longest >= 3, "{longest}");
}

#[test]
fn an_index_key_runs_over_the_top() {
    // Many nodes of variable 2, and those of variable 1 over them: both products pass 32 bits.
    let mut table = Plain::new(4_096);
    let mut place = |v, low, high| table.place(v, low, high).ok().unwrap();
    let leaves: Vec<u32> = (3..=64).map(|v| place(v, 0, 1)).collect();
    for &low in &leaves {
        for &high in leaves.iter().step_by(4).filter(|&&high| high != low) {
            let middle = place(2, low, high);
            place(1, middle, 0);
            place(1, 0, middle);
        }
    }
    let product = |child: u32, factor: u64| child as u64 * factor >= 1 << 32;
    assert!(table.nodes.iter().any(|node| product(node[1], 12_582_917)));
    assert!(table.nodes.iter().any(|node| product(node[2], 4_256_249)));
    let mut d = Session::new();
    ask(&mut d, &format!("not {} {} {} 0", table.size, table.nodes.len(), table.text()));
    assert_eq!(d.diagrams.table.count(), table.nodes.len());
    assert_eq!(Index::of(&d.diagrams.table, table.size), index_by_chains(&table));
}
