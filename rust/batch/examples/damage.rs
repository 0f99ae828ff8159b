//! `damage FROM TO COUNT SEED`: writes so many pairs to a new folder, each made from a pair of the folder FROM and damaged at random.

#[path = "../tests/common/damage.rs"]
mod damage;

use std::path::Path;
use std::{env, io};

fn main() -> io::Result<()> {
    let words: Vec<String> = env::args().skip(1).collect();
    let [from, to, count, seed] = &words[..] else { panic!("damage FROM TO COUNT SEED") };
    damage::damage(Path::new(from), Path::new(to), count.parse().expect("a count"), seed.parse().expect("a seed"))
}
