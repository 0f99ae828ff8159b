//! The words after the name of a program that compares: `[COUNT] [SEED] [--left COMMAND] [--right COMMAND]`.

use std::process::exit;

pub struct Options {
    pub count: usize,
    pub seed: u64,
    pub filters: [String; 2],
}

impl Options {
    /// What is given, else so many from seed 1 with the filters beside this program. Other words end it with status 2 and its usage.
    pub fn given(count: usize, usage: &str) -> Self {
        let beside = |name: &str| std::env::current_exe().unwrap().with_file_name(name).display().to_string();
        let refuse = || -> ! {
            eprintln!("usage: {usage} [SEED] [--left COMMAND] [--right COMMAND]");
            exit(2)
        };
        let mut options = Options { count, seed: 1, filters: [beside("driver"), beside("reference")] };
        let mut numbers = 0;
        let mut given = std::env::args().skip(1);
        while let Some(word) = given.next() {
            match (word.as_str(), numbers) {
                ("--left", _) => options.filters[0] = given.next().unwrap_or_else(|| refuse()),
                ("--right", _) => options.filters[1] = given.next().unwrap_or_else(|| refuse()),
                (number, 0) => options.count = number.parse().unwrap_or_else(|_| refuse()),
                (number, 1) => options.seed = number.parse().unwrap_or_else(|_| refuse()),
                _ => refuse(),
            }
            numbers += usize::from(!word.starts_with("--"));
        }
        options
    }
}
