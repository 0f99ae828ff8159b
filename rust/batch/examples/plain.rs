//! What the cores allow: `plain FOLDER` checks the pairs of a folder in threads, with no digest, no result and no limit. It is the
//! measure that docs/BATCH.md compares `refute-all` with.

use batch::form::Form;
use batch::pairs::Found;
use cablesalak::{Mode, Workspace};
use std::path::{Path, PathBuf};
use std::sync::atomic::{AtomicUsize, Ordering};
use std::{env, fs, thread};

fn main() {
    let mut found = Found::default();
    found.look(Path::new(&env::args_os().nth(1).expect("plain FOLDER")));
    let (next, refuted) = (AtomicUsize::new(0), AtomicUsize::new(0));
    let work = || {
        let mut workspace = Workspace::new(4_096).expect("a size");
        while let Some(pair) = found.pairs.get(next.fetch_add(1, Ordering::Relaxed)) {
            let read = |path: &Option<PathBuf>| fs::read(path.as_ref().expect("a name")).expect("a file");
            let mode = match pair.form {
                Form::Records => Mode::RECORDS,
                Form::Text => Mode::TEXT,
                Form::Binary => Mode::BINARY,
            };
            let verdict = workspace.check(mode, &read(&pair.formula), &read(&pair.proof));
            refuted.fetch_add(usize::from(verdict.refuted()), Ordering::Relaxed);
        }
    };
    thread::scope(|scope| {
        for _ in 0..thread::available_parallelism().map_or(1, |cores| cores.get()) {
            scope.spawn(work);
        }
    });
    println!("{} of {}", refuted.into_inner(), found.pairs.len());
}
