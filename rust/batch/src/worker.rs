//! A worker: a process that checks pair after pair. Its standard input is the pipe of tasks that all workers take from, its standard output
//! the pipe of messages.

use crate::check::{Checker, Settings};
use crate::list::{Entries, Task};
use crate::message::Message;
use std::ffi::OsString;
use std::fs::File;
use std::io::{self, Read, Write};
use std::os::fd::AsFd;
use std::os::unix::process::parent_id;
use std::process;
use std::thread;
use std::time::Duration;

/// Enough for a check, whose calls take less than 1.25 MiB, whatever `ulimit -s` says.
pub const STACK: usize = 4 << 20;
/// How often a worker looks whether its pool is still there.
const LOOK: Duration = Duration::from_millis(250);
/// The first word of a worker's command line.
pub const WORD: &str = "--worker";

/// What a worker is started with.
#[derive(Clone, Copy, Debug, PartialEq, Eq)]
pub struct Start {
    /// The pool's process, and the number of the list's file in it.
    pub pool: u32,
    pub list: i32,
    pub settings: Settings,
    pub worker: u32,
}

impl Start {
    /// The words of the command line.
    pub fn words(&self) -> [String; 7] {
        let Start { pool, list, settings: Settings { places, consequence, twice }, worker } = self;
        [
            WORD.into(),
            pool.to_string(),
            list.to_string(),
            places.to_string(),
            consequence.to_string(),
            twice.to_string(),
            worker.to_string(),
        ]
    }

    pub fn read(words: &[OsString]) -> Option<Start> {
        let words: Vec<&str> = words.iter().map(|word| word.to_str()).collect::<Option<_>>()?;
        let [WORD, pool, list, places, consequence, twice, worker] = words[..] else { return None };
        let (consequence, twice) = (consequence.parse().ok()?, twice.parse().ok()?);
        let settings = Settings { places: places.parse().ok()?, consequence, twice };
        Some(Start { pool: pool.parse().ok()?, list: list.parse().ok()?, settings, worker: worker.parse().ok()? })
    }
}

/// Works until there is no task left, or the pool is gone.
pub fn work(start: Start) -> io::Result<()> {
    let entries = Entries::open(start.pool, start.list)?;
    thread::spawn(move || end_with(start.pool));
    let checking = thread::Builder::new().stack_size(STACK).spawn(move || check_all(start, entries))?;
    checking.join().unwrap_or(Err(io::ErrorKind::Other.into()))
}

/// Ends the process once its parent is no longer the pool: a long check shall not outlive it.
fn end_with(pool: u32) {
    while parent_id() == pool {
        thread::sleep(LOOK);
    }
    process::exit(1);
}

fn check_all(start: Start, mut entries: Entries) -> io::Result<()> {
    // Without a buffer: a task that is taken is taken from all others.
    let mut tasks = File::from(io::stdin().as_fd().try_clone_to_owned()?);
    let mut out = File::from(io::stdout().as_fd().try_clone_to_owned()?);
    let mut checker = Checker::new(start.settings).ok_or(io::ErrorKind::InvalidInput)?;
    let worker = start.worker;
    let mut answered = None;
    while let Some(task) = next(&mut tasks)? {
        out.write_all(&Message::Turn { worker, answered, begun: Some(task.pair) }.packed())?;
        let (pair, known) = entries.read(task)?;
        answered = Some((task.pair, checker.check(&pair, &known)));
    }
    out.write_all(&Message::Turn { worker, answered, begun: None }.packed())
}

/// The next task; none at the pipe's end.
fn next(tasks: &mut File) -> io::Result<Option<Task>> {
    let mut bytes = [0; Task::BYTES];
    match tasks.read(&mut bytes)? {
        0 => Ok(None),
        Task::BYTES => Ok(Some(Task::unpacked(bytes))),
        _ => Err(io::ErrorKind::UnexpectedEof.into()),
    }
}
