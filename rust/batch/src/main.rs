//! `refute-all [OPTIONS] FOLDER|MANIFEST..`: checks many pairs of a formula and a proof on all cores.

mod options;
mod progress;
mod run;

use batch::check::VERSION;
use batch::pairs::Found;
use batch::record::{ARCHIVE, COMMIT, SMALL_ARCHIVE};
use batch::worker::{self, Start};
use options::{Options, USAGE};
use std::env;
use std::ffi::OsString;
use std::io::{self, Write};
use std::process::ExitCode;

fn main() -> ExitCode {
    let words: Vec<OsString> = env::args_os().skip(1).collect();
    if words.first().is_some_and(|word| word == worker::WORD) {
        let done = Start::read(&words).map(worker::work);
        return ExitCode::from(u8::from(!matches!(done, Some(Ok(())))));
    }
    match Options::read(words.into_iter()) {
        None => explain(2, USAGE),
        // 0 is kept for what is refuted.
        Some(options) if options.help => print(2, USAGE),
        Some(options) if options.version => {
            print(0, &format!("refute-all {VERSION} commit {COMMIT} archive {ARCHIVE} small archive {SMALL_ARCHIVE}"))
        }
        Some(options) => check(&options),
    }
}

/// Words on standard error, and the status.
fn explain(status: u8, what: impl std::fmt::Display) -> ExitCode {
    let _ = writeln!(io::stderr(), "{what}");
    ExitCode::from(status)
}

/// A text on standard output, and the status; 3 where it cannot be written.
fn print(status: u8, what: &str) -> ExitCode {
    match writeln!(io::stdout(), "{what}") {
        Ok(()) => ExitCode::from(status),
        Err(_) => ExitCode::from(3),
    }
}

fn check(options: &Options) -> ExitCode {
    let mut found = Found::default();
    options.names.iter().for_each(|name| found.look(name));
    for fault in &found.faults {
        let _ = writeln!(io::stderr(), "refute-all: {fault}");
    }
    let pairs = match options.part {
        None => found.pairs,
        Some((k, n)) => found.pairs.into_iter().skip(k - 1).step_by(n).collect(),
    };
    match run::run(options, &pairs, &found.faults) {
        Ok(counts) if counts.pairs() == 0 => explain(2, "refute-all: no pairs"),
        Ok(counts) => ExitCode::from(counts.status()),
        Err(error) => explain(3, format_args!("refute-all: {error}")),
    }
}
