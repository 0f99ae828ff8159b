//! `refute-page RESULTS.. >PAGE.html`: a page for readers who read no code, of what `refute-all` wrote. It is one file, without script.
//!
//! Verdicts are the results'. Formulas and proofs are read again for their words, where their bytes are still those that were checked.

mod cause;
mod page;
mod pair;
mod question;
mod read;
mod refusal;
mod sentence;

use batch::check::VERSION;
use batch::record::{ARCHIVE, COMMIT};
use batch::worker::STACK;
use std::env;
use std::ffi::OsString;
use std::io::{self, Write};
use std::process::ExitCode;
use std::thread;

const USAGE: &str = "usage: refute-page RESULTS.. >PAGE.html
  RESULTS  files that refute-all wrote (-o, -r)
Run it in the folder in which refute-all was run: the names in RESULTS are relative to it.
Status: 0 the page is written; 2 wrong use; 3 a file could not be read or the page could not be written.";

fn write(text: &str) -> io::Result<()> {
    let mut out = io::stdout();
    out.write_all(text.as_bytes())?;
    out.flush()
}

fn main() -> ExitCode {
    let mut names: Vec<OsString> = env::args_os().skip(1).collect();
    if names == ["--version"] {
        let line = format!("refute-page {VERSION} commit {COMMIT} archive {ARCHIVE}\n");
        return ExitCode::from(if write(&line).is_ok() { 0 } else { 3 });
    }
    if names == ["--help"] {
        return ExitCode::from(if write(&format!("{USAGE}\n")).is_ok() { 2 } else { 3 });
    }
    let is_option = |name: &OsString| name.as_encoded_bytes().starts_with(b"-");
    if names.first().is_some_and(|name| name == "--") {
        names.remove(0);
    } else if names.iter().any(is_option) {
        names.clear();
    }
    if names.is_empty() {
        let _ = writeln!(io::stderr(), "{USAGE}");
        return ExitCode::from(2);
    }
    // On a stack that is enough for the library's calls, whatever `ulimit -s` says.
    let made = thread::Builder::new().stack_size(STACK).spawn(move || Ok(page::page(&read::read(&names)?)));
    let made = made.and_then(|made| made.join().unwrap_or(Err(io::ErrorKind::Other.into())));
    match made.and_then(|page| write(&page)) {
        Ok(()) => ExitCode::SUCCESS,
        Err(error) => {
            let _ = writeln!(io::stderr(), "refute-page: {error}");
            ExitCode::from(3)
        }
    }
}
