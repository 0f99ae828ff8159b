//! `refute FORMULA PROOF`: prints the proved library's line on two files, `number place lines rounds peak`, and ends with its status: 0 refuted
//! (number 0), 1 refused, 2 a file was not taken; 3 where the line could not be written. A refusal's meaning goes to standard error.

use cablesalak::{report, LONGEST};
use std::env;
use std::ffi::OsStr;
use std::fs::File;
use std::io::{self, Read, Write};
use std::process::ExitCode;

/// A file's bytes, or nothing where it cannot be read. One byte more than a file may have tells that it is too long.
fn read(name: &OsStr) -> Option<Vec<u8>> {
    let mut bytes = Vec::new();
    let file = File::open(name).ok()?;
    file.take(LONGEST as u64 + 1).read_to_end(&mut bytes).ok()?;
    Some(bytes)
}

fn main() -> ExitCode {
    let names: Vec<_> = env::args_os().skip(1).collect();
    if names.len() > 2 {
        eprintln!("refute FORMULA PROOF");
        return ExitCode::from(2);
    }
    // A name not given is a file that cannot be read. The formula is read first.
    let formula = names.first().and_then(|name| read(name));
    let proof = names.get(1).and_then(|name| read(name));
    let said = report(formula.as_deref(), proof.as_deref());
    let mut out = io::stdout();
    if out
        .write_all(said.line().as_bytes())
        .and_then(|()| out.flush())
        .is_err()
    {
        return ExitCode::from(3);
    }
    if said.status() != 0 {
        // Words only: the line is out, so that they may fail.
        let _ = writeln!(io::stderr(), "refused: {}", said.number());
    }
    ExitCode::from(said.status())
}
