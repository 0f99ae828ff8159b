//! A checker of diagram refutations that is not proved, to hold the proved library against. It renders
//! documents 01 and 02 directly. A filter: one command a line, one answer a command.

mod binary;
mod books;
mod check;
mod convert;
mod dimacs;
mod drat;
mod index;
mod judge;
mod operate;
mod paths;
mod protocol;
mod records;
mod rules;
#[cfg(test)]
mod selftest;
mod single;
mod small;
mod table;
mod tally;
mod truth;
mod why;
mod words;

use std::io::{self, BufRead, BufReader, BufWriter, Write};

fn main() -> io::Result<()> {
    let mut input = BufReader::with_capacity(1 << 16, io::stdin().lock());
    let mut output = BufWriter::new(io::stdout().lock());
    let mut session = protocol::Session::new();
    let (mut line, mut out) = (Vec::new(), Vec::new());
    loop {
        // The other side may be waiting, unless its next whole command is here already.
        if !input.buffer().contains(&b'\n') {
            output.flush()?;
        }
        line.clear();
        if input.read_until(b'\n', &mut line)? == 0 {
            return output.flush();
        }
        let command = line.strip_suffix(b"\n").unwrap_or(&line);
        if command.is_empty() {
            continue;
        }
        out.clear();
        protocol::answer(&mut session, command, &mut out);
        out.push(b'\n');
        output.write_all(&out)?;
    }
}
