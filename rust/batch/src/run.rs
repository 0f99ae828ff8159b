//! A run: from the pairs to lines, results and counts.

use crate::options::{Options, Results};
use crate::progress::Progress;
use batch::known::Known;
use batch::list::List;
use batch::pairs::Pair;
use batch::pool::{Observer, Outcome, Pool};
use batch::record::{self, Class, Counts};
use batch::results::{self, explained, Out};
use std::fs::File;
use std::io::{self, Stdout, Write};
use std::path::Path;

struct Run<'a> {
    pairs: &'a [Pair],
    known: &'a Known,
    file: Option<Out<File>>,
    lines: Option<Out<Stdout>>,
    progress: Progress,
    counts: Counts,
    /// How many pairs were known before.
    again: usize,
}

impl Observer for Run<'_> {
    fn outcome(&mut self, pair: u32, outcome: Outcome) -> io::Result<()> {
        let pair = &self.pairs[pair as usize];
        if let Outcome::Answered(answer) = outcome {
            if answer.known {
                let class = self.known.get(pair).map_or(Class::NoVerdict, |(_, class)| class);
                self.counts.add(class);
                self.again += 1;
                return Ok(());
            }
        }
        let class = Class::of(outcome.name());
        self.counts.add(class);
        if class == Class::Disagreed {
            self.alarm(pair, &outcome);
        }
        if let Some(file) = &mut self.file {
            record::put_pair(&mut file.held, pair, &outcome);
        }
        if let Some(lines) = &mut self.lines {
            record::put_line(&mut lines.held, pair, &outcome);
        }
        Ok(())
    }

    fn tick(&mut self) -> io::Result<()> {
        if let Some(file) = &mut self.file {
            file.flush()?;
        }
        if let Some(lines) = self.lines.as_mut().filter(|lines| !lines.held.is_empty()) {
            self.progress.clear();
            lines.flush()?;
        }
        self.progress.show(&self.counts);
        Ok(())
    }
}

impl Run<'_> {
    /// A disagreement is reported on standard error too, quiet or not.
    fn alarm(&self, pair: &Pair, outcome: &Outcome) {
        let mut line = String::new();
        record::put_line(&mut line, pair, outcome);
        self.progress.clear();
        let _ = write!(io::stderr(), "refute-all: {}", line.trim_start_matches("- "));
    }

    /// Writes the run's last record, and makes sure that the file is on the disk.
    fn end(&mut self) -> io::Result<()> {
        if let Some(file) = &mut self.file {
            record::put_end(&mut file.held, &self.counts);
        }
        self.tick()?;
        if let Some(file) = &self.file {
            file.sync()?;
        }
        self.progress.end(&self.counts, self.again);
        Ok(())
    }
}

/// The results file, and the verdicts that it has.
fn open(options: &Options) -> io::Result<(Option<Out<File>>, Known)> {
    match &options.results {
        Results::None => Ok((None, Known::default())),
        Results::New(path) => {
            let file = results::create(path).map_err(|error| explained(path, error))?;
            Ok((Some(Out::new(file, path)), Known::default()))
        }
        Results::Resumed(path) => {
            let (file, text) = results::reopen(path).map_err(|error| explained(path, error))?;
            Ok((Some(Out::new(file, path)), Known::read(&text, options.settings)))
        }
    }
}

/// Checks the pairs. `faults` is what could not be read on the way to them.
pub fn run(options: &Options, pairs: &[Pair], faults: &[String]) -> io::Result<Counts> {
    let Options { settings, limit, workers, quiet, .. } = *options;
    let (mut file, known) = open(options)?;
    let list = List::new(pairs.iter().map(|pair| (pair, known.get(pair).map_or("", |(digests, _)| digests))))?;
    if let Some(file) = &mut file {
        record::put_run(&mut file.held, settings, limit, workers, pairs.len());
        faults.iter().for_each(|fault| record::put_fault(&mut file.held, fault));
    }
    let progress = Progress::new(pairs.len(), quiet);
    let counts = Counts { faults: faults.len(), ..Counts::default() };
    let lines = (!quiet).then(|| Out::new(io::stdout(), Path::new("standard output")));
    let mut run = Run { pairs, known: &known, file, lines, progress, counts, again: 0 };
    Pool { list: &list, settings, workers, limit }.run(&mut run)?;
    run.end()?;
    Ok(run.counts)
}
