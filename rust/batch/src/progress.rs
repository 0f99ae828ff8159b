//! The line at the foot of a terminal.

use batch::record::Counts;
use std::io::{self, IsTerminal, Write};
use std::time::{Duration, Instant};

const OFTEN: Duration = Duration::from_millis(100);

pub struct Progress {
    all: usize,
    began: Instant,
    shown: Option<Instant>,
    on: bool,
    quiet: bool,
}

impl Progress {
    pub fn new(all: usize, quiet: bool) -> Self {
        let on = !quiet && io::stderr().is_terminal();
        Progress { all, began: Instant::now(), shown: None, on, quiet }
    }

    /// Takes the line away, for another to be printed.
    pub fn clear(&self) {
        if self.shown.is_some() {
            let _ = write!(io::stderr(), "\r\x1b[K");
        }
    }

    pub fn show(&mut self, counts: &Counts) {
        if !self.on || self.shown.is_some_and(|shown| shown.elapsed() < OFTEN) {
            return;
        }
        self.shown = Some(Instant::now());
        let rate = counts.pairs() as f64 / self.began.elapsed().as_secs_f64().max(0.001);
        let left = (self.all - counts.pairs()) as f64 / rate.max(0.001);
        let _ = write!(io::stderr(), "\r\x1b[K{}; {rate:.0} a second, {left:.0} s left", self.words(counts));
    }

    fn words(&self, counts: &Counts) -> String {
        let Counts { refuted, refused, no_verdict, .. } = counts;
        let (done, all) = (counts.pairs(), self.all);
        let disagreed = match counts.disagreed {
            0 => String::new(),
            count => format!(", {count} ON WHICH THE TWO METHODS DISAGREE"),
        };
        format!("{done} of {all}: {refuted} refuted, {refused} refused, {no_verdict} without a verdict{disagreed}")
    }

    /// The last state; `known` of the pairs were known before.
    pub fn end(&self, counts: &Counts, known: usize) {
        self.clear();
        if !self.quiet {
            let known = if known > 0 { format!(" ({known} known before)") } else { String::new() };
            let seconds = self.began.elapsed().as_secs_f64();
            let _ = writeln!(io::stderr(), "{}{known}; {seconds:.2} s", self.words(counts));
        }
    }
}
