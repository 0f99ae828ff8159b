//! The command line of `refute-all`.

use batch::check::{Settings, PLACES};
use std::ffi::OsString;
use std::path::PathBuf;
use std::thread;
use std::time::Duration;

pub const USAGE: &str = "usage: refute-all [OPTIONS] FOLDER|MANIFEST..
  FOLDER    every NAME.cnf below it with NAME.proof (records), NAME.drat (DRAT text), NAME.bdrat (binary DRAT), NAME-MORE.proof, ..
  MANIFEST  a line a pair: FORMULA, tab, PROOF and, where its name does not show the form, tab and 'records', 'text' or 'binary'
  -o FILE   results as JSON lines; FILE must not exist
  -r FILE   the same, resuming: pairs whose files have a verdict in FILE are not checked again
  -j N      number of workers (default: one for each core)
  -t SEC    time limit for a pair (default: 60; 0: none)
  -p K/N    only part K of N: each N-th pair, from the K-th
  -q        no lines and no progress
  --consequence  only lines pass that follow from the formula
  --twice        each pair is checked by truth table too, and both must agree: records, at most six variables
  --places N     places of the table, 2 to 65536 (default: 4096)
  --version, --help
Prints a line a pair as it comes: 'number place lines rounds peak', or '-' and why there is none; tab, formula, tab, proof.
Status: 0 every pair is refuted; 1 each has a verdict, not all are refuted; 2 some pair has no verdict, something named could
not be read, there is no pair, or wrong use; 3 the results could not be written; 4 the two methods of --twice disagree.";

/// Where results go.
pub enum Results {
    None,
    New(PathBuf),
    Resumed(PathBuf),
}

pub struct Options {
    pub names: Vec<PathBuf>,
    pub results: Results,
    pub workers: usize,
    pub limit: Option<Duration>,
    /// Part k of n.
    pub part: Option<(usize, usize)>,
    pub settings: Settings,
    pub quiet: bool,
    pub version: bool,
    pub help: bool,
}

impl Default for Options {
    fn default() -> Options {
        Options {
            names: Vec::new(),
            results: Results::None,
            workers: thread::available_parallelism().map_or(1, |cores| cores.get()),
            limit: Some(Duration::from_secs(60)),
            part: None,
            settings: Settings::default(),
            quiet: false,
            version: false,
            help: false,
        }
    }
}

impl Options {
    /// None where the words are no proper command line.
    pub fn read(words: impl Iterator<Item = OsString>) -> Option<Options> {
        let mut words = words;
        let mut options = Options::default();
        let mut only_names = false;
        while let Some(word) = words.next() {
            match word.to_str() {
                Some("--") if !only_names => only_names = true,
                Some(text) if !only_names && text.starts_with('-') => options.take(text, &mut words)?,
                _ => options.names.push(word.into()),
            }
        }
        // The check by truth table has no profile.
        let is_one_profile = !(options.settings.twice && options.settings.consequence);
        let is_whole = options.version || options.help || !options.names.is_empty();
        (is_whole && is_one_profile).then_some(options)
    }

    /// Takes an option and the value that follows it, in the same word or in the next.
    fn take(&mut self, text: &str, words: &mut impl Iterator<Item = OsString>) -> Option<()> {
        let (option, joined) = match text.get(..2) {
            Some("-o" | "-r" | "-j" | "-t" | "-p") => (&text[..2], &text[2..]),
            _ => (text, ""),
        };
        let mut value = || if joined.is_empty() { words.next() } else { Some(joined.into()) };
        let mut word = || value()?.into_string().ok();
        match option {
            "-q" => self.quiet = true,
            "--version" => self.version = true,
            "--help" => self.help = true,
            "--consequence" => self.settings.consequence = true,
            "--twice" => self.settings.twice = true,
            "-j" => self.workers = word()?.parse().ok().filter(|workers| (1..=1_024).contains(workers))?,
            "-p" => self.part = Some(part(&word()?)?),
            "-t" => self.limit = limit(&word()?)?,
            "--places" => self.settings.places = word()?.parse().ok().filter(|places| PLACES.contains(places))?,
            "-o" => self.results = Results::New(value()?.into()),
            "-r" => self.results = Results::Resumed(value()?.into()),
            _ => return None,
        }
        Some(())
    }
}

/// Seconds; 0 is no limit.
fn limit(word: &str) -> Option<Option<Duration>> {
    let limit = Duration::try_from_secs_f64(word.parse().ok()?).ok()?;
    Some((!limit.is_zero()).then_some(limit))
}

fn part(word: &str) -> Option<(usize, usize)> {
    let (k, n) = word.split_once('/')?;
    let (k, n) = (k.parse().ok()?, n.parse().ok()?);
    (1 <= k && k <= n).then_some((k, n))
}

#[cfg(test)]
mod tests {
    use super::*;

    fn read(words: &str) -> Option<Options> {
        Options::read(words.split(' ').map(OsString::from))
    }

    #[test]
    fn proper_lines() {
        let options = read("-j3 -t 0.5 -p 2/4 --places 64 --consequence -q -r out a -- -b").unwrap();
        assert_eq!((options.workers, options.limit), (3, Some(Duration::from_millis(500))));
        assert_eq!(
            (options.part, options.settings),
            (Some((2, 4)), Settings { places: 64, consequence: true, twice: false })
        );
        assert_eq!(options.names, [PathBuf::from("a"), PathBuf::from("-b")]);
        assert!(options.quiet && matches!(options.results, Results::Resumed(path) if path == *"out"));
        assert_eq!(read("-t0 a").unwrap().limit, None);
        assert!(read("--twice a").unwrap().settings.twice);
        assert!(read("--version").unwrap().version && read("--help").unwrap().help);
    }

    #[test]
    fn wrong_lines() {
        let wrong =
            ["-q", "-x a", "--wrong a", "-j 0 a", "-j x a", "-j", "-t -1 a", "-t nan a", "-p 0/2 a", "-p 3/2 a"];
        for words in
            wrong.into_iter().chain(["-p 1 a", "--places 1 a", "--places 65537 a", "-o", "--twice --consequence a"])
        {
            assert!(read(words).is_none(), "{words}");
        }
    }
}
