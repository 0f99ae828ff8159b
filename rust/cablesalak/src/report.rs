//! What a program says of two files.

use crate::raw::{self, Told, LINE};
use crate::{Mode, Number, Workspace};
use std::fmt;

/// How many bytes a file may have; of a longer one the first 65,537 are enough to be refused with 24.
pub const LONGEST: usize = 65_536;

/// The line on two files and the status to end with, both the library's own. Written out with `{}` it is the line without its LF.
#[derive(Clone, Copy, Debug, PartialEq, Eq)]
pub struct Report {
    line: [u8; LINE],
    told: Told,
}

/// What is said of a formula and a proof in records, with a table of 4,096 places. `None` is a file that could not be read.
pub fn report(formula: Option<&[u8]>, proof: Option<&[u8]>) -> Report {
    let mut line = [0; LINE];
    let told = raw::report(formula, proof, &mut line);
    Report { line, told }
}

impl Workspace {
    /// [`report`] of a proof in a mode, with this workspace's table. The workspace is empty afterwards.
    ///
    /// ```
    /// use cablesalak::{Mode, Workspace};
    ///
    /// let mut workspace = Workspace::new(20_000)?;
    /// let said = workspace.report(Mode::TEXT, Some(b"p cnf 1 2\n1 0\n-1 0\n"), Some(b"0\n"));
    /// assert_eq!((said.line(), said.status()), ("0 2 1 0 4\n", 0));
    /// # Ok::<(), cablesalak::Number>(())
    /// ```
    pub fn report(&mut self, mode: Mode, formula: Option<&[u8]>, proof: Option<&[u8]>) -> Report {
        let mut line = [0; LINE];
        let (mut table, mut lists) = self.lend();
        let told = raw::report_in(mode.raw(), &mut table.lists, &mut lists, formula, proof, &mut line);
        // The line does not tell how many nodes and members are left.
        self.clear();
        Report { line, told }
    }
}

impl Report {
    /// The line, with its LF.
    pub fn line(&self) -> &str {
        let line = self.line.get(..self.told.length).unwrap_or_default();
        std::str::from_utf8(line).unwrap_or_default()
    }

    /// 0 for refuted alone, 2 where a file was not taken (24, 25), 1 for every other refusal.
    pub fn status(&self) -> u8 {
        self.told.status
    }

    /// The line's first number.
    pub fn number(&self) -> Number {
        let digits = self.line().split(' ').next().unwrap_or_default();
        Number::said(digits.parse().unwrap_or(u8::MAX))
    }
}

impl fmt::Display for Report {
    fn fmt(&self, out: &mut fmt::Formatter<'_>) -> fmt::Result {
        out.pad(self.line().trim_end())
    }
}
