//! Reading a formula or a proof.

use crate::sha256::{self, Digest};
use std::fs::OpenOptions;
use std::io::{self, ErrorKind, Read};
use std::os::unix::fs::OpenOptionsExt;
use std::path::Path;

/// The most bytes that a formula and a proof may have.
pub const LONGEST: usize = 65_536;

/// `O_NONBLOCK`: to open a FIFO does not wait for its writer.
const NONBLOCK: i32 = 0o4000;

/// Why a file is not taken.
#[derive(Clone, Copy, Debug, PartialEq, Eq)]
pub enum Refusal {
    TooLong,
    Unreadable,
}

/// What a file's bytes are known by; nothing where it was not read.
#[derive(Clone, Copy, Debug, Default, PartialEq, Eq)]
pub struct Source {
    pub digest: Option<Digest>,
    pub bytes: u64,
}

/// Room for a file's bytes, and for one more than it may have.
pub struct Room {
    bytes: Box<[u8]>,
    length: usize,
}

impl Default for Room {
    fn default() -> Room {
        Room { bytes: vec![0; LONGEST + 1].into(), length: 0 }
    }
}

impl Room {
    /// The bytes of the file that was read last.
    pub fn text(&self) -> &[u8] {
        &self.bytes[..self.length]
    }

    /// Reads a plain file of at most 65,536 bytes.
    pub fn read(&mut self, path: Option<&Path>) -> Result<Source, Refusal> {
        self.length = 0;
        let path = path.ok_or(Refusal::Unreadable)?;
        self.fill(path).map_err(|_| Refusal::Unreadable)?;
        if self.length > LONGEST {
            self.length = 0;
            return Err(Refusal::TooLong);
        }
        Ok(Source { digest: Some(sha256::of(self.text())), bytes: self.length as u64 })
    }

    /// Reads as many bytes as the file has when it is opened, or one more than it may have.
    fn fill(&mut self, path: &Path) -> io::Result<()> {
        let mut file = OpenOptions::new().read(true).custom_flags(NONBLOCK).open(path)?;
        let metadata = file.metadata()?;
        if !metadata.is_file() {
            return Err(ErrorKind::InvalidInput.into());
        }
        loop {
            match file.read(&mut self.bytes[self.length..]) {
                Ok(0) => return Ok(()),
                Ok(more) => self.length += more,
                Err(error) if error.kind() == ErrorKind::Interrupted => continue,
                Err(error) => return Err(error),
            }
            if self.length as u64 == metadata.len() {
                return Ok(());
            }
        }
    }
}
