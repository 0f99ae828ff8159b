//! The results file and what is written to it.

use std::fs::{File, OpenOptions, TryLockError};
use std::io::{self, Read, Write};
use std::path::{Path, PathBuf};

/// Creates the file; one that exists is not written over.
pub fn create(path: &Path) -> io::Result<File> {
    let file = OpenOptions::new().append(true).create_new(true).open(path)?;
    alone(&file)?;
    Ok(file)
}

/// Opens the file to write after what it has, and gives what it has; a last line that was cut short is removed.
pub fn reopen(path: &Path) -> io::Result<(File, String)> {
    if path.exists() && !path.metadata()?.is_file() {
        return Err(io::Error::other("is no plain file"));
    }
    let mut file = OpenOptions::new().read(true).append(true).create(true).open(path)?;
    alone(&file)?;
    let mut bytes = Vec::new();
    file.read_to_end(&mut bytes)?;
    let whole = bytes.iter().rposition(|&byte| byte == b'\n').map_or(0, |at| at + 1);
    if whole < bytes.len() {
        file.set_len(whole as u64)?;
    }
    Ok((file, String::from_utf8_lossy(&bytes[..whole]).into_owned()))
}

/// Two runs that went on with one file would each check what the other has.
fn alone(file: &File) -> io::Result<()> {
    file.try_lock().map_err(|error| match error {
        TryLockError::WouldBlock => io::Error::other("another run writes to it"),
        TryLockError::Error(error) => error,
    })
}

/// Holds a text back and writes it a few times a second.
pub struct Out<W: Write> {
    out: W,
    /// The name that errors are reported with.
    name: PathBuf,
    pub held: String,
}

impl<W: Write> Out<W> {
    pub fn new(out: W, name: &Path) -> Self {
        Out { out, name: name.into(), held: String::new() }
    }

    pub fn flush(&mut self) -> io::Result<()> {
        if self.held.is_empty() {
            return Ok(());
        }
        let written = self.out.write_all(self.held.as_bytes()).and_then(|()| self.out.flush());
        self.held.clear();
        written.map_err(|error| explained(&self.name, error))
    }
}

impl Out<File> {
    /// Makes sure that the file is on the disk.
    pub fn sync(&self) -> io::Result<()> {
        self.out.sync_all().map_err(|error| explained(&self.name, error))
    }
}

/// The error with the name of what it is about.
pub fn explained(path: &Path, error: io::Error) -> io::Error {
    io::Error::new(error.kind(), format!("{}: {error}", path.display()))
}
