//! The list of pairs as the workers read it: a file without a name, with an entry for each pair. A worker reads only the entry that its
//! task names, so that its memory does not grow with the list.

use crate::form::Form;
use crate::pairs::Pair;
use crate::results::explained;
use std::ffi::OsString;
use std::fs::{self, File, OpenOptions};
use std::io::{self, BufWriter, Write};
use std::os::fd::AsRawFd;
use std::os::unix::ffi::{OsStrExt, OsStringExt};
use std::os::unix::fs::{FileExt, OpenOptionsExt};
use std::path::PathBuf;
use std::time::{SystemTime, UNIX_EPOCH};
use std::{env, process};

/// Which pair is to be checked, and where its entry is.
#[derive(Clone, Copy, Debug, PartialEq, Eq)]
pub struct Task {
    pub pair: u32,
    pub length: u32,
    pub offset: u64,
}

impl Task {
    pub const BYTES: usize = 16;

    pub fn packed(self) -> [u8; Task::BYTES] {
        let word = u128::from(self.offset) << 64 | u128::from(self.length) << 32 | u128::from(self.pair);
        word.to_le_bytes()
    }

    pub fn unpacked(bytes: [u8; Task::BYTES]) -> Task {
        let word = u128::from_le_bytes(bytes);
        Task { pair: word as u32, length: (word >> 32) as u32, offset: (word >> 64) as u64 }
    }
}

/// The pool's side.
pub struct List {
    file: File,
    tasks: Vec<Task>,
}

impl List {
    /// Each pair with the digests of its known verdict, or with nothing.
    pub fn new<'a>(pairs: impl Iterator<Item = (&'a Pair, &'a str)>) -> io::Result<List> {
        let mut out = BufWriter::new(nameless()?);
        let (mut tasks, mut offset) = (Vec::new(), 0);
        for (pair, known) in pairs {
            let entry = packed(pair, known);
            out.write_all(&entry)?;
            tasks.push(Task { pair: tasks.len() as u32, length: entry.len() as u32, offset });
            offset += entry.len() as u64;
        }
        let file = out.into_inner().map_err(io::IntoInnerError::into_error)?;
        Ok(List { file, tasks })
    }

    pub fn len(&self) -> usize {
        self.tasks.len()
    }

    pub fn is_empty(&self) -> bool {
        self.tasks.is_empty()
    }

    pub fn task(&self, pair: u32) -> Task {
        self.tasks[pair as usize]
    }

    /// The number that a worker opens the file by.
    pub fn descriptor(&self) -> i32 {
        self.file.as_raw_fd()
    }
}

/// A new file whose name is gone already: whatever ends this process, no file is left.
fn nameless() -> io::Result<File> {
    let time = SystemTime::now().duration_since(UNIX_EPOCH).map_or(0, |since| since.as_nanos());
    let path = env::temp_dir().join(format!("refute-all.{}.{time}", process::id()));
    let made = OpenOptions::new().read(true).write(true).create_new(true).mode(0o600).open(&path);
    let file = made.map_err(|error| explained(&path, error))?;
    fs::remove_file(&path).map_err(|error| explained(&path, error))?;
    Ok(file)
}

/// How much of the list a worker reads at once.
const WINDOW: usize = 1 << 16;

/// The workers' side: the file, and a piece of it.
pub struct Entries {
    file: File,
    offset: u64,
    piece: Vec<u8>,
}

impl Entries {
    /// Opens the list of a pool, by the pool's process and the number there.
    pub fn open(pool: u32, descriptor: i32) -> io::Result<Entries> {
        let file = File::open(format!("/proc/{pool}/fd/{descriptor}"))?;
        Ok(Entries { file, offset: 0, piece: Vec::new() })
    }

    /// The pair of a task, and the digests of its known verdict.
    pub fn read(&mut self, task: Task) -> io::Result<(Pair, String)> {
        if self.within(task).is_none() {
            self.offset = task.offset;
            self.piece.resize(WINDOW.max(task.length as usize), 0);
            let mut held = 0;
            while let more @ 1.. = self.file.read_at(&mut self.piece[held..], task.offset + held as u64)? {
                held += more;
            }
            self.piece.truncate(held);
        }
        let entry = self.within(task).and_then(unpacked);
        entry.ok_or(io::ErrorKind::InvalidData.into())
    }

    /// The task's entry, where the piece has it.
    fn within(&self, task: Task) -> Option<&[u8]> {
        let from = usize::try_from(task.offset.checked_sub(self.offset)?).ok()?;
        self.piece.get(from..from.checked_add(task.length as usize)?)
    }
}

/// Form, formula, proof and digests, each closed by a zero byte, which no name has. A name that is absent is empty.
fn packed(pair: &Pair, known: &str) -> Vec<u8> {
    let [formula, proof] =
        [&pair.formula, &pair.proof].map(|path| path.as_ref().map_or(&b""[..], |path| path.as_os_str().as_bytes()));
    let mut out = Vec::with_capacity(16 + formula.len() + proof.len() + known.len());
    for field in [pair.form.name().as_bytes(), formula, proof, known.as_bytes()] {
        out.extend_from_slice(field);
        out.push(0);
    }
    out
}

fn unpacked(bytes: &[u8]) -> Option<(Pair, String)> {
    let fields: Vec<&[u8]> = bytes.split(|&byte| byte == 0).collect();
    let [form, formula, proof, known, []] = fields[..] else { return None };
    let path = |name: &[u8]| (!name.is_empty()).then(|| PathBuf::from(OsString::from_vec(name.to_vec())));
    let pair = Pair { formula: path(formula), proof: path(proof), form: Form::named(form)? };
    Some((pair, String::from_utf8(known.to_vec()).ok()?))
}

#[cfg(test)]
mod tests {
    use super::*;

    /// More entries than a piece has, in an order of their own.
    #[test]
    fn many_entries() -> io::Result<()> {
        let pair = |at: usize| Pair { formula: Some(format!("{at:0>200}").into()), proof: None, form: Form::Records };
        let pairs: Vec<Pair> = (0..1_000).map(pair).collect();
        let list = List::new(pairs.iter().map(|pair| (pair, "")))?;
        let mut entries = Entries::open(process::id(), list.descriptor())?;
        for at in (0..1_000).map(|at| at * 377 % 1_000) {
            assert_eq!(entries.read(list.task(at as u32))?.0, pairs[at]);
        }
        Ok(())
    }

    #[test]
    fn there_and_back() -> io::Result<()> {
        let path = |bytes: &[u8]| Some(PathBuf::from(OsString::from_vec(bytes.to_vec())));
        let one = Pair { formula: path(b"a b\n.cnf"), proof: path(b"\xff.drat"), form: Form::Text };
        let two = Pair { formula: None, proof: path(b"x"), form: Form::Binary };
        let list = List::new([(&one, "0123"), (&two, "")].into_iter())?;
        let mut entries = Entries::open(process::id(), list.descriptor())?;
        let task = |pair| Task::unpacked(list.task(pair).packed());
        assert_eq!((list.len(), task(1)), (2, list.task(1)));
        assert_eq!(entries.read(task(1))?, (two, String::new()));
        assert_eq!(entries.read(task(0))?, (one, "0123".to_string()));
        assert!(entries.read(Task { offset: 1, ..task(0) }).is_err());
        assert!(entries.read(Task { length: 1_000, ..task(1) }).is_err());
        Ok(())
    }
}
