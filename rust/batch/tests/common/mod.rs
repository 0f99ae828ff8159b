//! What the tests share: folders of their own, the two programs, and their processes.
#![allow(dead_code)]

use std::fs;
use std::path::{Path, PathBuf};
use std::process::{Child, Command, Output, Stdio};
use std::thread;
use std::time::{Duration, Instant};

pub const ALL: &str = env!("CARGO_BIN_EXE_refute-all");
pub const PAGE: &str = env!("CARGO_BIN_EXE_refute-page");
pub const EXAMPLES: &str = concat!(env!("CARGO_MANIFEST_DIR"), "/../../examples");

/// An empty folder.
pub fn folder(name: &str) -> PathBuf {
    let folder = Path::new(env!("CARGO_TARGET_TMPDIR")).join(name);
    let _ = fs::remove_dir_all(&folder);
    fs::create_dir_all(&folder).unwrap();
    folder
}

pub fn copy(folder: &Path, names: &[&str]) {
    for name in names {
        let to = folder.join(Path::new(name).file_name().unwrap());
        fs::copy(Path::new(EXAMPLES).join(name), to).unwrap();
    }
}

/// Copies of case A under so many names.
pub fn copies(folder: &Path, count: usize) {
    for at in 0..count {
        for ending in ["cnf", "proof"] {
            let from = Path::new(EXAMPLES).join(format!("case-a.{ending}"));
            fs::copy(from, folder.join(format!("copy{at:04}.{ending}"))).unwrap();
        }
    }
}

/// A pair that takes many seconds: 1,000 PR lines, each judged by 800 clauses.
pub fn slow(folder: &Path) {
    let clause = |k: usize| format!("{} {} {} 0\n", 1 + k % 20, 21 + k / 20 % 20, 41 + k % 19);
    let clauses: String = (0..800).map(clause).collect();
    fs::write(folder.join("slow.cnf"), format!("p cnf 64 800\n{clauses}")).unwrap();
    let line = b"\x4e\x40\0\0\x01\0\x4e\x3f\x02\0\x01\0\x54\x40\x50\x03\0";
    fs::write(folder.join("slow.proof"), [line.repeat(1_000), b"\x45".to_vec()].concat()).unwrap();
}

pub struct Said {
    pub status: Option<i32>,
    /// Standard output's lines, sorted.
    pub lines: Vec<String>,
    pub error: String,
}

impl Said {
    pub fn of(output: Output) -> Said {
        let text = |bytes| String::from_utf8(bytes).unwrap();
        let mut lines: Vec<String> = text(output.stdout).lines().map(String::from).collect();
        lines.sort();
        Said { status: output.status.code(), lines, error: text(output.stderr) }
    }

    /// Status and lines are these.
    pub fn is(&self, status: i32, lines: &[&str]) {
        assert_eq!(
            (self.status, &self.lines[..]),
            (Some(status), &lines.iter().map(|l| l.to_string()).collect::<Vec<_>>()[..]),
            "{}",
            self.error
        );
    }
}

/// `refute-all` in the folder.
pub fn all(folder: &Path, words: &[&str]) -> Said {
    Said::of(Command::new(ALL).current_dir(folder).args(words).output().unwrap())
}

/// `refute-all` started in the folder and not waited for.
pub fn start(folder: &Path, words: &[&str]) -> Child {
    let mut command = Command::new(ALL);
    command.current_dir(folder).args(words).stdout(Stdio::piped()).stderr(Stdio::piped());
    command.spawn().unwrap()
}

/// Waits until it holds; fails after a minute.
pub fn until(what: &str, holds: impl Fn() -> bool) {
    let began = Instant::now();
    while !holds() {
        assert!(began.elapsed() < Duration::from_secs(60), "not within a minute: {what}");
        thread::sleep(Duration::from_millis(5));
    }
}

/// The processes whose parent this is.
pub fn children(parent: u32) -> Vec<u32> {
    let entries = fs::read_dir("/proc").unwrap().filter_map(|entry| entry.ok()?.file_name().to_str()?.parse().ok());
    let is_child = |process: &u32| {
        let stat = fs::read_to_string(format!("/proc/{process}/stat")).unwrap_or_default();
        let after = stat.rsplit(')').next().unwrap_or_default();
        after.split_whitespace().nth(1) == Some(&parent.to_string())
    };
    entries.filter(is_child).collect()
}

/// Whether the process runs: it is there, and not only waits to be noticed.
pub fn runs(process: u32) -> bool {
    let stat = fs::read_to_string(format!("/proc/{process}/stat")).unwrap_or_default();
    let state = stat.rsplit(')').next().unwrap_or_default().trim_start();
    !state.is_empty() && !state.starts_with(['Z', 'X'])
}

pub fn kill(process: u32) {
    assert!(Command::new("kill").args(["-9", &process.to_string()]).status().unwrap().success());
}

/// How many records of this kind the results file has.
pub fn records(results: &Path, kind: &str) -> usize {
    let text = fs::read_to_string(results).unwrap_or_default();
    text.lines().filter(|line| line.starts_with(&format!("{{\"type\":\"{kind}\""))).count()
}
