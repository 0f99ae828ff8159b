//! A manifest: a text that names pairs, one a line.

use crate::form::Form;
use crate::pairs::{Found, Pair};
use std::ffi::OsStr;
use std::os::unix::ffi::OsStrExt;
use std::path::{Path, PathBuf};

/// Adds the pairs of a manifest, whose names are relative to its folder. Blank lines and lines that begin with `#` are passed over, and
/// so is a CR before the LF. A line that is wrong is a fault; those after it are read.
pub fn manifest(found: &mut Found, place: &Path, bytes: &[u8]) {
    let folder = place.parent().unwrap_or(Path::new(""));
    for (at, line) in bytes.split(|&byte| byte == b'\n').enumerate() {
        let line = line.strip_suffix(b"\r").unwrap_or(line);
        if line.is_empty() || line.starts_with(b"#") {
            continue;
        }
        match pair(folder, line) {
            Ok(pair) => found.add(pair),
            Err(what) => found.fault(place, format_args!("line {}: {what}", at + 1)),
        }
    }
}

/// Formula, tab, proof and, where the proof's name does not mean a form, tab and form.
fn pair(folder: &Path, line: &[u8]) -> Result<Pair, &'static str> {
    let path = |name: &[u8]| -> Option<PathBuf> { (!name.is_empty()).then(|| folder.join(OsStr::from_bytes(name))) };
    if line.contains(&0) {
        return Err("has a zero byte, which no name has");
    }
    let words: Vec<&[u8]> = line.split(|&byte| byte == b'\t').collect();
    let (formula, proof, form) = match words[..] {
        [formula, proof] => (path(formula), path(proof), None),
        [formula, proof, form] => (path(formula), path(proof), Some(form)),
        _ => return Err("needs a formula, a tab and a proof"),
    };
    let form = match form {
        None => proof.as_deref().map_or(Some(Form::Records), Form::of),
        Some(name) => Form::named(name),
    };
    let form = form.ok_or("needs a form, records, text or binary, after a second tab")?;
    Ok(Pair { formula, proof, form })
}

#[cfg(test)]
mod tests {
    use super::*;

    fn read(bytes: &[u8]) -> (Vec<Pair>, Vec<String>) {
        let mut found = Found::default();
        manifest(&mut found, Path::new("in/list"), bytes);
        (found.pairs, found.faults)
    }

    #[test]
    fn pairs_are_named() {
        let (pairs, faults) =
            read(b"# three\r\na b.cnf\tc.drat\r\n\nx\ty\trecords\nlone.cnf\t\nx\ty\trecords\nx\tb\tbinary");
        let named = |formula: &str, proof: Option<&str>, form| {
            let path = |name: &str| Path::new("in").join(name);
            Pair { formula: Some(path(formula)), proof: proof.map(path), form }
        };
        let wanted = [
            named("a b.cnf", Some("c.drat"), Form::Text),
            named("x", Some("y"), Form::Records),
            named("lone.cnf", None, Form::Records),
            named("x", Some("b"), Form::Binary),
        ];
        assert_eq!((pairs, faults), (wanted.to_vec(), Vec::new()));
    }

    #[test]
    fn wrong_lines_are_faults() {
        let (pairs, faults) = read(b"a b\n\na\tb\na.cnf\tb.proof\na\tb\tother\na\tb\tc\td\na.cnf\tb\0.proof");
        let wanted = [
            "in/list: line 1: needs a formula, a tab and a proof",
            "in/list: line 3: needs a form, records, text or binary, after a second tab",
            "in/list: line 5: needs a form, records, text or binary, after a second tab",
            "in/list: line 6: needs a formula, a tab and a proof",
            "in/list: line 7: has a zero byte, which no name has",
        ];
        assert_eq!((pairs.len(), faults), (1, wanted.map(String::from).to_vec()));
    }
}
