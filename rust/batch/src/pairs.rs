//! The pairs of a formula and a proof that a batch checks: those of a folder, or those that a manifest names.

use crate::form::Form;
use crate::manifest::manifest;
use std::collections::{BTreeMap, BTreeSet, HashSet};
use std::ffi::OsStr;
use std::fs;
use std::io;
use std::os::unix::ffi::OsStrExt;
use std::path::{Path, PathBuf};

/// A formula without a proof and a proof without a formula are pairs too: that a question has no answer must be seen.
#[derive(Clone, Debug, PartialEq, Eq, PartialOrd, Ord, Hash)]
pub struct Pair {
    pub formula: Option<PathBuf>,
    pub proof: Option<PathBuf>,
    pub form: Form,
}

/// The pairs that were found, each of them once, and what could not be read on the way, in words.
#[derive(Default)]
pub struct Found {
    pub pairs: Vec<Pair>,
    pub faults: Vec<String>,
    seen: HashSet<Pair>,
}

impl Found {
    pub fn add(&mut self, pair: Pair) {
        if self.seen.insert(pair.clone()) {
            self.pairs.push(pair);
        }
    }

    pub fn fault(&mut self, path: &Path, what: impl std::fmt::Display) {
        self.faults.push(format!("{}: {what}", path.display()));
    }

    /// Adds the pairs of a folder or a manifest.
    pub fn look(&mut self, place: &Path) {
        match fs::metadata(place) {
            Err(error) => self.fault(place, error),
            Ok(kind) if kind.is_dir() => self.folder(place),
            Ok(kind) if !kind.is_file() => self.fault(place, "is neither a folder nor a plain file"),
            Ok(_) => match fs::read(place) {
                Ok(bytes) => manifest(self, place, &bytes),
                Err(error) => self.fault(place, error),
            },
        }
    }

    /// Every formula and proof of the folder and of those below it, in the order of their names.
    fn folder(&mut self, folder: &Path) {
        let (mut files, mut folders) = (Vec::new(), BTreeSet::new());
        if let Err(error) = entries(folder, &mut files, &mut folders) {
            self.fault(folder, error);
        }
        paired(&files).into_iter().for_each(|pair| self.add(pair));
        folders.iter().for_each(|folder| self.folder(folder));
    }
}

/// The formulas and proofs of a folder, and the folders in it. Links to folders are not followed.
fn entries(folder: &Path, files: &mut Vec<PathBuf>, folders: &mut BTreeSet<PathBuf>) -> io::Result<()> {
    for entry in fs::read_dir(folder)? {
        let entry = entry?;
        let path = entry.path();
        if entry.file_type()?.is_dir() {
            folders.insert(path);
        } else if path.extension() == Some(OsStr::new("cnf")) || Form::of(&path).is_some() {
            files.push(path);
        }
    }
    Ok(())
}

/// `NAME.cnf` belongs with `NAME.proof` and `NAME.drat`, and with `NAME-more.proof` where no longer name of a formula fits.
fn paired(files: &[PathBuf]) -> Vec<Pair> {
    let stem = |path: &Path| path.file_stem().unwrap_or_default().as_bytes().to_vec();
    let formulas: BTreeMap<Vec<u8>, &PathBuf> =
        files.iter().filter(|path| Form::of(path).is_none()).map(|path| (stem(path), path)).collect();
    let (mut pairs, mut answered) = (Vec::new(), BTreeSet::new());
    for proof in files {
        let Some(form) = Form::of(proof) else { continue };
        let name = stem(proof);
        let ends = (0..=name.len()).rev().filter(|&end| end == name.len() || matches!(name[end], b'-' | b'.'));
        let formula = ends.map(|end| &name[..end]).find(|start| formulas.contains_key(*start));
        answered.extend(formula.map(<[u8]>::to_vec));
        let formula = formula.map(|start| formulas[start].clone());
        pairs.push(Pair { formula, proof: Some(proof.clone()), form });
    }
    let alone = formulas.iter().filter(|(name, _)| !answered.contains(*name));
    pairs.extend(alone.map(|(_, path)| Pair { formula: Some(path.to_path_buf()), proof: None, form: Form::Records }));
    pairs.sort();
    pairs
}

#[cfg(test)]
mod tests {
    use super::*;

    #[test]
    fn a_folder_is_paired_by_names() {
        let names = "a.cnf a.proof a-short.proof a-b.cnf a-b.drat a-b.bdrat a-b-2.drat lone.cnf stray.drat ab.drat";
        let paths: Vec<PathBuf> = names.split(' ').map(PathBuf::from).collect();
        let name = |path: &Option<PathBuf>| path.as_ref().map_or("-".into(), |path| path.display().to_string());
        let said = |pair: &Pair| format!("{} {} {}", name(&pair.formula), name(&pair.proof), pair.form.name());
        let wanted = [
            "- ab.drat text",
            "- stray.drat text",
            "a-b.cnf a-b-2.drat text",
            "a-b.cnf a-b.bdrat binary",
            "a-b.cnf a-b.drat text",
            "a.cnf a-short.proof records",
            "a.cnf a.proof records",
            "lone.cnf - records",
        ];
        assert_eq!(paired(&paths).iter().map(said).collect::<Vec<_>>(), wanted);
    }
}
