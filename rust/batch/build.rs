//! What the results name the checker by: the archives' SHA-256, and the commit of the tree.

#[path = "src/sha256.rs"]
#[allow(dead_code)]
mod sha256;

use std::process::Command;
use std::{env, fs};

const FOLDER: &str = "CABLESALAK_ARCHIVE_FOLDER";

/// What git says; nothing where there is no git or no repository.
fn git(words: &[&str]) -> Option<String> {
    let said = Command::new("git").args(words).output().ok()?;
    let text = String::from_utf8(said.stdout).ok()?;
    said.status.success().then(|| text.trim().to_string())
}

/// Names an archive's SHA-256 in a variable of the compiler's.
fn name(variable: &str, folder: &str, library: &str) {
    let archive = format!("{folder}/lib{library}.a");
    let bytes = fs::read(&archive).unwrap_or_else(|error| {
        panic!("{archive}: {error}: write it with `rust/run archives {library}`, or name its folder in {FOLDER}")
    });
    println!("cargo:rerun-if-changed={archive}");
    println!("cargo:rustc-env={variable}={}", sha256::hex(&sha256::of(&bytes)));
}

fn main() {
    let beside = || format!("{}/../../target/staticlib", env::var("CARGO_MANIFEST_DIR").unwrap());
    let folder = env::var(FOLDER).unwrap_or_else(|_| beside());
    name("ARCHIVE", &folder, "export");
    name("SMALL_ARCHIVE", &folder, "small_export");
    // A `+` after the commit means that files differ from it. It is asked for when the commit, an archive or a source linked here changes.
    let commit = git(&["describe", "--always", "--dirty=+"]);
    let head = git(&["rev-parse", "--path-format=absolute", "--git-path", "logs/HEAD"]);
    for path in ["src", "../cablesalak/src", "../explain/src", "../proof/src", "../small/src"]
        .into_iter()
        .chain(head.as_deref())
    {
        println!("cargo:rerun-if-changed={path}");
    }
    println!("cargo:rerun-if-env-changed={FOLDER}");
    println!("cargo:rustc-env=COMMIT={}", commit.as_deref().unwrap_or("unknown"));
}
