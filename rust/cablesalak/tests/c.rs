//! The C header: C programs that make every call are built, linked and run.

use cablesalak::{Number, VERSION};
use std::process::{Command, Output};

const HEADERS: &str = concat!("-I", env!("CARGO_MANIFEST_DIR"), "/../../include");
const PROGRAMS: &str = concat!(env!("CARGO_MANIFEST_DIR"), "/tests/c");
const ARCHIVE: &str = concat!(env!("CABLESALAK_FOLDER"), "/libexport.a");
#[cfg(feature = "nodes")]
const NODES: [&str; 2] =
    [concat!(env!("CABLESALAK_FOLDER"), "/libnodes.a"), concat!(env!("CABLESALAK_FOLDER"), "/libnode_check.a")];

fn run(command: &mut Command) -> Output {
    let output = command.output().unwrap_or_else(|error| panic!("{command:?}: {error}"));
    assert!(output.status.success(), "{command:?}: {}", String::from_utf8_lossy(&output.stderr));
    output
}

/// Builds a C program with some archives and gives what it prints.
fn build_and_run(name: &str, options: &[&str], archives: &[&str]) -> String {
    let program = format!("{}/{name}{}", env!("CARGO_TARGET_TMPDIR"), options.concat());
    let mut build = Command::new("cc");
    build.args(["-std=c11", "-Wall", "-Wextra", "-Wpedantic", "-Werror"]).args(options);
    run(build.args([HEADERS, &format!("{PROGRAMS}/{name}.c")]).args(archives).args(["-o", &program]));
    String::from_utf8(run(&mut Command::new(program)).stdout).unwrap()
}

/// The calls answer, and the header's words are the wrapper's.
#[test]
fn every_call() {
    let meanings: String = Number::all().map(|number| format!("{} {number}\n", number.code())).collect();
    for options in [["-O0"], ["-O2"]] {
        assert_eq!(build_and_run("calls", &options, &[ARCHIVE]), meanings);
    }
}

/// The calls with a mode, the conversions, the workspace; and the header's version is the crate's.
#[test]
fn modes() {
    for options in [["-O0"], ["-O2"]] {
        assert_eq!(build_and_run("modes", &options, &[ARCHIVE]), format!("{VERSION}\n"));
    }
}

/// A header of another layout does not link with the archive.
#[test]
fn another_layout() {
    let program = format!("{}/another-layout", env!("CARGO_TARGET_TMPDIR"));
    let mut build = Command::new("cc");
    build.args(["-std=c11", "-Dcablesalak_layout_2=cablesalak_layout_1", HEADERS]);
    let output = build.args([&format!("{PROGRAMS}/calls.c"), ARCHIVE, "-o", &program]).output().unwrap();
    let words = String::from_utf8_lossy(&output.stderr);
    assert!(!output.status.success() && words.contains("cablesalak_layout_1"), "{words}");
}

/// The calls over a list of records say and leave what those over columns do.
#[cfg(feature = "nodes")]
#[test]
fn list_of_records() {
    for options in [["-O0"], ["-O2"]] {
        let archives = [&NODES[..], &[ARCHIVE]].concat();
        assert_eq!(build_and_run("nodes", &options, &archives), "");
    }
}
