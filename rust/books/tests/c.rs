//! The C header: a C program that makes both calls is built, linked and run.

use std::process::{Command, Output};

const HEADERS: &str = concat!("-I", env!("CARGO_MANIFEST_DIR"), "/../../include");
const PROGRAM: &str = concat!(env!("CARGO_MANIFEST_DIR"), "/tests/c/books.c");
const ARCHIVE: &str = concat!(env!("CABLESALAK_FOLDER"), "/libbooks_export.a");

fn run(command: &mut Command) -> Output {
    let output = command.output().unwrap_or_else(|error| panic!("{command:?}: {error}"));
    assert!(output.status.success(), "{command:?}: {}", String::from_utf8_lossy(&output.stderr));
    output
}

#[test]
fn both_calls() {
    for options in ["-O0", "-O2"] {
        let program = format!("{}/books{options}", env!("CARGO_TARGET_TMPDIR"));
        let mut build = Command::new("cc");
        build.args(["-std=c11", "-Wall", "-Wextra", "-Wpedantic", "-Werror", options, HEADERS, PROGRAM, ARCHIVE]);
        run(build.args(["-o", &program]));
        assert_eq!(run(&mut Command::new(program)).stdout, b"");
    }
}
