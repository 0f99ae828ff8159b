//! `refute-all` as it is started: lines, statuses, results, resuming, parts, forms, the profile, two methods, the time limit.

mod common;

use common::{all, copy, folder, slow, Said, ALL, EXAMPLES};
use std::fs;
use std::path::Path;
use std::process::Command;

fn examples(words: &[&str]) -> Said {
    all(Path::new(EXAMPLES), words)
}

#[test]
fn examples_are_refuted() {
    let said = examples(&["drat"]);
    assert!(said.status == Some(0) && said.lines.len() >= 7, "{}", said.error);
    assert!(said.lines.iter().all(|line| line.starts_with("0 ")));
    let said = examples(&["batch"]);
    assert_eq!((said.status, said.lines.len()), (Some(2), 13));
    for line in [
        "0 87 5 4 36\tbatch/two-bands.cnf\tbatch/two-bands.proof",
        "0 389 3 10 32\tbatch/two-bands.cnf\tbatch/two-bands.drat",
    ] {
        assert!(said.lines.contains(&line.to_string()), "{line}");
    }
    assert!(said.error.contains("13 of 13: 5 refuted, 7 refused, 1 without a verdict"), "{}", said.error);
}

#[test]
fn statuses() {
    let folder = folder("statuses");
    all(&folder, &["."]).is(2, &[]);
    all(&folder, &[]).is(2, &[]);
    all(&folder, &["no-such-folder"]).is(2, &[]);
    copy(&folder, &["case-a.cnf", "case-a.proof"]);
    all(&folder, &["."]).is(0, &["0 12 2 1 10\t./case-a.cnf\t./case-a.proof"]);
    all(&folder, &["-q", "."]).is(0, &[]);
    // What is named and not there is not passed over.
    all(&folder, &[".", "no-such-folder"]).is(2, &["0 12 2 1 10\t./case-a.cnf\t./case-a.proof"]);
    fs::write(folder.join("case-a-cut.proof"), b"\x52\0\0").unwrap();
    let wanted = ["0 12 2 1 10\t./case-a.cnf\t./case-a.proof", "19 0 0 0 8\t./case-a.cnf\t./case-a-cut.proof"];
    all(&folder, &["."]).is(1, &wanted);
    // Each pair once, whatever names it twice.
    all(&folder, &[".", "."]).is(1, &wanted);
}

#[test]
fn what_is_missing_is_seen() {
    let folder = folder("missing");
    for name in ["lone.cnf", "stray.proof", "long.cnf", "deep.cnf"] {
        fs::write(folder.join(name), "p cnf 0 0\n").unwrap();
    }
    fs::write(folder.join("long.proof"), vec![0; 65_537]).unwrap();
    std::os::unix::fs::symlink("..", folder.join("deep.proof")).unwrap();
    let wanted = [
        "24 65536 0 0 0\t./long.cnf\t./long.proof",
        "25 0 0 0 0\t\t./stray.proof",
        "25 0 0 0 0\t./deep.cnf\t./deep.proof",
        "25 0 0 0 0\t./lone.cnf\t",
    ];
    all(&folder, &["."]).is(2, &wanted);
}

#[test]
fn resumes() {
    let folder = folder("resumes");
    copy(&folder, &["case-a.cnf", "case-a.proof", "papers.cnf", "papers.proof", "papers-short.proof"]);
    assert_eq!(all(&folder, &["-o", "results", "."]).lines.len(), 3);
    let said = all(&folder, &["-o", "results", "."]);
    assert_eq!(said.status, Some(3), "it is not written over");
    assert!(said.error.contains("results: File exists"), "{}", said.error);
    let results = fs::read_to_string(folder.join("results")).unwrap();
    assert_eq!(results.lines().count(), 5);
    // Cut within the last pair: two are known.
    let cut = results.match_indices("\"type\":\"pair\"").nth(2).unwrap().0;
    fs::write(folder.join("results"), &results[..cut + 40]).unwrap();
    assert_eq!(all(&folder, &["-r", "results", "."]).lines.len(), 1);
    let said = all(&folder, &["-r", "results", "."]);
    said.is(0, &[]);
    assert!(
        said.error.contains("3 of 3: 3 refuted, 0 refused, 0 without a verdict (3 known before)"),
        "{}",
        said.error
    );
    assert_eq!(common::records(&folder.join("results"), "pair"), 3);
    // A file that has changed is checked again, and so is everything with other settings.
    fs::write(folder.join("case-a.proof"), b"\x45").unwrap();
    all(&folder, &["-r", "results", "."]).is(1, &["20 0 0 0 8\t./case-a.cnf\t./case-a.proof"]);
    assert_eq!(all(&folder, &["-r", "results", "--places", "64", "."]).lines.len(), 3);
    assert_eq!(all(&folder, &["-r", "results", "--consequence", "."]).lines.len(), 3);
    all(&folder, &["-r", "results", "."]).is(1, &[]);
}

#[test]
fn parts_are_all() {
    let whole = examples(&["."]).lines;
    let part = |k: usize| examples(&["-p", &format!("{k}/4"), "."]).lines;
    let mut parts: Vec<String> = (1..=4).flat_map(part).collect();
    parts.sort();
    assert_eq!(parts, whole);
}

#[test]
fn forms_and_profile() {
    let folder = folder("forms");
    copy(&folder, &["batch/two-bands.cnf", "batch/two-bands.drat", "batch/two-bands.bdrat", "batch/two-bands.proof"]);
    let name = |line: &str, ending: &str| format!("{line}\t./two-bands.cnf\t./two-bands.{ending}");
    let wanted = [name("0 22 3 10 32", "bdrat"), name("0 389 3 10 32", "drat"), name("0 87 5 4 36", "proof")];
    all(&folder, &["."]).is(0, &wanted.each_ref().map(String::as_str));
    // The clause -3 is RAT alone; the records have no PR line.
    let wanted = [name("0 87 5 4 36", "proof"), name("19 0 0 0 28", "bdrat"), name("19 101 0 0 28", "drat")];
    all(&folder, &["--consequence", "."]).is(1, &wanted.each_ref().map(String::as_str));
    // A manifest names the form where the proof's name does not.
    fs::rename(folder.join("two-bands.bdrat"), folder.join("stored")).unwrap();
    fs::write(folder.join("list"), "two-bands.cnf\tstored\tbinary\n").unwrap();
    all(&folder, &["list"]).is(0, &["0 22 3 10 32\ttwo-bands.cnf\tstored"]);
}

#[test]
fn two_methods() {
    let folder = folder("twice");
    copy(&folder, &["case-a.cnf", "case-a.proof", "shift.cnf", "shift.proof"]);
    let (case_a, shift) = ("0 12 2 1 10\t./case-a.cnf\t./case-a.proof", "0 91 3 0 87\t./shift.cnf\t./shift.proof");
    all(&folder, &["--twice", "-o", "results", "."]).is(0, &[case_a, shift]);
    let results = || fs::read_to_string(folder.join("results")).unwrap();
    assert_eq!(results().matches("\"second\":\"agrees\"").count(), 2);
    assert!(results().contains("\"twice\":true") && results().contains("\"small_archive_sha256\":\""));
    // Known by both methods; by one alone they are checked again, and by both again after that.
    all(&folder, &["--twice", "-r", "results", "."]).is(0, &[]);
    all(&folder, &["-r", "results", "."]).is(0, &[case_a, shift]);
    all(&folder, &["--twice", "-p", "2/2", "-r", "results", "."]).is(0, &[]);
    // What cannot be checked twice has no line and no verdict; a refusal about the table has no second answer.
    copy(&folder, &["papers.cnf", "papers.proof", "batch/two-bands.cnf", "batch/two-bands.drat"]);
    fs::write(folder.join("case-a-short.proof"), b"\x45").unwrap();
    let wanted = [
        "- not twice: no records\t./two-bands.cnf\t./two-bands.drat",
        "- not twice: over six variables\t./papers.cnf\t./papers.proof",
        case_a,
        shift,
        "20 0 0 0 8\t./case-a.cnf\t./case-a-short.proof",
    ];
    let said = all(&folder, &["--twice", "-o", "more", "."]);
    said.is(2, &wanted);
    assert!(said.error.contains("5 of 5: 2 refuted, 1 refused, 2 without a verdict"), "{}", said.error);
    let more = fs::read_to_string(folder.join("more")).unwrap();
    for record in more.lines().filter(|line| line.contains("\"outcome\":\"not twice\"")) {
        assert!(record.contains("\"why\":\"") && !record.contains("\"number\""), "{record}");
    }
    all(&folder, &["--twice", "-r", "more", "."]).is(2, &wanted[..2]);
    // A table of 9 places is full in the proof of case A, and in the clauses of the other.
    let full = ["23 0 1 0 9\t./case-a.cnf\t./case-a.proof"];
    fs::write(folder.join("list"), "case-a.cnf\tcase-a.proof\n").unwrap();
    let said = all(&folder, &["--twice", "--places", "9", "-o", "full", "list"]);
    assert_eq!((said.status, said.lines.len()), (Some(1), full.len()), "{}", said.error);
    assert!(said.lines[0].starts_with("23 "), "{}", said.lines[0]);
    assert!(fs::read_to_string(folder.join("full")).unwrap().contains("\"second\":\"none\""));
    // The check by truth table has no profile.
    all(&folder, &["--twice", "--consequence", "."]).is(2, &[]);
}

/// On a terminal (that of `script`) standard error has the state in one line, which is taken away before each line of output.
#[test]
fn progress_on_a_terminal() {
    let folder = folder("terminal");
    copy(&folder, &["case-a.cnf", "case-a.proof"]);
    slow(&folder);
    let command = format!("'{ALL}' -t 1 .");
    let output = Command::new("script").current_dir(&folder).args(["-qec", &command, "/dev/null"]).output().unwrap();
    let said = String::from_utf8(output.stdout).unwrap();
    assert_eq!(output.status.code(), Some(2), "{said}");
    let shown = "\r\u{1b}[K1 of 2: 1 refuted, 0 refused, 0 without a verdict; ";
    assert!(
        said.contains(shown) && said.contains(" a second, ") && said.contains(" s left\r\u{1b}[K- time limit\t"),
        "{said:?}"
    );
    assert!(said.trim_end().ends_with(" s") && said.contains("2 of 2: 1 refuted, 0 refused, 1 without a verdict; "));
    // Where standard error is no terminal, there is the last state alone.
    let said = all(&folder, &["-t", "1", "."]);
    assert_eq!(said.error.lines().count(), 1, "{}", said.error);
}

#[test]
fn the_time_limit() {
    let folder = folder("limit");
    copy(&folder, &["case-a.cnf", "case-a.proof"]);
    slow(&folder);
    let wanted = ["- time limit\t./slow.cnf\t./slow.proof", "0 12 2 1 10\t./case-a.cnf\t./case-a.proof"];
    all(&folder, &["-t", "1", "-o", "results", "."]).is(2, &wanted);
    // It has no verdict, so it is tried again.
    all(&folder, &["-t", "1", "-r", "results", "."]).is(2, &wanted[..1]);
}
