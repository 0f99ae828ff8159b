//! What goes wrong: a killed worker, a killed pool, a full disk, two runs on one file, files that cannot be read, a wrong manifest. No
//! pair is lost, none is reported twice, and the others go on.

mod common;

use common::{all, children, copies, folder, kill, records, runs, slow, start, until, Said, ALL};
use std::env;
use std::fs;
use std::os::unix::fs::{MetadataExt, PermissionsExt};
use std::os::unix::process::CommandExt;
use std::path::Path;
use std::process::{self, Command};

#[test]
fn a_killed_worker() {
    let folder = folder("killed-worker");
    copies(&folder, 20);
    slow(&folder);
    let run = start(&folder, &["-j", "2", "-t", "0", "-o", "results", "."]);
    // The other worker has ended, since nothing is left for it.
    until("the slow pair alone", || records(&folder.join("results"), "pair") == 20 && children(run.id()).len() == 1);
    kill(children(run.id())[0]);
    let said = Said::of(run.wait_with_output().unwrap());
    assert_eq!((said.status, said.lines.len()), (Some(2), 21));
    assert_eq!(said.lines[0], "- ended by signal 9\t./slow.cnf\t./slow.proof");
    assert!(said.lines[1..].iter().all(|line| line.starts_with("0 12 2 1 10\t")));
    let results = fs::read_to_string(folder.join("results")).unwrap();
    assert!(results.contains("\"outcome\":\"ended\",\"signal\":9"));
}

#[test]
fn a_killed_pool() {
    let folder = folder("killed-pool");
    let results = folder.join("results");
    copies(&folder, 20);
    slow(&folder);
    let mut run = start(&folder, &["-j", "2", "-t", "0", "-o", "results", "."]);
    until("the slow pair alone", || records(&results, "pair") == 20 && children(run.id()).len() == 1);
    let worker = children(run.id())[0];
    kill(run.id());
    run.wait().unwrap();
    until("no worker outlives its pool", || !runs(worker));
    assert_eq!((records(&results, "run"), records(&results, "end")), (1, 0));
    // Its last line is cut as well; the run is resumed.
    let length = fs::metadata(&results).unwrap().len();
    fs::OpenOptions::new().write(true).open(&results).unwrap().set_len(length - 30).unwrap();
    fs::remove_file(folder.join("slow.cnf")).unwrap();
    fs::remove_file(folder.join("slow.proof")).unwrap();
    let said = all(&folder, &["-r", "results", "."]);
    assert_eq!((said.status, said.lines.len()), (Some(0), 1));
    assert!(
        said.error.contains("20 of 20: 20 refuted, 0 refused, 0 without a verdict (19 known before)"),
        "{}",
        said.error
    );
    assert_eq!((records(&results, "pair"), records(&results, "end")), (20, 1));
}

#[test]
fn a_full_disk() {
    let folder = folder("full-disk");
    let results = folder.join("results");
    copies(&folder, 200);
    // Files of this process may have 40 KiB: writing beyond fails, as on a full disk.
    let limited = "trap '' XFSZ; ulimit -f 40; exec \"$0\" -q -o results .";
    let said = Said::of(Command::new("bash").current_dir(&folder).args(["-c", limited, ALL]).output().unwrap());
    assert_eq!(said.status, Some(3));
    assert!(said.error.starts_with("refute-all: results: File too large"), "{}", said.error);
    let whole = records(&results, "pair");
    assert_eq!(fs::metadata(&results).unwrap().len(), 40 << 10);
    let said = all(&folder, &["-r", "results", "."]);
    assert_eq!(said.status, Some(0));
    let (known, told) = (whole - 1, said.lines.len());
    assert!((known..=whole).contains(&(200 - told)), "{whole} records, then {told} lines");
    assert_eq!(records(&results, "pair"), 200);
    // The lines' disk is full.
    let full = "exec \"$0\" . >/dev/full";
    let said = Said::of(Command::new("bash").current_dir(&folder).args(["-c", full, ALL]).output().unwrap());
    assert_eq!(said.status, Some(3));
    assert!(said.error.starts_with("refute-all: standard output: No space left"), "{}", said.error);
}

#[test]
fn two_runs_on_one_file() {
    let folder = folder("two-runs");
    copies(&folder, 2);
    slow(&folder);
    let mut run = start(&folder, &["-t", "0", "-r", "results", "."]);
    until("two pairs", || records(&folder.join("results"), "pair") == 2);
    let said = all(&folder, &["-r", "results", "."]);
    said.is(3, &[]);
    assert_eq!(said.error, "refute-all: results: another run writes to it\n");
    run.kill().unwrap();
    run.wait().unwrap();
    assert_eq!((records(&folder.join("results"), "run"), records(&folder.join("results"), "pair")), (1, 2));
}

#[test]
fn results_that_are_no_plain_file() {
    let folder = folder("no-plain-file");
    copies(&folder, 1);
    assert!(Command::new("mkfifo").arg(folder.join("fifo")).status().unwrap().success());
    for results in ["fifo", "."] {
        let said = all(&folder, &["-r", results, "."]);
        said.is(3, &[]);
        assert!(said.error.ends_with(": is no plain file\n"), "{}", said.error);
    }
    all(&folder, &["-o", "no-such-folder/results", "."]).is(3, &[]);
}

#[test]
fn files_that_are_none() {
    let folder = folder("fifo");
    copies(&folder, 1);
    fs::write(folder.join("waits.cnf"), "p cnf 0 0\n").unwrap();
    assert!(Command::new("mkfifo").arg(folder.join("waits.proof")).status().unwrap().success());
    fs::write(folder.join("zero.cnf"), "p cnf 0 0\n").unwrap();
    std::os::unix::fs::symlink("/dev/zero", folder.join("zero.proof")).unwrap();
    let wanted = [
        "0 12 2 1 10\t./copy0000.cnf\t./copy0000.proof",
        "25 0 0 0 0\t./waits.cnf\t./waits.proof",
        "25 0 0 0 0\t./zero.cnf\t./zero.proof",
    ];
    all(&folder, &["."]).is(2, &wanted);
    // As a name on the command line.
    all(&folder, &["waits.proof"]).is(2, &[]);
}

#[test]
fn no_permission() {
    // Where everybody may look, which the repository need not be.
    let folder = env::temp_dir().join(format!("refute-all-test.{}", process::id()));
    fs::create_dir(&folder).unwrap();
    fs::set_permissions(&folder, fs::Permissions::from_mode(0o755)).unwrap();
    copies(&folder, 2);
    fs::create_dir(folder.join("shut")).unwrap();
    for (name, mode) in [("copy0001.proof", 0o000), ("shut", 0o000)] {
        fs::set_permissions(folder.join(name), fs::Permissions::from_mode(mode)).unwrap();
    }
    // The superuser reads everything; nobody does not.
    let is_superuser = fs::metadata("/proc/self").unwrap().uid() == 0;
    let mut command = Command::new(if is_superuser { lent_program(&folder) } else { ALL.into() });
    if is_superuser {
        command.uid(65_534).gid(65_534);
    }
    let said = Said::of(command.current_dir(&folder).arg(".").output().unwrap());
    fs::set_permissions(folder.join("shut"), fs::Permissions::from_mode(0o700)).unwrap();
    fs::remove_dir_all(&folder).unwrap();
    let wanted = ["0 12 2 1 10\t./copy0000.cnf\t./copy0000.proof", "25 0 0 0 0\t./copy0001.cnf\t./copy0001.proof"];
    said.is(2, &wanted);
    assert!(said.error.starts_with("refute-all: ./shut: Permission denied"), "{}", said.error);
}

/// The program where everybody may start it.
fn lent_program(folder: &Path) -> std::path::PathBuf {
    let program = folder.join("refute-all");
    fs::copy(ALL, &program).unwrap();
    program
}

#[test]
fn a_wrong_manifest_line() {
    let folder = folder("manifest");
    copies(&folder, 2);
    let list = "copy0000.cnf\tcopy0000.proof\ncopy0001.cnf copy0001.proof\n\ncopy0001.cnf\tcopy0001.proof\tother\nno\tno.proof\n";
    fs::write(folder.join("list"), list).unwrap();
    let said = all(&folder, &["-o", "results", "list"]);
    said.is(2, &["0 12 2 1 10\tcopy0000.cnf\tcopy0000.proof", "25 0 0 0 0\tno\tno.proof"]);
    let wanted = "refute-all: list: line 2: needs a formula, a tab and a proof\n\
                  refute-all: list: line 4: needs a form, records, text or binary, after a second tab\n";
    assert!(said.error.starts_with(wanted), "{}", said.error);
    assert_eq!(records(&folder.join("results"), "fault"), 2);
    let results = fs::read_to_string(folder.join("results")).unwrap();
    assert!(results.contains("\"faults\":2,\"status\":2"));
}

#[test]
fn a_small_stack_and_no_room_for_the_list() {
    let folder = folder("stack");
    copies(&folder, 3);
    let small = "ulimit -s 256; exec \"$0\" -q .";
    let said = Said::of(Command::new("bash").current_dir(&folder).args(["-c", small, ALL]).output().unwrap());
    said.is(0, &[]);
    let output = Command::new(ALL).current_dir(&folder).arg(".").env("TMPDIR", "/no/such/folder").output().unwrap();
    let said = Said::of(output);
    said.is(3, &[]);
    assert!(said.error.contains("/no/such/folder/refute-all"), "{}", said.error);
}
