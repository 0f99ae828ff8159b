//! The stack that a call takes: the driver is run on smaller and smaller stacks until it no longer answers.

use crate::workloads::Workload;
use compare::filter::Filter;

const STEP: usize = 16 << 10;
const LARGEST: usize = 8 << 20;

pub fn report(driver: &str, workloads: &[Workload]) {
    for workload in workloads {
        report_all(driver, &workload.name, std::slice::from_ref(&workload.command));
    }
}

/// The same of commands that follow one another.
pub fn report_all(driver: &str, name: &str, commands: &[String]) {
    match least(driver, commands) {
        Some(bytes) => println!("{name:<44} {:>9} KiB of stack", bytes >> 10),
        None => println!("{name:<44} more than {} KiB of stack", LARGEST >> 10),
    }
}

/// The least stack, in steps, on which the commands are answered.
fn least(driver: &str, commands: &[String]) -> Option<usize> {
    let (mut too_small, mut enough) = (0, LARGEST / STEP);
    if !answered(driver, commands, LARGEST) {
        return None;
    }
    while enough - too_small > 1 {
        let middle = (too_small + enough) / 2;
        if answered(driver, commands, middle * STEP) {
            enough = middle;
        } else {
            too_small = middle;
        }
    }
    Some(enough * STEP)
}

/// Whether a driver on this stack answers, rather than ends early.
fn answered(driver: &str, commands: &[String], stack: usize) -> bool {
    let mut filter = Filter::start(&format!("{driver} --stack {stack}"));
    let answers = filter.ask(commands);
    filter.end();
    answers.len() == commands.len()
}
