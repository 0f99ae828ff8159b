//! The checks in records as files: NAME.cnf, NAME.proof and NAME.places.

use crate::workloads::Workload;
use std::fs;
use std::io;
use std::path::Path;

pub fn write_all(folder: &str, workloads: &[Workload]) -> io::Result<()> {
    for workload in workloads {
        // The word, places, members, scratch places, formula, proof.
        if let ["check", places, _, _, formula, proof] = workload.command.split(' ').collect::<Vec<_>>()[..] {
            let name: String = workload.name.chars().map(|c| if c.is_ascii_alphanumeric() { c } else { '-' }).collect();
            let path = |end: &str| Path::new(folder).join(format!("{name}.{end}"));
            fs::write(path("cnf"), bytes(formula))?;
            fs::write(path("proof"), bytes(proof))?;
            fs::write(path("places"), places)?;
        }
    }
    Ok(())
}

/// The bytes that a text of hexadecimal digits stands for.
fn bytes(hex: &str) -> Vec<u8> {
    let digit = |digit: u8| (digit as char).to_digit(16).expect("the workloads write hexadecimal digits") as u8;
    hex.as_bytes().chunks(2).map(|pair| digit(pair[0]) * 16 + digit(pair[1])).collect()
}
