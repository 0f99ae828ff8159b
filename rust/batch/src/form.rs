//! The form of a proof: records, a DRAT text, or binary DRAT.

use std::os::unix::ffi::OsStrExt;
use std::path::Path;

#[derive(Clone, Copy, Debug, PartialEq, Eq, PartialOrd, Ord, Hash)]
pub enum Form {
    Records,
    Text,
    Binary,
}

impl Form {
    pub const ALL: [Form; 3] = [Form::Records, Form::Text, Form::Binary];

    pub fn name(self) -> &'static str {
        match self {
            Form::Records => "records",
            Form::Text => "text",
            Form::Binary => "binary",
        }
    }

    pub fn named(name: &[u8]) -> Option<Form> {
        Form::ALL.into_iter().find(|form| form.name().as_bytes() == name)
    }

    /// The ending of a proof's name that means this form.
    fn ending(self) -> &'static str {
        match self {
            Form::Records => "proof",
            Form::Text => "drat",
            Form::Binary => "bdrat",
        }
    }

    /// The form that a proof's name means; none where its ending means none.
    pub fn of(proof: &Path) -> Option<Form> {
        let ending = proof.extension()?.as_bytes();
        Form::ALL.into_iter().find(|form| form.ending().as_bytes() == ending)
    }
}
