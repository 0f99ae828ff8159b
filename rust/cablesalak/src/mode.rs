//! How a proof is read and what its lines may be.

use crate::raw::RawMode;

/// The form of a proof.
#[derive(Clone, Copy, Debug, Default, PartialEq, Eq, Hash)]
pub enum Form {
    /// The records of docs/FORMAT.md.
    #[default]
    Records,
    /// A DRAT text.
    Text,
    /// Binary DRAT.
    Binary,
}

/// What a check is told of a proof besides its bytes. `Mode::default()` is a proof in records, outside the consequence profile.
///
/// ```
/// use cablesalak::{Form, Mode};
///
/// assert_eq!(Mode::TEXT, Mode { form: Form::Text, consequence: false });
/// assert_eq!(Mode::TEXT.in_consequence_profile(), Mode { form: Form::Text, consequence: true });
/// ```
#[derive(Clone, Copy, Debug, Default, PartialEq, Eq, Hash)]
pub struct Mode {
    pub form: Form,
    /// The consequence profile: each accepted line is true under every assignment that satisfies the formula. A PR line is
    /// refused with 33, and a DRAT clause has its first try alone.
    pub consequence: bool,
}

impl Mode {
    pub const RECORDS: Mode = Mode { form: Form::Records, consequence: false };
    pub const TEXT: Mode = Mode { form: Form::Text, consequence: false };
    pub const BINARY: Mode = Mode { form: Form::Binary, consequence: false };

    /// The same form in the consequence profile.
    pub const fn in_consequence_profile(self) -> Mode {
        Mode { form: self.form, consequence: true }
    }

    /// As the archive numbers it.
    pub(crate) fn raw(self) -> RawMode {
        let form = match self.form {
            Form::Records => 0,
            Form::Text => 1,
            Form::Binary => 2,
        };
        RawMode { form, consequence: self.consequence }
    }
}
