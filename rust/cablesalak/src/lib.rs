//! Safe calls of the proved checker of diagram refutations.
//!
//! The archive `libexport.a` holds the machine-checked library (`docs/THEOREMS.md` of the repository says what is proved). This
//! crate lends it buffers of proper length and gives its numbers names; every verdict is the library's own.
//!
//! # A check
//!
//! Four clauses that no two truth values satisfy, and a proof of two lines: "x2", then 0.
//!
//! ```
//! use cablesalak::{check, Number, Workspace};
//!
//! let formula = b"p cnf 2 4\n1 2 0\n-1 2 0\n1 -2 0\n-1 -2 0\n";
//! let proof = b"\x4E\x02\0\0\x01\0\x52\x02\0\x52\0\0\x45";
//!
//! let mut workspace = Workspace::new(4_096)?;
//! let verdict = check(&mut workspace, formula, proof);
//! assert!(verdict.refuted());
//! assert_eq!(verdict.to_string(), "0 12 2 1 10");
//!
//! // Without its first line the proof is refused at its first byte.
//! let verdict = check(&mut workspace, formula, &proof[9..]);
//! assert_eq!(verdict.number, Number::NotShown);
//! assert_eq!(format!("{verdict}: {}", verdict.number), "19 0 0 0 8: not shown: no conflict");
//! # Ok::<(), Number>(())
//! ```
//!
//! [`Workspace::check`] takes proofs of every form, records, DRAT text and binary DRAT, in the consequence profile and outside
//! it, as a [`Mode`] names them. [`to_binary`] and [`to_text`] convert DRAT proofs.
//!
//! # A program
//!
//! [`report`] gives the line that `bin/refute` prints of two files, and the status to end with; both are proved.
//! [`Workspace::report`] does so for every mode, with a table of any size.
//!
//! ```
//! use cablesalak::report;
//!
//! let said = report(Some(b"p cnf 1 2\n1 0\n-1 0\n"), Some(b"\x52\0\0\x45"));
//! assert_eq!((said.line(), said.status()), ("0 3 1 0 4\n", 0));
//!
//! // A proof that could not be read.
//! let said = report(Some(b"p cnf 1 2\n1 0\n-1 0\n"), None);
//! assert_eq!((said.line(), said.status()), ("25 0 0 0 0\n", 2));
//! ```
//!
//! # Single calls
//!
//! A table holds diagrams; equal diagrams have equal node numbers.
//!
//! ```
//! use cablesalak::{Node, NodeNo, Number, Table, Variables};
//!
//! let mut table = Table::new(64)?;
//! let x2 = table.push(Node::new(2, NodeNo::ZERO, NodeNo::ONE))?;
//! let not_x2 = table.negation(x2)?;
//! let xor = table.push(Node::new(1, x2, not_x2))?;
//!
//! assert!(table.evaluate(xor, Variables::of(&[1]).unwrap())?);
//! assert!(!table.evaluate(xor, Variables::of(&[1, 2]).unwrap())?);
//!
//! // Where exactly one of 1 and 2 is true, 2 is not-1.
//! let not_x1 = table.cofactor(x2, xor)?;
//! assert_eq!(table.node(not_x1), Some(Node::new(1, NodeNo::ONE, NodeNo::ZERO)));
//!
//! assert_eq!(table.cofactor(x2, NodeNo::ZERO), Err(Number::CofactorByZero));
//! # Ok::<(), Number>(())
//! ```
//!
//! # Stack and threads
//!
//! A call takes less than 1.25 MiB of stack, whatever the table ([`report`], which has a table of its own, less than 1.375 MiB). The
//! library keeps nothing between calls, so that threads may call it at the same time, each with its own places.

#![deny(unsafe_code)]

mod check;
mod convert;
mod index;
mod lent;
mod mode;
mod node;
#[cfg(feature = "nodes")]
mod nodes;
mod number;
#[allow(unsafe_code)]
pub mod raw;
mod report;
mod table;
mod view;
mod why;

pub use check::{
    check, check_lent, check_lent_in, check_text, check_text_lent, Text, Verdict, Workspace, MEMBERS, SCRATCH,
};
pub use convert::{to_binary, to_text, NotConverted};
pub use index::chain;
pub use lent::{TableMut, PLACES};
pub use mode::{Form, Mode};
pub use node::{Node, NodeNo, Variables};
#[cfg(feature = "nodes")]
pub use nodes::NodesMut;
pub use number::{NoSuchNumber, Number, OtherNumber};
pub use raw::{Columns, ColumnsMut, ListsMut};
#[cfg(feature = "nodes")]
pub use raw::{Rows, RowsMut};
pub use report::{report, Report, LONGEST};
pub use table::Table;
pub use why::{Cause, Explanation, Round, FIXED};

/// The library's version; the header's `CABLESALAK_VERSION` is the same. An archive whose calls are laid out in another way does
/// not link.
pub const VERSION: &str = env!("CARGO_PKG_VERSION");

/// The examples of the page for those who link the library are run with the others.
#[cfg(doctest)]
#[doc = include_str!("../../../docs/LINKING.md")]
pub struct Linking;
