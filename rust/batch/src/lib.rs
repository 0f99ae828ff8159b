//! Many pairs of a formula and a proof, checked through the wrappers of the proved library: `refute-all` checks them, `refute-page` makes
//! a page of the results. Every verdict is the library's; this crate has files, processes and words.

pub mod check;
pub mod files;
pub mod form;
pub mod json;
pub mod known;
pub mod list;
pub mod manifest;
pub mod message;
pub mod pairs;
pub mod pool;
pub mod record;
pub mod results;
pub mod sha256;
pub mod twice;
pub mod worker;
