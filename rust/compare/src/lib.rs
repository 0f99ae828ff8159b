//! Generators of commands for the filters of the line protocol, and the filters as child processes.

pub mod alter;
pub mod binary;
pub mod books;
pub mod check;
pub mod clausal;
pub mod convert;
pub mod diagram;
pub mod drat;
pub mod families;
mod fault;
pub mod filter;
pub mod formula;
mod index;
pub mod kept;
mod large;
pub mod options;
pub mod outside;
pub mod paths;
pub mod proof;
pub mod random;
pub mod read;
pub mod single;
mod strike;
pub mod table;
pub mod tally;
pub mod why;
