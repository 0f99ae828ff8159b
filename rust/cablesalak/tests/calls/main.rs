//! The library through the wrapper, over lists that hold anything before a call.

mod at_least;
mod checks;
mod conversions;
mod lent;
mod modes;
mod nodes;
mod numbers;
mod rows;
mod singles;
mod sizes;
mod stack;
mod texts;
