//! Why a check is refused, in words and as a picture. What is told is the proved library's: the piece, the literals, the member. The words
//! are made here, from it and from the formula's comment lines.

pub mod binary;
pub mod cause;
pub mod line;
pub mod picture;
pub mod text;
pub mod words;
