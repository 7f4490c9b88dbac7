//! The second program: document 01 written down once more, independently of the proved crates, to be compared with them.

pub mod cases;
pub mod conflict;
pub mod dangers;
pub mod every;
pub mod lowest;
pub mod making;
pub mod notation;
pub mod oracle;
pub mod questions;
pub mod random;
pub mod reader;
pub mod refusal;
pub mod search;
pub mod sheet;
pub mod split;
pub mod stream;
pub mod survey;
