//! Intel HEX twice: the proved functions held against a plain reader and writer that were written apart from them.

pub mod both;
pub mod plain;
#[path = "../../compare/src/cases/random.rs"]
pub mod random;
pub mod texts;
