//! What lexer.rs names and what isn't in its folder, as small as it can be:
//! the error types, the options, and a remark table that can be lent.

pub mod error;
pub mod options;
pub mod reference_tables;
