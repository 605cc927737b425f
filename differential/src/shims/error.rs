//! Stands in for the crate's `error`. An error keeps what the oracle asks for:
//! its level, its two texts, and the context's line number, place and length.

/// How bad an error is; lexer.rs uses these three levels.
#[derive(Clone, Copy, Debug, PartialEq, Eq)]
pub enum ErrorLevel {
    InvalidatingError,
    GeneralWarning,
    LooseWarning,
}

/// Where an error is. The crate's own also copies the line.
#[derive(Clone, Copy, Debug)]
pub struct Context {
    pub number: usize,
    pub place: usize,
    pub length: usize,
}

impl Context {
    pub fn line(number: usize, _line: &str, place: usize, length: usize) -> Self {
        Context { number, place, length }
    }
}

/// An error, which for the oracle is a fault or a refusal.
#[derive(Clone, Debug)]
pub struct PDBError {
    pub level: ErrorLevel,
    pub title: &'static str,
    pub text: String,
    pub context: Context,
}

impl PDBError {
    pub fn new(
        level: ErrorLevel,
        title: &'static str,
        text: impl Into<String>,
        context: Context,
    ) -> Self {
        PDBError { level, title, text: text.into(), context }
    }
}
