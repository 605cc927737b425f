//! Stands in for the crate's `error`, which isn't carried along. The crate's own context keeps a copy of the line; with
//! `--cfg copying` this one does too, and without it keeps nothing.

/// How bad an error is; lexer.rs uses these three levels.
pub enum ErrorLevel {
    InvalidatingError,
    GeneralWarning,
    LooseWarning,
}

/// Where an error is. lexer.rs makes one for every field, whether it has an error or not.
#[cfg(copying)]
pub struct Context {
    pub number: usize,
    pub line: String,
    pub place: usize,
    pub length: usize,
}

#[cfg(copying)]
impl Context {
    pub fn line(number: usize, line: &str, place: usize, length: usize) -> Self {
        Context { number, line: line.to_string(), place, length }
    }
}

#[cfg(not(copying))]
pub struct Context;

#[cfg(not(copying))]
impl Context {
    pub fn line(_: usize, _: &str, _: usize, _: usize) -> Self {
        Context
    }
}

pub struct PDBError {
    pub level: ErrorLevel,
    pub title: &'static str,
    pub text: String,
    pub context: Context,
}

impl PDBError {
    pub fn new(
        level: ErrorLevel,
        title: &'static str,
        text: impl Into<String>,
        context: Context,
    ) -> Self {
        PDBError { level, title, text: text.into(), context }
    }
}
