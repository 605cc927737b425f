//! The Rust that was carried over: lexer.rs and lexitem.rs, compiled unchanged from the folder
//! named in PDBTBX_SRC, and asked one line at a time. A panic is an answer too.

use crate::error::PDBError;
use crate::{ReadOptions, StrictnessLevel};
use lexitem::LexItem;
use std::cell::Cell;
use std::panic::{self, AssertUnwindSafe};

mod lexer {
    include!(concat!(env!("PDBTBX_SRC"), "/src/read/pdb/lexer.rs"));
}

pub mod lexitem {
    include!(concat!(env!("PDBTBX_SRC"), "/src/read/pdb/lexitem.rs"));
}

/// What `lex_line` did with a line.
pub enum Reply {
    Read(LexItem, Vec<PDBError>),
    Error(PDBError),
    /// It panicked, at this line of lexer.rs (0 if elsewhere).
    Panic(u32),
}

thread_local! {
    static ASKING: Cell<bool> = const { Cell::new(false) };
    static PANICKED_AT: Cell<u32> = const { Cell::new(0) };
}

/// Keeps panics inside `ask` silent, and notes where they were. Call it once, at the start.
pub fn expect_panics() {
    let usual = panic::take_hook();
    panic::set_hook(Box::new(move |told| {
        if !ASKING.get() {
            return usual(told);
        }
        PANICKED_AT.set(match told.location() {
            Some(at) if at.file().ends_with("lexer.rs") => at.line(),
            _ => 0,
        });
    }));
}

/// Asks `lex_line`. Of the levels that aren't loose, odd line numbers take one and even ones the
/// other, since 01 says that they read alike.
pub fn ask(line: &str, number: usize, atoms_only: bool, loose: bool) -> Reply {
    let options = ReadOptions {
        level: match (loose, number % 2) {
            (true, _) => StrictnessLevel::Loose,
            (false, 0) => StrictnessLevel::Strict,
            (false, _) => StrictnessLevel::Medium,
        },
        only_atomic_coords: atoms_only,
    };
    ASKING.set(true);
    let answer = panic::catch_unwind(AssertUnwindSafe(|| lexer::lex_line(line, number, &options)));
    ASKING.set(false);
    match answer {
        Ok(Ok((item, errors))) => Reply::Read(item, errors),
        Ok(Err(error)) => Reply::Error(error),
        Err(_) => Reply::Panic(PANICKED_AT.get()),
    }
}
