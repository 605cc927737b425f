//! Stands in for the crate's `reference_tables`: which remark numbers are valid goes by
//! a table that is lent to this thread, as it is lent to the port.
//!
//! The crate's own 42 numbers come from its reference_tables.rs, which is compiled unchanged.
//! Three tables of crystal symbols that it includes aren't beside it; a macro of the same
//! name puts an empty table in the place of each.

use std::cell::Cell;

#[allow(dead_code, unexpected_cfgs)]
mod unchanged {
    macro_rules! include {
        ($file:literal) => {
            &[]
        };
    }
    ::core::include!(concat!(env!("PDBTBX_SRC"), "/src/reference_tables.rs"));
}

thread_local! {
    static LENT: Cell<&'static [u8]> = const { Cell::new(&[]) };
}

/// Lends a table: number n is valid if byte n is there and isn't 0.
pub fn lend(table: &'static [u8]) {
    LENT.set(table);
}

/// The question that lexer.rs asks.
pub fn valid_remark_type_number(number: usize) -> bool {
    LENT.get().get(number).is_some_and(|byte| *byte != 0)
}

/// The answer of the crate's own table.
pub fn valid_in_the_crate(number: usize) -> bool {
    unchanged::valid_remark_type_number(number)
}
