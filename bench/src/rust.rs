//! The Rust that was carried over, as a side of the bench: lexer.rs and lexitem.rs, compiled unchanged from the folder named
//! in PDBTBX_SRC. It is a crate of its own, since lexer.rs names its error types from the root, and is compiled twice.
#![allow(dead_code)]

mod error;
#[path = "../../differential/src/shims/options.rs"]
mod options;
#[path = "../../differential/src/shims/reference_tables.rs"]
mod reference_tables;
mod sum;

mod lexer {
    include!(concat!(env!("PDBTBX_SRC"), "/src/read/pdb/lexer.rs"));
}

mod lexitem {
    include!(concat!(env!("PDBTBX_SRC"), "/src/read/pdb/lexitem.rs"));
}

// The names that lexer.rs expects at the root of its crate.
use options::{ReadOptions, StrictnessLevel};

use lexitem::LexItem;
use std::hint::black_box;

/// Every line of a file through `lex_line`, and the checksum of what came of it. The names are those that the
/// counting of instructions goes by.
#[cfg_attr(copying, export_name = "bench_rust_copying")]
#[cfg_attr(not(copying), export_name = "bench_rust_light")]
#[inline(never)]
pub fn read(file: &str) -> u64 {
    let options = ReadOptions { level: StrictnessLevel::Strict, only_atomic_coords: false };
    reference_tables::lend(&[1; 1000]);
    let mut sum = 0;
    for (index, line) in file.lines().enumerate() {
        // A refusal counts as no fault.
        let mut faults = 0;
        if let Ok((item, errors)) = black_box(lexer::lex_line(line, index + 1, &options)) {
            if let LexItem::Atom(_, _, _, _, _, _, _, _, x, y, z, occupancy, b_factor, _, _, _) =
                item
            {
                sum = sum::of_doubles(sum, [x, y, z, occupancy, b_factor]);
            }
            faults = errors.len() as u64;
        }
        sum = sum::mixed(sum, faults);
    }
    sum
}
