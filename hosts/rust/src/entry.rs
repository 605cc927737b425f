//! The entries as include/saltighedda.h has them, and the only unsafe calls of the crate. A slice goes over as its pointer and its
//! length, so each is as long as it says; the outputs are borrowed mutably, so their bytes are in no other buffer of the call.

mod c {
    extern "C" {
        pub fn saltighedda_kind(line: *const u8, line_len: usize, options: u32) -> u64;
        pub fn saltighedda_read(
            line: *const u8,
            line_len: usize,
            number: usize,
            options: u32,
            remarks: *const u8,
            remarks_len: usize,
            kind: u32,
            fields: *mut u64,
            fields_len: usize,
            faults: *mut u64,
            faults_len: usize,
        ) -> u64;
        pub fn saltighedda_write_atom(
            hetero: u32,
            serial: u64,
            name: *const u8,
            name_len: usize,
            alternate: *const u8,
            alternate_len: usize,
            residue: *const u8,
            residue_len: usize,
            chain: *const u8,
            chain_len: usize,
            number: i64,
            insertion: *const u8,
            insertion_len: usize,
            x: f64,
            y: f64,
            z: f64,
            occupancy: f64,
            bfactor: f64,
            segment: *const u8,
            segment_len: usize,
            element: *const u8,
            element_len: usize,
            charge: i64,
            places: *const u8,
            places_len: usize,
            out: *mut u8,
            out_len: usize,
        ) -> u64;
        pub fn saltighedda_write_anisou(
            serial: u64,
            name: *const u8,
            name_len: usize,
            alternate: *const u8,
            alternate_len: usize,
            residue: *const u8,
            residue_len: usize,
            chain: *const u8,
            chain_len: usize,
            number: i64,
            insertion: *const u8,
            insertion_len: usize,
            u11: f64,
            u22: f64,
            u33: f64,
            u12: f64,
            u13: f64,
            u23: f64,
            segment: *const u8,
            segment_len: usize,
            element: *const u8,
            element_len: usize,
            charge: i64,
            out: *mut u8,
            out_len: usize,
        ) -> u64;
        pub fn saltighedda_write_cell(
            a: f64,
            b: f64,
            c: f64,
            alpha: f64,
            beta: f64,
            gamma: f64,
            group: *const u8,
            group_len: usize,
            z: u64,
            places: *const u8,
            places_len: usize,
            out: *mut u8,
            out_len: usize,
        ) -> u64;
        pub fn saltighedda_write_row(
            family: u32,
            row: u64,
            serial: u64,
            a: f64,
            b: f64,
            c: f64,
            d: f64,
            given: u32,
            places: *const u8,
            places_len: usize,
            out: *mut u8,
            out_len: usize,
        ) -> u64;
        pub fn saltighedda_write_model(number: u64, out: *mut u8, out_len: usize) -> u64;
        pub fn saltighedda_write_bare(which: u32, out: *mut u8, out_len: usize) -> u64;
    }
}

use crate::{Anisou, Atom, Cell, Row};

/// The words of a line's fields, and those of its faults.
pub const FIELDS: usize = 34;
pub const FAULTS: usize = 31;

/// The bytes of a written line.
pub const LINE: usize = 80;

const ANY: u32 = u32::MAX;

pub fn kind(line: &[u8], options: u32) -> u64 {
    unsafe { c::saltighedda_kind(line.as_ptr(), line.len(), options) }
}

pub fn read(
    line: &[u8],
    number: usize,
    options: u32,
    remarks: &[u8],
    fields: &mut [u64; FIELDS],
    faults: &mut [u64; FAULTS],
) -> u64 {
    unsafe {
        c::saltighedda_read(
            line.as_ptr(),
            line.len(),
            number,
            options,
            remarks.as_ptr(),
            remarks.len(),
            ANY,
            fields.as_mut_ptr(),
            FIELDS,
            faults.as_mut_ptr(),
            FAULTS,
        )
    }
}

/// A character as a text of one byte or none.
fn one(character: &Option<u8>) -> &[u8] {
    character.as_slice()
}

pub fn write_atom(v: &Atom, places: &[u8], out: &mut [u8; LINE]) -> u64 {
    let (alternate, chain, insertion) =
        (one(&v.alternate), std::slice::from_ref(&v.chain), one(&v.insertion));
    unsafe {
        c::saltighedda_write_atom(
            v.hetero.into(),
            v.serial,
            v.name.as_ptr(),
            v.name.len(),
            alternate.as_ptr(),
            alternate.len(),
            v.residue.as_ptr(),
            v.residue.len(),
            chain.as_ptr(),
            chain.len(),
            v.number,
            insertion.as_ptr(),
            insertion.len(),
            v.x,
            v.y,
            v.z,
            v.occupancy,
            v.bfactor,
            v.segment.as_ptr(),
            v.segment.len(),
            v.element.as_ptr(),
            v.element.len(),
            v.charge,
            places.as_ptr(),
            places.len(),
            out.as_mut_ptr(),
            LINE,
        )
    }
}

pub fn write_anisou(v: &Anisou, out: &mut [u8; LINE]) -> u64 {
    let (alternate, chain, insertion) =
        (one(&v.alternate), std::slice::from_ref(&v.chain), one(&v.insertion));
    unsafe {
        c::saltighedda_write_anisou(
            v.serial,
            v.name.as_ptr(),
            v.name.len(),
            alternate.as_ptr(),
            alternate.len(),
            v.residue.as_ptr(),
            v.residue.len(),
            chain.as_ptr(),
            chain.len(),
            v.number,
            insertion.as_ptr(),
            insertion.len(),
            v.u11,
            v.u22,
            v.u33,
            v.u12,
            v.u13,
            v.u23,
            v.segment.as_ptr(),
            v.segment.len(),
            v.element.as_ptr(),
            v.element.len(),
            v.charge,
            out.as_mut_ptr(),
            LINE,
        )
    }
}

pub fn write_cell(v: &Cell, places: &[u8], out: &mut [u8; LINE]) -> u64 {
    unsafe {
        c::saltighedda_write_cell(
            v.a,
            v.b,
            v.c,
            v.alpha,
            v.beta,
            v.gamma,
            v.group.as_ptr(),
            v.group.len(),
            v.z,
            places.as_ptr(),
            places.len(),
            out.as_mut_ptr(),
            LINE,
        )
    }
}

pub fn write_row(v: &Row, places: &[u8], out: &mut [u8; LINE]) -> u64 {
    unsafe {
        c::saltighedda_write_row(
            v.family as u32,
            v.row,
            v.serial,
            v.a,
            v.b,
            v.c,
            v.d,
            v.given.into(),
            places.as_ptr(),
            places.len(),
            out.as_mut_ptr(),
            LINE,
        )
    }
}

pub fn write_model(number: u64, out: &mut [u8; LINE]) -> u64 {
    unsafe { c::saltighedda_write_model(number, out.as_mut_ptr(), LINE) }
}

pub fn write_bare(which: u32, out: &mut [u8; LINE]) -> u64 {
    unsafe { c::saltighedda_write_bare(which, out.as_mut_ptr(), LINE) }
}
