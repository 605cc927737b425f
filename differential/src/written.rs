//! Holds what the port wrote to what it has to be (`writing`), and what is read of a written line to
//! the record that was written.

use crate::columns::{trimmed, KINDS};
use crate::compare::Due;
use crate::domain::Class;
use crate::generate::{Input, Task};
use crate::oracle::Refusal;
use crate::port::{Answer, NOT_READ, OUTPUT, UNWRITTEN};
use crate::sorts::Sorts;
use crate::tally::add_all;
use crate::writing::{self, nearest, places_of, LONG};

/// What should come of a record.
#[derive(Clone, Copy, PartialEq, Eq)]
pub enum Wanted {
    Line([u8; LONG]),
    Refused(Refusal),
    /// The line is refused, so there is none.
    NotRead,
}

/// What should come of a line's record. The name that is lent are the line's bytes in its columns.
pub fn wanted(input: &Input, due: &Due) -> Wanted {
    let name = input.line.get(12..16).unwrap_or(b"    ");
    let read = (input.task == Task::WriteAsRead).then_some(&*input.line);
    match due.item.as_ref().map(|item| writing::line(item, name, read, input.room)) {
        Some(Ok(line)) => Wanted::Line(line),
        Some(Err(refusal)) => Wanted::Refused(refusal),
        None => Wanted::NotRead,
    }
}

/// The first thing in the port's answer that isn't as it should be.
pub fn wrong(wanted: &Wanted, answer: &Answer) -> Option<&'static str> {
    let (word, line): (u64, &[u8]) = match wanted {
        Wanted::Line(line) => (0, line),
        Wanted::Refused(refusal) => (packed(refusal), &[]),
        Wanted::NotRead => (NOT_READ, &[]),
    };
    let output = answer.output;
    match () {
        _ if answer.written != word => Some("the answer to a record"),
        _ if output[..line.len()] != *line => Some("the bytes of a written line"),
        _ if output[line.len()..] != [UNWRITTEN; OUTPUT][line.len()..] => {
            Some("the output behind a written line, or that of a refused record")
        }
        _ if answer.refusal != Refusal::default()
            || answer.sorts != Sorts::default()
            || answer.faults_line != 0 =>
        {
            Some("the words behind the answer")
        }
        _ => None,
    }
}

fn packed(refusal: &Refusal) -> u64 {
    (refusal.number as u64) << 48 | (refusal.place as u64) << 32 | refusal.length as u64
}

/// An answer in words.
pub fn told(word: u64) -> String {
    match word {
        0 => "written".to_string(),
        NOT_READ => "the line is refused".to_string(),
        word => format!("refusal={},{},{}", word >> 48, word >> 32 & 0xFFFF, word & 0xFFFF_FFFF),
    }
}

/// How many reals of written lines there were of each sort.
#[derive(Clone, Copy, Default)]
pub struct Reals {
    /// Read from a field with no more places than are written.
    pub kept: u64,
    /// Read from a field with more, and of these the ones in the middle between two decimals.
    pub rounded: u64,
    pub ties: u64,
    /// Written as a zero with a sign.
    pub minus_zeros: u64,
    /// Written in the places that were read, by their number, and the defaults, which have none.
    pub as_read: [u64; 10],
    pub defaults: u64,
}

impl Reals {
    pub fn add(&mut self, other: &Reals) {
        self.kept += other.kept;
        self.rounded += other.rounded;
        self.ties += other.ties;
        self.minus_zeros += other.minus_zeros;
        add_all(&mut self.as_read, &other.as_read);
        self.defaults += other.defaults;
    }
}

/// The reals of the written kinds: first column, the one after the last, places.
#[rustfmt::skip]
pub fn reals(kind: &str) -> &'static [(usize, usize, u32)] {
    match kind {
        "ATOM" | "HETATM" => &[(30, 38, 3), (38, 46, 3), (46, 54, 3), (54, 60, 2), (60, 66, 2)],
        "ANISOU" => &[
            (28, 35, 4), (35, 42, 4), (42, 49, 4), (49, 56, 4), (56, 63, 4), (63, 70, 4),
        ],
        "CRYST1" => &[
            (6, 15, 3), (15, 24, 3), (24, 33, 3), (33, 40, 2), (40, 47, 2), (47, 54, 2),
        ],
        "MODEL" | "TER" | "ENDMDL" | "END" => &[],
        _ => &[(10, 20, 6), (20, 30, 6), (30, 40, 6), (45, 55, 5)],
    }
}

/// What isn't the same in the record of a line, given its listing, and in that of the line that was
/// written of it. Listings name every field, so that these are compared. A real has to be the double
/// of the decimal that was written, and that of a field without more places the same. In the places
/// that were read its text has to be the same too.
pub fn returned(
    input: &Input,
    first: &Due,
    line: &[u8],
    again: &Due,
    count: &mut Reals,
) -> Option<&'static str> {
    if again.verdict.refusal != Refusal::default() {
        return Some("a written line is refused");
    }
    if again.verdict.faults != [0; 6] {
        return Some("a written line has faults");
    }
    if again.verdict.class != Class::Domain {
        return Some("a written line lies outside of the domain");
    }
    if first.verdict.kind != again.verdict.kind {
        return Some("a written line is of another kind");
    }
    let kind = KINDS[first.verdict.kind].name;
    // ANISOU's six stay as they are.
    let as_read = input.task == Task::WriteAsRead && kind != "ANISOU";
    let (ones, others) = (rows(&first.listing), rows(&again.listing));
    if ones.len() != others.len() {
        return Some("a written line has other fields");
    }
    for (one, other) in ones.into_iter().zip(others) {
        let real = reals(kind).iter().find(|real| one.starts_with(&format!("f{}=", real.0)));
        let wrong = match real {
            Some(real) if !as_read => {
                real_returned(&input.line, kind, *real, bits(one), bits(other), count)
            }
            Some((start, end, _)) => {
                let text = text_due(input.line.get(*start..*end), *start, first, count);
                match () {
                    _ if trimmed(&line[*start..*end]) != text.as_bytes() => {
                        Some("a real comes back with another text")
                    }
                    _ if one != other => Some("a real comes back with other bits"),
                    _ => None,
                }
            }
            None if one != other => Some("an integer, a text or a character comes back changed"),
            None => None,
        };
        if wrong.is_some() {
            return wrong;
        }
    }
    None
}

/// The rows of a listing before those of the faults.
fn rows(listing: &[u8]) -> Vec<&str> {
    let text = std::str::from_utf8(listing).unwrap_or_default();
    text.lines().take_while(|row| !row.starts_with("faults=")).collect()
}

fn bits(row: &str) -> Option<f64> {
    let (_, bits) = row.split_once('=')?;
    u64::from_str_radix(bits, 16).ok().map(f64::from_bits)
}

/// The text of a real that is written in the places that were read: the field's own with a digit
/// before the point, but without a `+`, zeros in front, and a point that ends it. With a fault it is
/// the default's.
fn text_due(field: Option<&[u8]>, start: usize, first: &Due, count: &mut Reals) -> String {
    let listing = String::from_utf8_lossy(&first.listing);
    let faults = [1, 2].map(|number| format!("fault={number},{start},"));
    if listing.lines().any(|row| faults.iter().any(|fault| row.starts_with(fault))) {
        count.defaults += 1;
        return if start == 54 { "1" } else { "0" }.to_string();
    }
    let text = String::from_utf8_lossy(trimmed(field.unwrap_or_default()));
    let (sign, size) = match text.strip_prefix('-') {
        Some(size) => ("-", size),
        None => ("", text.strip_prefix('+').unwrap_or(&text)),
    };
    let (before, behind) = size.split_once('.').unwrap_or((size, ""));
    let zero = if before.bytes().all(|byte| byte == b'0') { "0" } else { "" };
    count.as_read[behind.len()] += 1;
    let text = format!("{sign}{zero}{}.{behind}", before.trim_start_matches('0'));
    text.trim_end_matches('.').to_string()
}

fn real_returned(
    line: &[u8],
    kind: &str,
    (start, end, places): (usize, usize, u32),
    first: Option<f64>,
    again: Option<f64>,
    count: &mut Reals,
) -> Option<&'static str> {
    let (Some(first), Some(again)) = (first, again) else {
        return Some("a listing without a real");
    };
    let Some(written) = nearest(first, places) else {
        return Some("a real is written that can't be");
    };
    // Both are exact, so that one division gives the double nearest to the decimal.
    let size = written.whole as f64 / 10u64.pow(places) as f64;
    let factor = kind == "ANISOU";
    let due = match factor && written.whole == 0 {
        true => 0.0,
        false => size.copysign(first),
    };
    if again.to_bits() != due.to_bits() {
        return Some("a real isn't the double of the decimal that was written");
    }
    if factor || places_of(line.get(start..end)) <= places {
        count.kept += 1;
        if again.to_bits() != first.to_bits() {
            return Some("a real with no more places than are written has other bits");
        }
    } else {
        count.rounded += 1;
        count.ties += u64::from(written.tie);
    }
    count.minus_zeros += u64::from(written.whole == 0 && due.is_sign_negative());
    None
}
