//! In which part of the inputs a line lies: in demand 2's domain, where both sides must answer
//! alike, or in one of the classes outside it, where 01 alone says what the port answers.
//! Decided from 01's words and the input, without asking the Rust.

use crate::columns::{self, Field, HEADER_AT, KINDS};

/// Where a line lies. Of several classes the first in this order counts, which for refusals is
/// the order of testing.
#[derive(Clone, Copy, Debug, PartialEq, Eq, PartialOrd, Ord)]
pub enum Class {
    Domain,
    /// The lent table isn't 1,000 bytes long. The Rust is lent none.
    WrongTable,
    /// Over 1,024 bytes.
    LongLine,
    /// A byte of 128 or more.
    HighByte,
    /// HEADER of 7 to 10 bytes.
    ShortHeader,
    /// Shorter than refusal 6 asks.
    ShortLine,
    /// A real field with an exponent, where the option for them is off or it is out of reach.
    Exponent,
    /// A real field with an infinity as text.
    Infinity,
    /// A real field with a NaN as text.
    NotANumber,
}

pub const CLASSES: [(Class, &str); 9] = [
    (Class::Domain, "demand 2's domain"),
    (Class::WrongTable, "table of a wrong length"),
    (Class::LongLine, "over 1,024 bytes"),
    (Class::HighByte, "a byte of 128 or more"),
    (Class::ShortHeader, "HEADER under 11"),
    (Class::ShortLine, "too short (6)"),
    (Class::Exponent, "real with an exponent that isn't read"),
    (Class::Infinity, "real infinity as text"),
    (Class::NotANumber, "real NaN as text"),
];

/// The class of a line of this kind, given the lent table's length, and whether exponents are
/// taken: then the domain takes in the texts that are read.
pub fn class_of(line: &[u8], kind: usize, table_length: usize, exponents: bool) -> Class {
    if table_length != 1000 {
        return Class::WrongTable;
    }
    if line.len() > 1024 {
        return Class::LongLine;
    }
    if !line.is_ascii() {
        return Class::HighByte;
    }
    if kind == HEADER_AT && line.len() < 11 {
        return Class::ShortHeader;
    }
    if line.len() < KINDS[kind].least {
        return Class::ShortLine;
    }
    outside_reals(line, kind, exponents)
        .map(|field| real_class(&line[field.start..field.end], exponents))
        .min()
        .unwrap_or(Class::Domain)
}

/// The real fields that put a line outside the domain.
pub fn outside_reals(
    line: &[u8],
    kind: usize,
    exponents: bool,
) -> impl Iterator<Item = &'static Field> + '_ {
    columns::reals(line, kind)
        .filter(move |field| real_class(&line[field.start..field.end], exponents) != Class::Domain)
}

/// Whether a real field's text is a number with an exponent that isn't read, an infinity or a NaN.
fn real_class(field: &[u8], exponents: bool) -> Class {
    if !field.iter().any(|byte| matches!(byte, b'e' | b'E' | b'n' | b'N')) {
        return Class::Domain;
    }
    let text = columns::trimmed(field);
    let text = match text {
        [b'+' | b'-', rest @ ..] => rest,
        _ => text,
    };
    if text.eq_ignore_ascii_case(b"inf") || text.eq_ignore_ascii_case(b"infinity") {
        return Class::Infinity;
    }
    if text.eq_ignore_ascii_case(b"nan") {
        return Class::NotANumber;
    }
    match has_exponent(text) {
        Some(in_reach) if !(exponents && in_reach) => Class::Exponent,
        _ => Class::Domain,
    }
}

/// Digits, an optional point, digits, with at least one digit; then `e` or `E`, an optional sign
/// and at least one digit. If the text is that: whether x less the digits behind the point lies
/// from -22 to 22, or all digits before the letter are 0.
fn has_exponent(text: &[u8]) -> Option<bool> {
    let (whole, rest) = digits(text);
    let (part, rest) = match rest {
        [b'.', rest @ ..] => digits(rest),
        _ => (0, rest),
    };
    let number = &text[..text.len() - rest.len()];
    let (minus, rest) = match rest {
        [b'e' | b'E', sign @ (b'+' | b'-'), rest @ ..] => (*sign == b'-', rest),
        [b'e' | b'E', rest @ ..] => (false, rest),
        _ => return None,
    };
    let (count, after) = digits(rest);
    if whole + part == 0 || count == 0 || !after.is_empty() {
        return None;
    }
    let zero = number.iter().all(|byte| matches!(byte, b'0' | b'.'));
    let size = rest.iter().fold(0i64, |sum, byte| sum * 10 + i64::from(byte - b'0'));
    let reach = if minus { -size } else { size } - part as i64;
    Some(zero || (-22..=22).contains(&reach))
}

fn digits(text: &[u8]) -> (usize, &[u8]) {
    let count = text.iter().take_while(|byte| byte.is_ascii_digit()).count();
    (count, &text[count..])
}
