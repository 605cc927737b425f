//! A writer of records that knows nothing of the port: 80 bytes in the columns and places of wwPDB
//! 3.30, as 02 has it (2026-01), or in the places that were read (2026-02); or the refusal of the
//! first field by column that doesn't fit.

use crate::columns::trimmed;
use crate::oracle::Refusal;
use crate::rust::lexitem::LexItem;

/// How long a line is.
pub const LONG: usize = 80;

/// What stands in a field.
enum Value<'a> {
    Whole(i128),
    /// A real, and how many places it is written with.
    Real(f64, u32),
    /// One of ANISOU's six.
    Factor(f64),
    Charge(isize),
    Given(bool),
    /// A row of a matrix, counted from 0.
    Row(usize),
    /// A text at a side of its columns. A character is one in a column of its own, and an absent one
    /// has no bytes.
    Left(&'a str),
    Right(&'a str),
    /// The atom's name, as it is lent.
    Name(&'a [u8]),
}

/// A field: its first column, the one after its last, and what stands there.
type Field<'a> = (usize, usize, Value<'a>);

/// The line of a record with the lent name, given so much room. Where the line is named that it was
/// read of, each real has as many places as there.
pub fn line(
    item: &LexItem,
    name: &[u8],
    read: Option<&[u8]>,
    room: usize,
) -> Result<[u8; LONG], Refusal> {
    let Some((first, fields)) = fields(item, name) else {
        return Err(Refusal { number: 9, place: 0, length: 6 });
    };
    let mut line = [b' '; LONG];
    line[..first.len()].copy_from_slice(first.as_bytes());
    let mut wrong = None;
    for (start, end, value) in fields {
        let value = match (value, read) {
            (Value::Real(x, _), Some(read)) => Value::Real(x, places_of(read.get(start..end))),
            (value, _) => value,
        };
        match text(&value).filter(|text| text.len() <= end - start) {
            Some(text) => {
                let from = match value {
                    Value::Left(_) => start,
                    _ => end - text.len(),
                };
                line[from..from + text.len()].copy_from_slice(&text);
            }
            None => {
                let other = wrong.unwrap_or((start, end));
                wrong = Some(other.min((start, end)));
            }
        }
    }
    match wrong {
        Some((start, end)) => Err(Refusal { number: 9, place: start, length: end - start }),
        None if room < LONG => Err(Refusal { number: 8, place: 0, length: LONG }),
        None => Ok(line),
    }
}

/// The record's name and its fields, if it is of a kind that is written.
fn fields<'a>(item: &'a LexItem, name: &'a [u8]) -> Option<(&'static str, Vec<Field<'a>>)> {
    use Value::*;
    Some(match item {
        LexItem::Atom(
            hetero,
            serial,
            _,
            alternate,
            residue,
            chain,
            number,
            insertion,
            x,
            y,
            z,
            occupancy,
            b_factor,
            segment,
            element,
            charge,
        ) => {
            let mut all = head(*serial, name, alternate, residue, chain, *number, insertion);
            all.push((30, 38, Real(*x, 3)));
            all.push((38, 46, Real(*y, 3)));
            all.push((46, 54, Real(*z, 3)));
            all.push((54, 60, Real(*occupancy, 2)));
            all.push((60, 66, Real(*b_factor, 2)));
            all.extend(tail(segment, element, *charge));
            match hetero {
                true => ("HETATM", all),
                false => ("ATOM", all),
            }
        }
        LexItem::Anisou(
            serial,
            _,
            alternate,
            residue,
            chain,
            number,
            insertion,
            [[u11, u12, u13], [_, u22, u23], [_, _, u33]],
            segment,
            element,
            charge,
        ) => {
            let mut all = head(*serial, name, alternate, residue, chain, *number, insertion);
            all.push((28, 35, Factor(*u11)));
            all.push((35, 42, Factor(*u22)));
            all.push((42, 49, Factor(*u33)));
            all.push((49, 56, Factor(*u12)));
            all.push((56, 63, Factor(*u13)));
            all.push((63, 70, Factor(*u23)));
            all.extend(tail(segment, element, *charge));
            ("ANISOU", all)
        }
        LexItem::Crystal(a, b, c, alpha, beta, gamma, group, z) => {
            let all = vec![
                (6, 15, Real(*a, 3)),
                (15, 24, Real(*b, 3)),
                (24, 33, Real(*c, 3)),
                (33, 40, Real(*alpha, 2)),
                (40, 47, Real(*beta, 2)),
                (47, 54, Real(*gamma, 2)),
                (55, 66, Left(group)),
                (66, 70, Whole(*z as i128)),
            ];
            ("CRYST1", all)
        }
        LexItem::Scale(row, values) => ("SCALE", matrix_row(*row, values)),
        LexItem::OrigX(row, values) => ("ORIGX", matrix_row(*row, values)),
        LexItem::MtriX(row, serial, values, given) => {
            let mut all = matrix_row(*row, values);
            all.push((7, 10, Whole(*serial as i128)));
            all.push((59, 60, Given(*given)));
            ("MTRIX", all)
        }
        LexItem::Model(number) => ("MODEL", vec![(10, 14, Whole(*number as i128))]),
        LexItem::TER() => ("TER", Vec::new()),
        LexItem::EndModel() => ("ENDMDL", Vec::new()),
        LexItem::End() => ("END", Vec::new()),
        _ => return None,
    })
}

/// What ATOM, HETATM and ANISOU begin with.
fn head<'a>(
    serial: usize,
    name: &'a [u8],
    alternate: &'a Option<String>,
    residue: &'a str,
    chain: &'a str,
    number: isize,
    insertion: &'a Option<String>,
) -> Vec<Field<'a>> {
    use Value::*;
    vec![
        (6, 11, Whole(serial as i128)),
        (12, 16, Name(name)),
        (16, 17, Right(alternate.as_deref().unwrap_or_default())),
        (17, 20, Right(residue)),
        (21, 22, Right(chain)),
        (22, 26, Whole(number as i128)),
        (26, 27, Right(insertion.as_deref().unwrap_or_default())),
    ]
}

/// What they end with.
fn tail<'a>(segment: &'a str, element: &'a str, charge: isize) -> [Field<'a>; 3] {
    use Value::*;
    [(72, 76, Left(segment)), (76, 78, Right(element)), (78, 80, Charge(charge))]
}

/// What SCALE, ORIGX and MTRIX have in common: the last byte of the name, and the reals.
fn matrix_row<'a>(row: usize, [a, b, c, d]: &[f64; 4]) -> Vec<Field<'a>> {
    use Value::*;
    vec![
        (5, 6, Row(row)),
        (10, 20, Real(*a, 6)),
        (20, 30, Real(*b, 6)),
        (30, 40, Real(*c, 6)),
        (45, 55, Real(*d, 5)),
    ]
}

/// The bytes that stand in a field, however wide it is; or nothing, if no field can take them.
fn text(value: &Value) -> Option<Vec<u8>> {
    match value {
        Value::Whole(number) => Some(number.to_string().into_bytes()),
        Value::Real(x, 0) => Some(format!("{}{}", minus(*x), nearest(*x, 0)?.whole).into_bytes()),
        Value::Real(x, places) => {
            let (whole, ten) = (nearest(*x, *places)?.whole, 10u128.pow(*places));
            let width = *places as usize;
            Some(format!("{}{}.{:0width$}", minus(*x), whole / ten, whole % ten).into_bytes())
        }
        Value::Factor(x) => match nearest(*x, 4)?.whole {
            0 => Some(b"0".to_vec()),
            whole => Some(format!("{}{whole}", minus(*x)).into_bytes()),
        },
        Value::Charge(0) => Some(b"  ".to_vec()),
        Value::Charge(charge @ 1..=9) => Some(format!("{charge}+").into_bytes()),
        Value::Charge(charge @ -9..=-1) => Some(format!("{}-", -charge).into_bytes()),
        Value::Charge(_) => None,
        Value::Given(given) => Some(if *given { b"1" } else { b" " }.to_vec()),
        Value::Row(row @ 0..=2) => Some(vec![b"123"[*row]]),
        Value::Row(_) => None,
        Value::Left(text) | Value::Right(text) => printable(text.as_bytes()),
        Value::Name(text) => printable(text).filter(|text| text.len() == 4),
    }
}

fn printable(text: &[u8]) -> Option<Vec<u8>> {
    text.iter().all(|byte| (32..=126).contains(byte)).then(|| text.to_vec())
}

fn minus(x: f64) -> &'static str {
    match x.is_sign_negative() {
        true => "-",
        false => "",
    }
}

/// How many digits stand after the point of a field; 0 if it isn't a plain decimal, or not reached,
/// since a default is read of it then.
pub fn places_of(field: Option<&[u8]>) -> u32 {
    let text = trimmed(field.unwrap_or_default());
    let text = match text {
        [b'+' | b'-', rest @ ..] => rest,
        _ => text,
    };
    let (before, behind) = match text.iter().position(|byte| *byte == b'.') {
        Some(point) => (&text[..point], &text[point + 1..]),
        None => (text, &text[..0]),
    };
    match before.iter().chain(behind).all(u8::is_ascii_digit) {
        true => behind.len() as u32,
        false => 0,
    }
}

/// The whole number nearest to a double's size times a power of ten, a tie to the even one.
#[derive(Clone, Copy, Debug, PartialEq, Eq)]
pub struct Nearest {
    pub whole: u128,
    pub tie: bool,
}

/// Worked out from the double's bits, with whole numbers alone. Nothing for a NaN, an infinity, and
/// from 2^34 on, where there are eleven digits before the point and no field has so many columns.
pub fn nearest(x: f64, places: u32) -> Option<Nearest> {
    let bits = x.to_bits();
    let fraction = bits % (1 << 52);
    // The double is `digits` over 2^`down`.
    let (digits, down) = match (bits >> 52) % 2048 {
        0 => (fraction, 1074),
        exponent => (fraction + (1 << 52), 1075 - exponent as i64),
    };
    if down < 52 - 33 {
        return None;
    }
    // Below 2^53 * 10^9, which is below 2^83.
    let scaled = u128::from(digits) * 10u128.pow(places);
    if down > 84 {
        // Below a half.
        return Some(Nearest { whole: 0, tie: false });
    }
    let (whole, rest, half) = (scaled >> down, scaled % (1 << down), 1 << (down - 1));
    let up = rest > half || rest == half && whole % 2 == 1;
    Some(Nearest { whole: whole + u128::from(up), tie: rest == half })
}
