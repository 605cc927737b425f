//! Texts for fields, and lines made of them: what the sections have in common.

use crate::columns::{Field, Kind, Sort, EMPTY_AT, KINDS, LINE_END};
use crate::good::GOOD;
use crate::random::Random;

/// The most lines of one kind among the good ones.
pub const GOOD_MOST: usize = 4;

/// Bytes that say much in a short text of any sort.
pub const SMALL: &[u8] = b"059+-. \x0Bx";

/// Texts for a field of any sort. One that is too wide is cut, unless the field has no end.
#[rustfmt::skip]
pub const TEXTS: &[&[u8]] = &[
    b"", b"+", b"-", b"+-1", b"--1", b"++1", b"0", b"-0", b"+0", b"00", b"007", b"0000000001",
    b"1", b"+5", b"-5", b"9", b"99", b"999", b"9999", b"99999", b"9999999", b"9999999999",
    b"-9", b"-99", b"-999", b"-9999", b"-999999", b"-999999999", b"+999999999",
    b".", b"5.", b".5", b"-.5", b"+.5", b"-.", b"+.", b"-0.", b"-.0", b"0.0", b"-0.0", b"-0.000",
    b"1.5", b"1..5", b"1.5.", b".5.", b"0.1", b"0.3", b"2.675", b"123.456", b"-12.345", b"0.00000001",
    b".000000001", b"999999999.", b"99999.9999", b"1234.56789",
    b"1e5", b"1E5", b"5.e1", b".5e1", b"1e+5", b"1e-5", b"1e999", b"-1e-999", b"e5", b"1e", b"1e+",
    b".e1", b"1e1.", b"1e1.0", b"1E+05", b"0e99999999", b"-0E5", b"1e22", b"1e23", b"1e-22", b"1e-23",
    b"1.0e23", b".5e-22", b"1.2E2", b"0.1e-21", b"inf", b"-inf", b"+inf", b"INF", b"iNf", b"infinity", b"-Infinity", b"infin",
    b"in", b"nan", b"NaN", b"-nan", b"+NAN", b"na", b"nan(1)", b"0x1", b"0b1", b"1_0", b"1,5", b"1f64",
    b"1 5", b"+ 5", b"- 5", b"1 .5", b"\t5", b"5\t", b"\x0B5\x0B", b"\x0C5\x0C", b"\r5\r", b"\n5\n",
    b"\t\n\x0B\x0C\r", b"\x085", b"\x0E5", b"\x1C5", b"\x1D5", b"\x1E5", b"\x1F5", b"5\x1F", b"\x005",
    b"5\x00", b"\x7F", b"5\x7F", b"x", b"abc", b"A B", b"%", b"%41", b"~", b"5x", b"x5",
    b"18446744073709551615", b"18446744073709551616", b"+18446744073709551615",
    b"+18446744073709551616", b"18446744073709551614", b"18446744073709551620",
    b"00000000000000000000018446744073709551615", b"000000000000000000000000000000000000000000001",
    b"99999999999999999999", b"10000000000000000000", b"100000000000000000000",
    b"9223372036854775807", b"9223372036854775808", b"-9223372036854775808",
    b"-9223372036854775809", b"340282366920938463463374607431768211456",
];

/// A good line of a kind.
pub fn good(kind: usize, which: usize) -> &'static [u8] {
    let lines = GOOD[kind];
    lines[which % lines.len()].as_bytes()
}

/// A kind's place in `KINDS`.
pub fn kind_named(name: &str) -> usize {
    KINDS.iter().position(|kind| kind.name == name).unwrap_or(EMPTY_AT)
}

/// Puts a text into a field: at its left, at its right, one column from the left, or between tabs.
/// A field without an end is cut after the text, or goes on with blanks and bytes that are trimmed.
pub fn place(line: &mut Vec<u8>, field: &Field, text: &[u8], aligned: usize) {
    if field.end == LINE_END {
        line.resize(field.start, b' ');
        match aligned {
            0 => {}
            1 => line.extend_from_slice(b"       "),
            2 => line.push(b'\t'),
            _ => line.extend_from_slice(b" \x0B"),
        }
        line.extend_from_slice(text);
        match aligned {
            0 | 1 => {}
            2 => line.extend_from_slice(b"     "),
            _ => line.extend_from_slice(b"\x0C \r"),
        }
        return;
    }
    if line.len() < field.end {
        line.resize(field.end, b' ');
    }
    let columns = &mut line[field.start..field.end];
    columns.fill(if aligned == 3 { b'\t' } else { b' ' });
    let room = columns.len();
    let text = &text[..text.len().min(room)];
    let start = match aligned {
        0 => 0,
        1 => room - text.len(),
        _ => (room - text.len()).min(1),
    };
    columns[start..start + text.len()].copy_from_slice(text);
}

pub fn digits(out: &mut Vec<u8>, count: usize, random: &mut Random) {
    for _ in 0..count {
        out.push(b'0' + random.below(10) as u8);
    }
}

/// A decimal with an exponent in this width, some with a slip in it.
pub fn exponent_text(out: &mut Vec<u8>, width: usize, random: &mut Random) {
    let mut exponent = vec![random.pick(b"eE")];
    match random.below(4) {
        0 => {}
        1 => exponent.push(b'+'),
        _ => exponent.push(b'-'),
    }
    let size = match random.below(8) {
        0 => random.index(100),
        1 => random.index(100_000),
        2 | 3 => random.index(10),
        _ => 13 + random.index(20),
    };
    if random.percent(10) {
        exponent.push(b'0');
    }
    exponent.extend_from_slice(size.to_string().as_bytes());
    let left = width.saturating_sub(exponent.len()).max(1);
    sorted_text(out, Sort::Real, left, random);
    if random.percent(3) {
        out.fill(b'0');
    }
    out.extend_from_slice(&exponent);
    if random.percent(5) {
        let at = random.index(out.len());
        out[at] = random.pick(b"0.eE+- x");
    }
}

/// A text of the field's sort that fits its width, most of the time a good one.
pub fn sorted_text(out: &mut Vec<u8>, sort: Sort, width: usize, random: &mut Random) {
    let length = 1 + random.index(width.min(24));
    match sort {
        Sort::Unsigned => {
            let sign = usize::from(length > 1 && random.percent(5));
            out.extend_from_slice(&b"+"[..sign]);
            digits(out, length - sign, random);
        }
        Sort::Signed => {
            let sign = usize::from(length > 1 && random.percent(40));
            out.extend_from_slice(&random.pick(&[b"-", b"-", b"-", b"+"])[..sign]);
            digits(out, length - sign, random);
        }
        Sort::Real => {
            let mut left = match random.percent(50) {
                true => width,
                false => length,
            };
            if left > 2 && random.percent(45) {
                out.push(random.pick(b"---+"));
                left -= 1;
            }
            if random.percent(20) && left > 1 {
                out.push(b'0');
                left -= 1;
            }
            if left > 1 && random.percent(92) {
                let before = random.index(left);
                digits(out, before, random);
                out.push(b'.');
                digits(out, left - 1 - before, random);
            } else {
                digits(out, left, random);
            }
        }
        Sort::Text | Sort::AsItStands => {
            let bytes = match random.below(10) {
                0 => b" \t\x0B%~\x7F\x00\x1F".as_slice(),
                1..=3 => b"ABC xyz 019 -.%",
                _ => b"ABCDEFGHIJKLMNOPQRSTUVWXYZ0123456789'*",
            };
            for _ in 0..length {
                out.push(random.pick(bytes));
            }
        }
        Sort::Character => out.push(match random.below(8) {
            0 => random.below(128) as u8,
            1..=3 => b' ',
            _ => random.pick(b"ABCDEFGHIJKLMNOPQRSTUVWXYZ0123456789"),
        }),
        Sort::Charge => match random.below(8) {
            0 => out.extend_from_slice(&[random.below(128) as u8, random.below(128) as u8]),
            1..=3 => out.extend_from_slice(b"  "),
            _ => out.extend_from_slice(&[random.pick(b"0123456789"), random.pick(b"+-")]),
        },
        Sort::Given => out.push(random.pick(b"111  02x")),
    }
}

/// Fills a kind's fields with texts of their sorts.
pub fn fill(line: &mut Vec<u8>, kind: &Kind, random: &mut Random) {
    let mut text = Vec::with_capacity(64);
    line.clear();
    line.extend_from_slice(kind.first);
    line.resize(80, b' ');
    let last = kind.fields.len();
    for (at, field) in kind.fields.iter().enumerate() {
        if kind.name == "SEQRES" && field.sort == Sort::AsItStands && random.percent(4) {
            // A blank triple, which ends them.
            continue;
        }
        let width = match field.end {
            LINE_END => 30,
            end => end - field.start,
        };
        text.clear();
        sorted_text(&mut text, field.sort, width, random);
        let aligned = match random.below(12) {
            0 => 2,
            1 => 0,
            2 if at + 1 == last => 3,
            _ => 1,
        };
        place(line, field, &text, aligned);
    }
}

/// Damages a line in one to four places.
pub fn damage(line: &mut Vec<u8>, random: &mut Random) {
    for _ in 0..=random.index(4) {
        let length = line.len();
        let at = random.index(length + 1);
        match random.below(10) {
            0..=2 if at < length => line[at] = random.below(128) as u8,
            3 if at < length => line[at] = random.pick(b" 0.-+\t1"),
            4 if at < length => {
                line.remove(at);
            }
            5 => line.insert(at, random.pick(b" 0.-+x\x0B")),
            6 if at + 1 < length => line.swap(at, at + 1),
            7 => line.truncate(at),
            8 => {
                let end = length.min(at + 1 + random.index(12));
                line[at..end].fill(random.pick(b"  q0"));
            }
            _ => {
                let end = length.min(at + 1 + random.index(12));
                line.extend_from_within(at..end);
            }
        }
    }
}
