//! The sections that can be counted: each case is made from its number.

use super::texts::{good, kind_named, place, GOOD_MOST, SMALL, TEXTS};
use super::{Input, Section, Tables};
use crate::columns::KINDS;
use crate::good::GOOD;
use crate::random::Random;
use crate::tables;

/// The lengths to which lines are cut, and past which good ones are padded.
const CUTS: u64 = 101;
/// Bytes that a name is filled up with.
const FILLS: &[u8] = b" q1-.";
/// How long exhaustive short texts get.
const SMALL_LONGEST: u32 = 5;
/// Bytes for reals with letters, and how long these get.
const LETTERS: &[u8] = b"1.eE+-infatyNA";
const LETTERS_LONGEST: u32 = 4;
/// Lengths up to which whole lines are made.
const LONGEST: u64 = 1100;
/// Sizes of lent outputs that are tried at good lines.
const ROOMS: u64 = 500;

/// Fields in which exhaustive short texts stand: every sort, and of numbers every width.
#[rustfmt::skip]
const PLACES: &[(&str, usize)] = &[
    ("MASTER", 10), ("REMARK", 7), ("SEQRES", 13), ("ATOM", 6), ("MODEL", 6), ("CRYST1", 66),
    ("ATOM", 22), ("SEQADV", 43), ("ANISOU", 28), ("DBREF2", 45), ("DBREF1", 21),
    ("ATOM", 30), ("ATOM", 54), ("SSBOND", 73), ("SCALE1", 10), ("CRYST1", 6), ("CRYST1", 33),
    ("ATOM", 12), ("SEQADV", 49), ("REMARK", 11), ("SEQRES", 19),
];
const REAL_PLACES: &[(&str, usize)] = &[("SCALE2", 30), ("ATOM", 54), ("SSBOND", 73)];

/// The sections that can be counted, with their sizes.
pub fn sections() -> Vec<Section> {
    let kinds = KINDS.len() as u64;
    let fields: usize = KINDS.iter().map(|kind| kind.fields.len()).sum();
    let small = shorter(SMALL, SMALL_LONGEST) * PLACES.len() as u64;
    let letters = shorter(LETTERS, LETTERS_LONGEST) * REAL_PLACES.len() as u64;
    vec![
        ("good lines cut", 4 * CUTS * (good_lines() + FILLS.len() as u64 * kinds), cut),
        ("fields replaced", 4 * 4 * (TEXTS.len() * fields) as u64, replaced),
        ("short texts", small, short_text),
        ("short reals", letters, short_real),
        ("charges", 128 * 128, charge),
        ("any byte anywhere", 128 * 82 * kinds, any_byte),
        ("remark numbers", 1000 * 6 * 4, remark_number),
        ("names", 128 * 6 * 3 * kinds, name),
        ("whole lengths", 4 * (LONGEST + 1) * 13, whole_length),
        ("high bytes", 82 * 12 * kinds, high_byte),
        ("small outputs", ROOMS * 2 * kinds, small_output),
    ]
}

/// How many texts over an alphabet are no longer than this.
pub fn shorter(alphabet: &[u8], longest: u32) -> u64 {
    (0..=longest).map(|length| (alphabet.len() as u64).pow(length)).sum()
}

/// Takes the next digit of a case's number, in this base.
pub fn take(at: &mut u64, base: u64) -> usize {
    let digit = *at % base;
    *at /= base;
    digit as usize
}

fn good_lines() -> u64 {
    GOOD.iter().map(|lines| lines.len() as u64).sum()
}

/// Every good line at every length, and every name before a row of one byte.
fn cut(input: &mut Input, at: u64, _random: &mut Random) {
    let mut at = at;
    input.options = take(&mut at, 4) as u32;
    let length = take(&mut at, CUTS);
    match GOOD.iter().flat_map(|lines| *lines).nth(at as usize) {
        Some(line) => {
            input.line.extend_from_slice(line.as_bytes());
            input.line.resize(length, b' ');
        }
        None => {
            at -= good_lines();
            let kind = take(&mut at, KINDS.len() as u64);
            input.line.extend_from_slice(KINDS[kind].first);
            input.line.resize(length, FILLS[at as usize]);
        }
    }
}

/// Each field of a good line replaced by each text, in four alignments.
fn replaced(input: &mut Input, at: u64, random: &mut Random) {
    let mut at = at;
    input.options = take(&mut at, 4) as u32;
    let aligned = take(&mut at, 4);
    let text = TEXTS[take(&mut at, TEXTS.len() as u64)];
    let mut which = at as usize;
    for (kind, shape) in KINDS.iter().enumerate() {
        if let Some(field) = shape.fields.get(which) {
            let line = random.index(GOOD_MOST);
            input.line.extend_from_slice(good(kind, line));
            return place(&mut input.line, field, text, aligned);
        }
        which -= shape.fields.len();
    }
}

/// The text with this number among those over an alphabet, the shorter ones first.
pub fn numbered(alphabet: &[u8], at: u64, text: &mut Vec<u8>) {
    let base = alphabet.len() as u64;
    let mut at = at;
    let mut length = 0;
    while at >= base.pow(length) {
        at -= base.pow(length);
        length += 1;
    }
    for _ in 0..length {
        text.push(alphabet[take(&mut at, base)]);
    }
}

fn placed_text(input: &mut Input, alphabet: &[u8], at: u64, (name, start): (&str, usize)) {
    let kind = kind_named(name);
    let mut text = Vec::new();
    numbered(alphabet, at, &mut text);
    input.line.extend_from_slice(good(kind, 0));
    if let Some(field) = KINDS[kind].fields.iter().find(|field| field.start == start) {
        place(&mut input.line, field, &text, 0);
    }
}

fn short_text(input: &mut Input, at: u64, _random: &mut Random) {
    let mut at = at;
    let text = take(&mut at, shorter(SMALL, SMALL_LONGEST)) as u64;
    input.options &= 2;
    placed_text(input, SMALL, text, PLACES[at as usize]);
}

fn short_real(input: &mut Input, at: u64, _random: &mut Random) {
    let mut at = at;
    let text = take(&mut at, shorter(LETTERS, LETTERS_LONGEST)) as u64;
    input.options = 0;
    placed_text(input, LETTERS, text, REAL_PLACES[at as usize]);
}

/// Every two bytes below 128 as a charge.
pub fn charge(input: &mut Input, at: u64, random: &mut Random) {
    let mut at = at;
    let pair = [take(&mut at, 128) as u8, take(&mut at, 128) as u8];
    let kind = kind_named(random.pick(&["ATOM", "HETATM", "ANISOU"]));
    input.options &= 2;
    input.line.extend_from_slice(good(kind, 0));
    input.line.truncate(78);
    input.line.extend_from_slice(&pair);
    if random.percent(20) {
        input.line.extend_from_slice(b"  x");
    }
}

/// Every byte below 128 in every column.
fn any_byte(input: &mut Input, at: u64, random: &mut Random) {
    let mut at = at;
    let byte = take(&mut at, 128) as u8;
    let column = take(&mut at, 82);
    let kind = take(&mut at, 28);
    if !KINDS[kind].atoms {
        input.options &= 2;
    }
    input.line.extend_from_slice(good(kind, random.index(GOOD_MOST)));
    if input.line.len() <= column {
        input.line.resize(column + 1, b' ');
    }
    input.line[column] = byte;
}

/// Every remark number, written in six ways, with several tables.
fn remark_number(input: &mut Input, at: u64, random: &mut Random) {
    let mut at = at;
    let number = take(&mut at, 1000);
    let written = match take(&mut at, 6) {
        0 => format!("{number:3}"),
        1 => format!("{number:<3}"),
        2 => format!("{number:03}"),
        3 => format!("+{number:<2}"),
        4 => format!("{number:<2}\x0B"),
        _ => format!("-{number:<2}"),
    };
    input.table = match take(&mut at, 4) {
        0 => tables::CRATE,
        1 => tables::NONE_VALID,
        2 => tables::ALL_VALID,
        _ => Tables::pick(random),
    };
    input.options &= 2;
    input.line.extend_from_slice(b"REMARK ");
    input.line.extend_from_slice(&written.as_bytes()[..3]);
    input.line.extend_from_slice(random.pick(&[&b""[..], b" ", b" x", b" TEXT % ~ "]));
}

/// Every name with one byte changed, in lines of six bytes, of seven, and whole.
fn name(input: &mut Input, at: u64, _random: &mut Random) {
    let mut at = at;
    let byte = take(&mut at, 128) as u8;
    let column = take(&mut at, 6);
    let length = take(&mut at, 3);
    let kind = take(&mut at, 28);
    input.line.extend_from_slice(good(kind, 0));
    input.line.resize([6, 7, 80][length], b' ');
    input.line[column] = byte;
}

/// Lines of every length to 1,100, those that end in a field without an end among them.
fn whole_length(input: &mut Input, at: u64, random: &mut Random) {
    let mut at = at;
    input.options = take(&mut at, 4) as u32;
    let length = take(&mut at, LONGEST + 1);
    let which = take(&mut at, 13);
    let (start, fill, last): (&[u8], u8, u8) = match which {
        0 => (b"", b' ', b' '),
        1 => (b"REMARK   2 ", b'q', b'q'),
        2 => (b"REMARK   x ", b' ', b'x'),
        3 => (b"MODEL ", b'0', b'7'),
        4 => (b"MODEL ", b' ', b'7'),
        5 => (b"MODRES 2R0L ASN A   74  ASN  ", b'%', b'\x7F'),
        6 => (b"SEQADV 3ABC GLY B   50A UNP  P10725    VAL   50 ", b'.', b'.'),
        7 => (b"SEQADV 3ABC MET A   -1  UNP  P10725             ", b' ', b'\x1F'),
        8 => (good(kind_named("CRYST1"), 2), b' ', b'4'),
        9 => (good(0, 0), b' ', b'x'),
        10 => (good(2, 1), b' ', b'x'),
        11 => (good(random.index(28), 0), b'q', b'q'),
        _ => {
            // The longest listing there is: every byte escaped, and a line number of twenty digits.
            input.number = usize::MAX;
            (b"SEQADV", b'\x7F', b'\x7F')
        }
    };
    input.line.extend_from_slice(start);
    input.line.resize(length, fill);
    if length > start.len() {
        input.line[length - 1] = last;
    }
}

/// A byte of 128 or more in every column, alone or as part of a character.
fn high_byte(input: &mut Input, at: u64, random: &mut Random) {
    let mut at = at;
    let column = take(&mut at, 82);
    let kind = take(&mut at, 28);
    input.line.extend_from_slice(good(kind, 0));
    if input.line.len() <= column {
        input.line.resize(column + 1, b' ');
    }
    let bytes: &[u8] = match take(&mut at, 12) {
        0 => b"\x80",
        1 => b"\xFF",
        2 => b"\xC3\xA9",
        3 => b"\xC2\xA0",
        4 => b"\xE2\x80\x83",
        5 => b"\xF0\x9F\xA7\xAA",
        6 => b"\x7F",
        7 => b"\xC2\x85",
        8 => b"\xBF",
        9 => b"\xD9\xA3",
        10 => b"\xEF\xBC\x91",
        _ => &[128 + random.below(128) as u8],
    };
    let end = match random.percent(50) {
        true => column,
        false => (column + bytes.len()).min(input.line.len()),
    };
    input.line.splice(column..end, bytes.iter().copied());
}

/// Good lines with too little room for their listing, just enough, and one byte more.
fn small_output(input: &mut Input, at: u64, random: &mut Random) {
    let mut at = at;
    input.room = take(&mut at, ROOMS);
    let which = take(&mut at, 2);
    let kind = take(&mut at, 28);
    input.number = random.index(1000);
    input.line.extend_from_slice(good(kind, which));
}
