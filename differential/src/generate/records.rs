//! The lines whose records are written: of the eleven kinds of 02 (2026-01), most of them such that
//! every field fits, and some of the others.

use super::counted::{charge, numbered, shorter, take};
use super::texts::{damage, digits, fill, good, kind_named, place, sorted_text, GOOD_MOST, TEXTS};
use super::{drawn, Input, Section};
use crate::columns::{Field, Kind, Sort, KINDS, LINE_END};
use crate::good::GOOD;
use crate::random::Random;

/// The kinds that are written, as places in `KINDS`: ATOM to CRYST1, then SCALE1 to MODEL, then
/// ENDMDL to END.
#[rustfmt::skip]
const WRITTEN: [usize; 17] = [2, 3, 4, 5, 6, 7, 8, 9, 10, 11, 12, 13, 14, 15, 24, 25, 26];
/// The four with fields of most sorts.
const ATOMS: [usize; 4] = [2, 3, 4, 5];
/// The lengths to which lines are cut, and past which good ones are padded.
const CUTS: u64 = 101;
/// The sizes of outputs that are tried.
const ROOMS: u64 = 161;
/// Bytes of short reals, and how long these get.
const SHORT: &[u8] = b"059+-. ";
const SHORT_LONGEST: u32 = 5;

/// A real field of each width and each number of places, with these.
#[rustfmt::skip]
const REALS: [(&str, usize, usize, u32); 6] = [
    ("ATOM", 30, 8, 3), ("HETATM", 54, 6, 2), ("CRYST1", 6, 9, 3), ("CRYST1", 33, 7, 2),
    ("SCALE1", 10, 10, 6), ("MTRIX3", 45, 10, 5),
];

/// The sections that can be counted, with their sizes.
pub fn sections() -> Vec<Section> {
    let lines: usize = WRITTEN.iter().map(|kind| GOOD[*kind].len()).sum();
    let fields: usize = WRITTEN.iter().map(|kind| KINDS[*kind].fields.len()).sum();
    let short = shorter(SHORT, SHORT_LONGEST) * REALS.len() as u64;
    vec![
        ("good lines cut", CUTS * lines as u64, cut),
        ("fields replaced", 4 * (TEXTS.len() * fields) as u64, replaced),
        ("short reals", short, short_real),
        ("reals between two decimals", REALS.iter().map(middles).sum(), middle),
        ("charges", 128 * 128, charge),
        ("any byte anywhere", 128 * 82 * WRITTEN.len() as u64, any_byte),
        ("small outputs", ROOMS * lines as u64, small_output),
    ]
}

/// The sections that are drawn at random, with their shares in a hundred.
pub const SECTIONS: &[Section] = &[
    ("records that fit", 55, draw_fitting),
    ("fields replaced", 20, draw_replaced),
    ("random good lines", 10, draw_filled),
    ("damaged lines", 9, draw_damaged),
    ("every kind", 4, drawn::draw_good),
    ("random refusals", 2, drawn::draw_refused),
];

/// A good line of a written kind.
fn good_line(at: usize) -> &'static str {
    let all = WRITTEN.iter().flat_map(|kind| GOOD[*kind]);
    all.copied().nth(at).unwrap_or("END")
}

/// Every good line at every length.
fn cut(input: &mut Input, at: u64, _random: &mut Random) {
    let mut at = at;
    let length = take(&mut at, CUTS);
    input.options &= 2;
    input.line.extend_from_slice(good_line(at as usize).as_bytes());
    input.line.resize(length, b' ');
}

/// Each field of a good line replaced by each text, in four alignments.
fn replaced(input: &mut Input, at: u64, random: &mut Random) {
    let mut at = at;
    let aligned = take(&mut at, 4);
    let text = TEXTS[take(&mut at, TEXTS.len() as u64)];
    let mut all = WRITTEN.iter().flat_map(|kind| KINDS[*kind].fields.iter().map(|it| (*kind, it)));
    let Some((kind, field)) = all.nth(at as usize) else {
        return;
    };
    input.options &= 2;
    input.line.extend_from_slice(good(kind, random.index(GOOD_MOST)));
    place(&mut input.line, field, text, aligned);
}

/// A good line with a text in the field that starts in this column.
fn placed(input: &mut Input, name: &str, start: usize, text: &[u8], aligned: usize) {
    let kind = kind_named(name);
    input.options &= 2;
    input.line.extend_from_slice(good(kind, 0));
    if let Some(field) = KINDS[kind].fields.iter().find(|field| field.start == start) {
        place(&mut input.line, field, text, aligned);
    }
}

/// Every short text in a real field of every width.
fn short_real(input: &mut Input, at: u64, _random: &mut Random) {
    let mut at = at;
    let which = take(&mut at, shorter(SHORT, SHORT_LONGEST)) as u64;
    let (name, start, _, _) = REALS[at as usize];
    let mut text = Vec::new();
    numbered(SHORT, which, &mut text);
    placed(input, name, start, &text, 0);
}

/// How many numbers lie in the middle between two decimals of a field and have room in it with the
/// one place more that they need: each with a sign, where there is room for it too, and without.
fn middles((_, _, width, places): &(&str, usize, usize, u32)) -> u64 {
    2 * 10u64.pow(*width as u32 - 2 - places) << places
}

/// Every such number. Only an odd number over 2^(places + 1) is one and a double as well.
fn middle(input: &mut Input, at: u64, random: &mut Random) {
    let mut at = at;
    for real in &REALS {
        if at < middles(real) {
            let (name, start, width, places) = *real;
            let odd = at / 2 * 2 + 1;
            let tens = odd * 10u64.pow(places + 1) >> (places + 1);
            let ten = 10u64.pow(places + 1);
            let after = places as usize + 1;
            let mut text = format!("{}.{:0after$}", tens / ten, tens % ten);
            if at % 2 == 1 && text.len() < width {
                text.insert(0, '-');
            }
            return placed(input, name, start, text.as_bytes(), random.index(2));
        }
        at -= middles(real);
    }
}

/// Every byte below 128 in every column.
fn any_byte(input: &mut Input, at: u64, random: &mut Random) {
    let mut at = at;
    let byte = take(&mut at, 128) as u8;
    let column = take(&mut at, 82);
    let kind = WRITTEN[at as usize];
    input.options &= 2;
    input.line.extend_from_slice(good(kind, random.index(GOOD_MOST)));
    if input.line.len() <= column {
        input.line.resize(column + 1, b' ');
    }
    input.line[column] = byte;
}

/// Good lines with too little room, just enough, and more.
fn small_output(input: &mut Input, at: u64, _random: &mut Random) {
    let mut at = at;
    input.room = take(&mut at, ROOMS);
    input.options &= 2;
    input.line.extend_from_slice(good_line(at as usize).as_bytes());
}

/// A written kind, half of the time one of these four.
fn any_kind(input: &mut Input, random: &mut Random) -> &'static Kind {
    let kind = match random.percent(50) {
        true => &KINDS[random.pick(&ATOMS)],
        false => &KINDS[random.pick(&WRITTEN)],
    };
    drawn::keep(input, kind, random);
    kind
}

/// Lines whose fields fit, some of them cut.
fn draw_fitting(input: &mut Input, _at: u64, random: &mut Random) {
    let kind = any_kind(input, random);
    let mut text = Vec::with_capacity(64);
    input.line.extend_from_slice(kind.first);
    input.line.resize(80, b' ');
    for field in kind.fields {
        text.clear();
        fitting(&mut text, kind, field, random);
        let aligned = match random.below(10) {
            0 => 2,
            1 => 0,
            _ => 1,
        };
        place(&mut input.line, field, &text, aligned);
    }
    match random.below(12) {
        0 => input.line.truncate(random.index(81)),
        1 => {
            let end = input.line.iter().rposition(|byte| *byte != b' ');
            input.line.truncate(end.map_or(0, |at| at + 1));
        }
        _ => {}
    }
}

/// The same with one or two fields that needn't fit.
fn draw_replaced(input: &mut Input, at: u64, random: &mut Random) {
    draw_fitting(input, at, random);
    let first = input.line.get(..6).unwrap_or_default();
    let Some(kind) = KINDS.iter().find(|kind| kind.first == first && !kind.fields.is_empty())
    else {
        return;
    };
    for _ in 0..=random.index(2) {
        let field = &kind.fields[random.index(kind.fields.len())];
        let mut text = Vec::with_capacity(64);
        match random.below(4) {
            0 => text.extend_from_slice(random.pick(TEXTS)),
            1 => {
                for _ in 0..random.index(11) {
                    text.push(random.below(128) as u8);
                }
            }
            _ => {
                let width = match field.end {
                    LINE_END => 24,
                    end => end - field.start,
                };
                sorted_text(&mut text, field.sort, width, random);
            }
        }
        place(&mut input.line, field, &text, random.index(4));
    }
}

/// Lines with a text of its sort in every field, which often doesn't fit.
fn draw_filled(input: &mut Input, _at: u64, random: &mut Random) {
    let kind = any_kind(input, random);
    fill(&mut input.line, kind, random);
}

/// Damaged copies of good lines and of lines that fit.
fn draw_damaged(input: &mut Input, at: u64, random: &mut Random) {
    match random.percent(50) {
        true => input.line.extend_from_slice(good_line(random.index(40)).as_bytes()),
        false => draw_fitting(input, at, random),
    }
    damage(&mut input.line, random);
}

/// How many places a real field is written with.
fn places(kind: &Kind, start: usize) -> usize {
    match (kind.first, start) {
        (b"ATOM  " | b"HETATM", 30..54) | (b"CRYST1", 0..33) => 3,
        (b"ATOM  " | b"HETATM" | b"CRYST1", _) => 2,
        (_, 45) => 5,
        _ => 6,
    }
}

/// A text that can be read from a field and written into it.
fn fitting(out: &mut Vec<u8>, kind: &Kind, field: &Field, random: &mut Random) {
    let width = match field.end {
        LINE_END => 4,
        end => end - field.start,
    };
    match field.sort {
        Sort::Real => fitting_real(out, width, places(kind, field.start), random),
        Sort::Text => {
            // Blanks at the ends, which are trimmed, and inside.
            let length = random.index(width + 1);
            for _ in 0..length {
                out.push(match random.below(12) {
                    0 => b' ',
                    1 => 32 + random.below(95) as u8,
                    _ => random.pick(b"ABCDEFGHIJKLMNOPQRSTUVWXYZ0123456789'*"),
                });
            }
        }
        Sort::Character => out.push(match random.below(4) {
            0 => 32 + random.below(95) as u8,
            1 => b' ',
            _ => random.pick(b"ABCDEFGHIJKLMNOPQRSTUVWXYZ0123456789"),
        }),
        Sort::Charge => match random.below(3) {
            0 => out.extend_from_slice(b"  "),
            _ => out.extend_from_slice(&[random.pick(b"0123456789"), random.pick(b"+-")]),
        },
        sort => sorted_text(out, sort, width, random),
    }
}

/// A real with no more digits before the point than there are columns for, and any number behind it.
fn fitting_real(out: &mut Vec<u8>, width: usize, places: usize, random: &mut Random) {
    let sign = usize::from(random.percent(40));
    out.extend_from_slice(&random.pick(&[b"-", b"-", b"-", b"+"])[..sign]);
    let before = random.index(width - places - sign);
    let most = width - sign - before - 1;
    let behind = match random.below(3) {
        0 => most,
        1 => places.min(most),
        _ => random.index(most + 1),
    };
    match random.percent(10) {
        true => out.resize(sign + before, b'0'),
        false => digits(out, before, random),
    }
    if before == 0 || behind > 0 || random.percent(50) {
        out.push(b'.');
    }
    match random.percent(10) {
        true => out.resize(out.len() + behind.max(usize::from(before == 0)), b'0'),
        false => digits(out, behind.max(usize::from(before == 0)), random),
    }
}
