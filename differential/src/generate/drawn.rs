//! The sections that are drawn at random.

use super::texts::{
    damage, exponent_text, fill, good, kind_named, place, sorted_text, GOOD_MOST, SMALL, TEXTS,
};
use super::{Input, Section, Tables};
use crate::columns::{Kind, Sort, KINDS, LINE_END};
use crate::random::Random;

/// The sections that are drawn at random, with their shares in a hundred.
pub const SECTIONS: &[Section] = &[
    ("random good lines", 30, draw_good),
    ("random exponents", 10, draw_exponents),
    ("random fields", 19, draw_fields),
    ("damaged lines", 20, draw_damaged),
    ("random bytes", 9, draw_bytes),
    ("random ends", 7, draw_ends),
    ("random high bytes", 3, draw_high),
    ("random refusals", 2, draw_refused),
];

fn any_kind(random: &mut Random) -> &'static Kind {
    // Every fourth line is an atom's or a matrix row's, for the sake of the reals.
    match random.below(4) {
        0 => &KINDS[random.pick(&[2, 4, 5, 6, 7, 9, 11, 12, 14, 23])],
        _ => &KINDS[random.index(28)],
    }
}

/// Makes atoms only rare where it would leave nothing to read.
pub fn keep(input: &mut Input, kind: &Kind, random: &mut Random) {
    if !kind.atoms && random.percent(90) {
        input.options &= 2;
    }
}

/// Lines with good fields, some of them cut or with more behind them.
pub fn draw_good(input: &mut Input, _at: u64, random: &mut Random) {
    let kind = any_kind(random);
    keep(input, kind, random);
    fill(&mut input.line, kind, random);
    match random.below(10) {
        0 => input.line.truncate(random.index(81)),
        1 => {
            let more = input.line.len() + random.index(30);
            input.line.resize(more, random.pick(b" q"));
        }
        2 => {
            let end = input.line.iter().rposition(|byte| *byte != b' ');
            input.line.truncate(end.map_or(0, |at| at + 1));
        }
        _ => {}
    }
}

/// Lines with some fields replaced, by texts of the list or by random ones.
fn draw_fields(input: &mut Input, _at: u64, random: &mut Random) {
    let kind = any_kind(random);
    keep(input, kind, random);
    fill(&mut input.line, kind, random);
    if kind.fields.is_empty() {
        return damage(&mut input.line, random);
    }
    for _ in 0..=random.index(3) {
        let field = &kind.fields[random.index(kind.fields.len())];
        let mut text = Vec::with_capacity(64);
        match random.below(4) {
            0 => text.extend_from_slice(random.pick(TEXTS)),
            1 => {
                let bytes =
                    random.pick(&[SMALL, b"0123456789", b"0123456789.-+ e", b" \t\n\x0B\x0C\r0"]);
                for _ in 0..random.index(11) {
                    text.push(random.pick(bytes));
                }
            }
            2 => {
                for _ in 0..random.index(11) {
                    text.push(random.below(128) as u8);
                }
            }
            _ => {
                let sort = random.pick(&[Sort::Unsigned, Sort::Signed, Sort::Real, Sort::Text]);
                sorted_text(&mut text, sort, 12, random);
            }
        }
        place(&mut input.line, field, &text, random.index(4));
    }
    if random.percent(20) {
        let length = random.index(input.line.len() + 1);
        input.line.truncate(length);
    }
}

/// Good lines with an exponent in some real fields, most of them about the limits.
fn draw_exponents(input: &mut Input, _at: u64, random: &mut Random) {
    let name = random.pick(&["ATOM", "HETATM", "CRYST1", "SCALE1", "ORIGX2", "MTRIX3", "SSBOND"]);
    let kind = &KINDS[kind_named(name)];
    keep(input, kind, random);
    fill(&mut input.line, kind, random);
    let reals: Vec<_> = kind.fields.iter().filter(|field| field.sort == Sort::Real).collect();
    for _ in 0..=random.index(3) {
        let field = reals[random.index(reals.len())];
        let mut text = Vec::with_capacity(16);
        exponent_text(&mut text, field.end - field.start, random);
        place(&mut input.line, field, &text, random.index(4));
    }
}

/// Damaged copies of good lines, and heads of one with the tail of another.
fn draw_damaged(input: &mut Input, _at: u64, random: &mut Random) {
    let kind = random.index(28);
    keep(input, &KINDS[kind], random);
    input.line.extend_from_slice(good(kind, random.index(GOOD_MOST)));
    if random.percent(15) {
        let other = good(random.index(28), random.index(GOOD_MOST));
        let at = random.index(input.line.len().min(other.len()) + 1);
        input.line.truncate(at);
        input.line.extend_from_slice(&other[at..]);
    }
    damage(&mut input.line, random);
}

/// Random bytes below 128, of every length to 1,024, mostly behind a kind's name.
fn draw_bytes(input: &mut Input, _at: u64, random: &mut Random) {
    let kind = &KINDS[random.index(28)];
    keep(input, kind, random);
    if random.percent(90) {
        input.line.extend_from_slice(kind.first);
    }
    let length = match random.percent(50) {
        true => random.index(1025),
        false => random.index(100),
    };
    let how = random.below(5);
    while input.line.len() < length {
        let mut bits = random.next();
        for _ in 0..8 {
            let byte = (bits % 128) as u8;
            bits >>= 8;
            input.line.push(match how {
                0 | 1 => byte,
                2 => 32 + byte % 95,
                3 => b"0123456789 .-+  "[usize::from(byte % 16)],
                _ => b"   \t\n\x0B\x0C\r0 1 x  %"[usize::from(byte % 16)],
            });
        }
    }
    input.line.truncate(length);
}

/// Fields that go on to the line's end: numbers about 2^64, long rows of zeros, texts with white
/// space of every sort at their ends, and remarks about 80 bytes long.
fn draw_ends(input: &mut Input, _at: u64, random: &mut Random) {
    let kind = &KINDS[kind_named(random.pick(&["MODEL", "CRYST1", "REMARK", "SEQADV", "MODRES"]))];
    keep(input, kind, random);
    fill(&mut input.line, kind, random);
    let Some(field) = kind.fields.iter().find(|field| field.end == LINE_END) else {
        return;
    };
    let mut text = Vec::with_capacity(128);
    if field.sort == Sort::Unsigned {
        if random.percent(10) {
            text.push(random.pick(b"+-"));
        }
        if random.percent(20) {
            let zeros = random.index(900);
            text.resize(text.len() + zeros, b'0');
        }
        let number = match random.below(4) {
            0 => u128::from(u64::MAX) + u128::from(random.below(20)) - 10,
            1 => {
                u128::from(u64::MAX) / 10 * u128::from(8 + random.below(5))
                    + u128::from(random.below(20))
            }
            2 => 10u128.pow(random.below(24) as u32) + u128::from(random.below(3)) - 1,
            _ => u128::from(random.next()) << random.below(12),
        };
        text.extend_from_slice(number.to_string().as_bytes());
        if random.percent(5) {
            text.push(random.pick(b"x.e+-"));
        }
    } else {
        let length = match random.below(3) {
            0 => random.index(30),
            1 => 64 + random.index(10),
            _ => random.index(300),
        };
        for _ in 0..length {
            text.push(32 + random.below(95) as u8);
        }
        for _ in 0..random.index(4) {
            text.push(random.pick(b" \t\n\x0B\x0C\r\x1F"));
        }
    }
    place(&mut input.line, field, &text, random.index(4));
    input.line.truncate(1024 + random.index(4));
}

/// Lines with bytes of 128 and more, most of them UTF-8, so that the Rust can be asked.
fn draw_high(input: &mut Input, at: u64, random: &mut Random) {
    match random.percent(50) {
        true => draw_damaged(input, at, random),
        false => draw_fields(input, at, random),
    }
    for _ in 0..=random.index(3) {
        let place = random.index(input.line.len() + 1);
        let sign = match random.below(5) {
            0 => '\u{80}',
            1 => '\u{A0}',
            2 => '\u{2003}',
            _ => char::from_u32(128 + random.below(0x2000) as u32).unwrap_or('\u{E9}'),
        };
        let mut bytes = [0; 4];
        let mut bytes = sign.encode_utf8(&mut bytes).as_bytes();
        if random.percent(20) {
            bytes = &bytes[..1];
        }
        input.line.splice(place..place, bytes.iter().copied());
    }
}

/// Tables of a wrong length, long lines, and both at once.
pub fn draw_refused(input: &mut Input, at: u64, random: &mut Random) {
    match random.percent(50) {
        true => draw_damaged(input, at, random),
        false => draw_bytes(input, at, random),
    }
    let which = random.below(3);
    if which != 0 {
        input.table = Tables::pick_wrong(random);
    }
    if which != 1 {
        let length = 1025 + random.index(600);
        input.line.resize(length, random.pick(b" q\x0B0"));
        if random.percent(30) {
            let place = random.index(length);
            input.line[place] = 128 + random.below(128) as u8;
        }
    }
}
