//! The oracle as 01's program `pdblist`: not loose, all kinds, every remark number valid. It lists
//! a whole file, and writes samples that a program in the port's language can replay.

use crate::columns::{EMPTY_AT, KINDS};
use crate::domain::Class;
use crate::generate::{Input, Plan, ROOM};
use crate::oracle::Oracle;
use crate::page::Page;
use crate::tables::{self, Tables};
use std::collections::HashSet;
use std::fs;
use std::io;

/// The most bytes of a file of the sample.
const MOST: usize = 65536;

/// What `pdblist` prints for a file, and what was found about the Rust on the way.
pub fn listed(file: &[u8], tables: &Tables) -> (Vec<u8>, Vec<&'static str>) {
    let mut printed = Page::new();
    let mut found = Vec::new();
    let mut oracle = Oracle::new();
    let mut input = Input::new();
    input.table = tables::ALL_VALID;
    input.room = ROOM;
    for (at, line) in lines(file).enumerate() {
        input.line.clear();
        input.line.extend_from_slice(line);
        input.number = at + 1;
        let verdict = oracle.answer(&input, tables);
        found.extend(verdict.finding);
        match verdict.refusal.number {
            0 => printed.bytes.extend_from_slice(&oracle.page.bytes),
            number => {
                printed.record("REFUSED", input.number);
                printed.three("refusal", number, verdict.refusal.place, verdict.refusal.length);
            }
        }
    }
    (printed.bytes, found)
}

/// The lines of a file: a line ends at LF, a CR just before LF is dropped, and an empty last piece
/// is no line.
pub fn lines(file: &[u8]) -> impl Iterator<Item = &[u8]> {
    file.split_inclusive(|byte| *byte == b'\n').map(|piece| match piece {
        [line @ .., b'\r', b'\n'] | [line @ .., b'\n'] | line => line,
    })
}

/// What a line of the sample can show that others of its kind don't.
#[derive(PartialEq, Eq, Hash)]
enum Point {
    Refusal(usize, usize),
    /// A fault, without its length, which may be the line's.
    Fault(usize, Vec<u8>),
    Faults(usize, Vec<u8>),
    Length(usize, usize),
}

/// Writes `count` lines as PREFIX-1.stdin, PREFIX-2.stdin, .., each at most 65,536 bytes long, with
/// what `pdblist` prints for them in PREFIX-1.stdout, ... Chosen are all lines that show a refusal or
/// a fault that no earlier line of their kind shows; up to half of the sample, lines with a new list
/// of faults or a new length; and lines of all sections, the same number for each kind.
pub fn write(prefix: &str, count: usize, plan: &Plan, tables: &Tables) -> io::Result<()> {
    let chosen = choose(count, plan, tables);
    let mut file: Vec<u8> = Vec::with_capacity(MOST);
    let mut files = Vec::new();
    for (at, line) in chosen.iter().enumerate() {
        if file.len() + line.len() + 2 > MOST {
            files.push(std::mem::take(&mut file));
        }
        file.extend_from_slice(line);
        file.extend_from_slice(if at % 7 == 3 { b"\r\n" } else { b"\n" });
    }
    // The last line of all ends with the file.
    file.pop();
    files.push(file);
    for (at, file) in files.iter().enumerate() {
        let (printed, found) = listed(file, tables);
        if let Some(finding) = found.first() {
            return Err(io::Error::other(*finding));
        }
        fs::write(format!("{prefix}-{}.stdin", at + 1), file)?;
        fs::write(format!("{prefix}-{}.stdout", at + 1), &printed)?;
        println!(
            "{prefix}-{}: {} lines, {} bytes in, {} bytes out",
            at + 1,
            lines(file).count(),
            file.len(),
            printed.len()
        );
    }
    Ok(())
}

fn choose(count: usize, plan: &Plan, tables: &Tables) -> Vec<Vec<u8>> {
    let mut oracle = Oracle::new();
    let mut input = Input::new();
    let mut seen = HashSet::new();
    let mut points = HashSet::new();
    let mut chosen = Vec::new();
    let mut others: Vec<Vec<Vec<u8>>> = vec![Vec::new(); KINDS.len()];
    let share = count.div_ceil(KINDS.len());
    for index in 0..plan.count {
        // A stride that comes to every section early.
        let index = (u128::from(index) * 0x9E37_79B9_7F4A_7C15 % u128::from(plan.count)) as u64;
        plan.make(index, &mut input);
        input.options = 0;
        input.table = tables::ALL_VALID;
        input.room = ROOM;
        input.number = 1;
        // Long lines only about the greatest length.
        let plain = matches!(input.line.len(), 0..=120 | 1023..=1026)
            && input.line.iter().all(|byte| *byte < 128 && *byte != b'\n')
            && input.line.last() != Some(&b'\r');
        if !plain || seen.contains(&input.line) {
            continue;
        }
        let verdict = oracle.answer(&input, tables);
        let answered = matches!(
            verdict.class,
            Class::Domain | Class::LongLine | Class::ShortHeader | Class::ShortLine
        );
        if !answered {
            continue;
        }
        let kind = match input.line.len() {
            0..=1000 => verdict.kind,
            _ => EMPTY_AT,
        };
        let listing = oracle.page.bytes.as_slice();
        let rows = listing.split(|byte| *byte == b'\n');
        let faults: Vec<_> = rows.filter(|row| row.starts_with(b"fault=")).collect();
        let mut must = points.insert(Point::Refusal(kind, verdict.refusal.number));
        must |= input.line.len() > 1000 && points.insert(Point::Length(kind, input.line.len()));
        for row in &faults {
            let end = row.iter().rposition(|byte| *byte == b',').unwrap_or(0);
            must |= points.insert(Point::Fault(kind, row[..end].to_vec()));
        }
        let short = input.line.len() <= 90 && !KINDS[kind].fields.is_empty();
        let mut may = short && points.insert(Point::Length(kind, input.line.len()));
        may |= short && faults.len() > 1 && points.insert(Point::Faults(kind, faults.concat()));
        if must || may && chosen.len() < count / 2 {
            seen.insert(input.line.clone());
            chosen.push(input.line.clone());
        } else if others[kind].len() < share && input.line.len() <= 90 {
            seen.insert(input.line.clone());
            others[kind].push(input.line.clone());
        }
    }
    for at in 0..share {
        let next = others.iter().filter_map(|lines| lines.get(at));
        chosen.extend(next.take(count.saturating_sub(chosen.len())).cloned());
    }
    chosen
}
