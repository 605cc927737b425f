//! What a run counts, and how it is printed.

use crate::columns::KINDS;
use crate::compare::Seen;
use crate::domain::{class_of, Class, CLASSES};
use crate::generate::{Input, ROOM};
use crate::oracle::{Did, Oracle, Verdict};
use crate::page::Page;
use crate::tables::{self, Tables};
use std::collections::{BTreeMap, BTreeSet};

const CLASS_COUNT: usize = CLASSES.len();

/// An input that is worth showing. Of two the smaller is kept: the shorter line, and among lines
/// of one length an order that settles every tie, so that threads don't change what is shown.
#[derive(Clone)]
pub struct Shown {
    pub input: Input,
    pub why: &'static str,
}

impl Shown {
    fn before(&self, other: &Shown) -> bool {
        let key = |shown: &Shown| {
            let input = &shown.input;
            (input.line.len(), input.options, input.room, input.table, input.number, input.task)
        };
        (key(self), &self.input.line) < (key(other), &other.input.line)
    }
}

pub fn keep_smaller(kept: &mut Option<Shown>, input: &Input, why: &'static str) {
    let longer = match kept {
        Some(kept) => kept.input.line.len() < input.line.len(),
        None => false,
    };
    if longer {
        return;
    }
    let shown = Shown { input: input.clone(), why };
    if kept.as_ref().is_none_or(|kept| shown.before(kept)) {
        *kept = Some(shown);
    }
}

/// One class of inputs: the domain, or one outside of it.
#[derive(Clone, Default)]
pub struct Part {
    pub lines: u64,
    /// Read, error, panic, not asked.
    rust: [u64; 4],
    /// By the refusal's number; 0 for a listing.
    expected: [u64; 9],
    port: [u64; 9],
    pub wrong: u64,
    pub smallest_wrong: Option<Shown>,
    smallest: Option<Shown>,
    /// By the line of lexer.rs.
    panics: BTreeMap<u32, Panics>,
}

/// The panics at one line of lexer.rs.
#[derive(Clone, Default)]
struct Panics {
    count: u64,
    kinds: BTreeSet<usize>,
    smallest: Option<Shown>,
}

#[derive(Clone, Default)]
pub struct Tally {
    pub parts: [Part; CLASS_COUNT],
    /// In the domain, by kind: without a fault, with faults, and refusals by number.
    kinds: [[u64; 11]; 28],
    /// Outside of the domain, by kind.
    outside: [u64; 28],
    /// Faults of each kind, in the domain.
    faults: [u64; 6],
    /// Faults 2 by the sort that they name, in the domain.
    sorts: [u64; 4],
    options: [u64; 4],
    /// Lines that are read with exponents, and those of them in the domain with one written.
    exponents: [u64; 2],
    pub findings: BTreeMap<&'static str, (u64, Option<Shown>)>,
    longest: usize,
}

impl Tally {
    /// Counts one input and what it should give.
    pub fn count(&mut self, input: &Input, verdict: &Verdict, listing: usize) {
        let part = &mut self.parts[verdict.class as usize];
        let refusal = verdict.refusal.number;
        part.lines += 1;
        part.rust[verdict.did as usize] += 1;
        part.expected[refusal] += 1;
        if verdict.did == Did::Panic {
            let panics = part.panics.entry(verdict.panicked_at).or_default();
            panics.count += 1;
            panics.kinds.insert(verdict.kind);
            keep_smaller(&mut panics.smallest, input, "");
        }
        self.options[(input.options % 4) as usize] += 1;
        if input.exponents() {
            self.exponents[0] += 1;
            let without = class_of(&input.line, verdict.kind, 1000, false);
            let written = verdict.class == Class::Domain && without == Class::Exponent;
            self.exponents[1] += u64::from(written);
        }
        if verdict.class == Class::Domain {
            let answer = match refusal {
                0 if verdict.faults.iter().all(|count| *count == 0) => 0,
                0 => 1,
                number => 1 + number,
            };
            self.kinds[verdict.kind][answer] += 1;
            if refusal == 0 {
                for (sum, count) in self.faults.iter_mut().zip(verdict.faults) {
                    *sum += u64::from(count);
                }
                for at in 0..15 {
                    self.sorts[verdict.sorts.at(at)] += 1;
                }
            }
        } else {
            self.outside[verdict.kind] += 1;
            keep_smaller(&mut part.smallest, input, "");
        }
        if refusal == 0 {
            self.longest = self.longest.max(listing);
        }
        if let Some(finding) = verdict.finding {
            let (count, smallest) = self.findings.entry(finding).or_default();
            *count += 1;
            keep_smaller(smallest, input, finding);
        }
    }

    /// Counts what the port did.
    pub fn count_port(&mut self, input: &Input, verdict: &Verdict, seen: &Seen) {
        let part = &mut self.parts[verdict.class as usize];
        part.port[seen.refusal.number.min(8)] += 1;
        if let Some(why) = seen.wrong {
            part.wrong += 1;
            keep_smaller(&mut part.smallest_wrong, input, why);
        }
    }

    /// Adds another thread's counts.
    pub fn add(&mut self, other: Tally) {
        for (part, other) in self.parts.iter_mut().zip(other.parts) {
            part.lines += other.lines;
            part.wrong += other.wrong;
            add_all(&mut part.rust, &other.rust);
            add_all(&mut part.expected, &other.expected);
            add_all(&mut part.port, &other.port);
            for (at, other) in other.panics {
                let panics = part.panics.entry(at).or_default();
                panics.count += other.count;
                panics.kinds.extend(other.kinds);
                if let Some(other) = other.smallest {
                    keep_smaller(&mut panics.smallest, &other.input, other.why);
                }
            }
            for (kept, other) in [
                (&mut part.smallest_wrong, other.smallest_wrong),
                (&mut part.smallest, other.smallest),
            ] {
                if let Some(other) = other {
                    keep_smaller(kept, &other.input, other.why);
                }
            }
        }
        for (kind, other) in self.kinds.iter_mut().zip(&other.kinds) {
            add_all(kind, other);
        }
        add_all(&mut self.outside, &other.outside);
        add_all(&mut self.faults, &other.faults);
        add_all(&mut self.sorts, &other.sorts);
        add_all(&mut self.options, &other.options);
        add_all(&mut self.exponents, &other.exponents);
        for (finding, (count, shown)) in other.findings {
            let (sum, smallest) = self.findings.entry(finding).or_default();
            *sum += count;
            if let Some(shown) = shown {
                keep_smaller(smallest, &shown.input, finding);
            }
        }
        self.longest = self.longest.max(other.longest);
    }

    /// Prints all counts.
    pub fn print(&self, tables: &Tables, port: bool) {
        println!("\nIn demand 2's domain, by kind and answer; in the last column, outside of it:");
        let heads =
            ["lines", "no fault", "faults", "refused 4", "refused 5", "refused 8", "outside"];
        println!("{:8}{}", "", heads.map(|head| format!("{head:>11}")).concat());
        let mut sums = [0; 11];
        for ((kind, counts), outside) in KINDS.iter().zip(&self.kinds).zip(self.outside) {
            print_kind(kind.name, counts, outside);
            add_all(&mut sums, counts);
        }
        print_kind("all", &sums, self.outside.iter().sum());
        println!(
            "faults by kind: 1: {}, 2: {}, 3: {}, 4: {}, 5: {}",
            self.faults[1], self.faults[2], self.faults[3], self.faults[4], self.faults[5]
        );
        println!(
            "faults 2 by sort: unsigned {}, signed {}, real {}",
            self.sorts[1], self.sorts[2], self.sorts[3]
        );
        println!("longest listing: {} bytes", self.longest);
        println!(
            "options: none {}, atoms only {}, loose {}, both {}",
            self.options[0], self.options[1], self.options[2], self.options[3]
        );
        println!(
            "with exponents {}, and one that is read stands in {}",
            self.exponents[0], self.exponents[1]
        );

        println!("\nOutside of it, by class:");
        for ((class, name), part) in CLASSES.iter().zip(&self.parts) {
            if *class == Class::Domain {
                continue;
            }
            println!("{name}: {} lines", part.lines);
            let named = ["read", "error", "panic", "not asked"];
            let rust: Vec<_> = named.iter().map(|name| name.to_string()).zip(part.rust).collect();
            println!("    the Rust: {}", joined(&rust));
            for (at, panics) in &part.panics {
                panics.print(*at, *class, tables);
            }
            println!("    by 01: {}", joined(&answers(&part.expected)));
            if port {
                println!("    the port: {}", joined(&answers(&part.port)));
            }
            if let Some(shown) = &part.smallest {
                print_smallest(shown, tables, |verdict| verdict.class == *class);
            }
        }
    }
}

impl Panics {
    fn print(&self, at: u32, class: Class, tables: &Tables) {
        let names: Vec<_> = self.kinds.iter().map(|kind| KINDS[*kind].name).collect();
        let kinds = match names.len() {
            0..=4 => names.join(", "),
            count => format!("{count} kinds"),
        };
        println!("    panics at lexer.rs:{at}: {} ({kinds})", self.count);
        if let Some(shown) = &self.smallest {
            print_smallest(shown, tables, |verdict| {
                verdict.class == class && verdict.panicked_at == at
            });
        }
    }
}

/// Prints an input made smaller as far as something holds of what is known about it.
fn print_smallest(shown: &Shown, tables: &Tables, holds: impl Fn(&Verdict) -> bool) {
    let mut oracle = Oracle::new();
    let smallest = shrunk(&shown.input, |input| holds(&oracle.answer(input, tables)));
    println!("        smallest: {}", described(&smallest, tables));
}

pub fn add_all(sums: &mut [u64], others: &[u64]) {
    for (sum, other) in sums.iter_mut().zip(others) {
        *sum += other;
    }
}

fn print_kind(name: &str, counts: &[u64; 11], outside: u64) {
    let lines = counts.iter().sum();
    let row = [lines, counts[0], counts[1], counts[5], counts[6], counts[9], outside];
    println!("{name:8}{}", row.map(|count| format!("{count:11}")).concat());
}

fn answers(counts: &[u64; 9]) -> Vec<(String, u64)> {
    let name = |number| match number {
        0 => "listed".to_string(),
        number => format!("refusal {number}"),
    };
    (0..9).map(name).zip(*counts).collect()
}

/// The counts that aren't 0, with their names.
fn joined(counts: &[(String, u64)]) -> String {
    let some: Vec<_> = counts
        .iter()
        .filter(|(_, count)| *count > 0)
        .map(|(name, count)| format!("{name} {count}"))
        .collect();
    some.join(", ")
}

/// An input in one line: its bytes escaped as in a listing, long rows of one byte counted.
pub fn described(input: &Input, tables: &Tables) -> String {
    let mut page = Page::new();
    for row in input.line.chunk_by(|one, other| one == other) {
        if row.len() > 9 {
            page.put("<");
            page.decimal(row.len() as u64);
            page.put(" of '");
            page.escaped(&row[..1]);
            page.put("'>");
        } else {
            page.escaped(row);
        }
    }
    format!(
        "[{}] {} bytes; atoms only {}, loose {}, exponents {}, table: {}, line number {}, output {}",
        String::from_utf8_lossy(&page.bytes),
        input.line.len(),
        u8::from(input.atoms_only()),
        u8::from(input.loose()),
        u8::from(input.exponents()),
        tables.all[input.table].name,
        input.number,
        input.room
    )
}

/// An input made smaller and plainer, step by step, as long as something holds of it.
pub fn shrunk(input: &Input, mut holds: impl FnMut(&Input) -> bool) -> Input {
    let mut input = input.clone();
    while let Some(other) = smaller(&input).into_iter().find(&mut holds) {
        input = other;
    }
    input
}

/// Inputs that are a little smaller or plainer.
fn smaller(input: &Input) -> Vec<Input> {
    let mut all = Vec::new();
    let mut add = |change: &dyn Fn(&mut Input)| {
        let mut other = input.clone();
        change(&mut other);
        all.push(other);
    };
    if input.options != 0 {
        add(&|other| other.options = 0);
    }
    if input.table != tables::CRATE {
        add(&|other| other.table = tables::CRATE);
    }
    if input.room != ROOM {
        add(&|other| other.room = ROOM);
    }
    if input.number != 1 {
        add(&|other| other.number = 1);
    }
    for at in (0..input.line.len()).rev() {
        add(&|other| {
            other.line.remove(at);
        });
    }
    for at in 0..input.line.len() {
        if input.line[at] != b' ' {
            add(&|other| other.line[at] = b' ');
        }
    }
    all
}
