//! The run that writes: the port is asked for the line of each record, then for the listing of that
//! line, and then for the line of what it reads there, all in the format's places and then in those
//! that were read; see `written` for what each is held to.

use crate::columns::KINDS;
use crate::compare::{seen, Desk, Due};
use crate::generate::{Input, Plan, Task, ROOM};
use crate::port::{BLOCK, UNWRITTEN};
use crate::tables::Tables;
use crate::tally::{add_all, described, keep_smaller, shrunk, Shown};
use crate::writing::{places_of, LONG};
use crate::written::{reals, returned, told, wanted, wrong, Reals, Wanted};
use crate::{print_sides, share, Words, STRIDE};
use std::collections::BTreeMap;
use std::io;
use std::process::ExitCode;
use std::sync::atomic::{AtomicU64, Ordering};

/// The ways in which each record is written, and what they are called.
const WAYS: [(Task, &str); 2] =
    [(Task::Write, "in the format's places"), (Task::WriteAsRead, "in the places that were read")];

/// What came of one record.
struct Judged {
    input: Input,
    due: Due,
    wanted: Wanted,
    /// What the port answered, and the front of its output.
    answered: Option<(u64, Vec<u8>)>,
    /// The line that was written.
    line: Option<Vec<u8>>,
    reals: Reals,
    /// The first thing that isn't as it should be.
    wrong: Option<&'static str>,
}

/// Writes a block of records, which `make` fills in, and reads and writes again what was written.
fn judge(
    desk: &mut Desk,
    count: usize,
    tables: &Tables,
    make: impl FnMut(usize, &mut Input),
) -> io::Result<Vec<Judged>> {
    let mut all = Vec::with_capacity(count);
    desk.ask(count, tables, make, |input, due, answer| {
        let wanted = wanted(input, due);
        let answered = answer.map(|answer| (answer.written, answer.output[..LONG].to_vec()));
        // Without a port the line that should be written counts.
        let line = match (&answered, &wanted) {
            (Some((0, output)), _) => Some(output.clone()),
            (None, Wanted::Line(line)) => Some(line.to_vec()),
            _ => None,
        };
        all.push(Judged {
            input: input.clone(),
            due: due.clone(),
            answered,
            line,
            reals: Reals::default(),
            wrong: due.verdict.finding.or(answer.and_then(|answer| wrong(&wanted, answer))),
            wanted,
        });
    })?;

    let mut written: Vec<&mut Judged> = all.iter_mut().filter(|it| it.line.is_some()).collect();
    if written.is_empty() {
        return Ok(all);
    }
    for write in [false, true] {
        let lines: Vec<Input> = written.iter().map(|it| again(it, write)).collect();
        let mut next = written.iter_mut();
        let make = |at: usize, input: &mut Input| input.clone_from(&lines[at]);
        desk.ask(lines.len(), tables, make, |input, due, answer| {
            let Some(judged) = next.next() else {
                return;
            };
            let found = match write {
                false => {
                    let answered = answer.and_then(|it| seen(&due.verdict, &due.listing, it).wrong);
                    let (first, count) = (&judged.due, &mut judged.reals);
                    returned(&judged.input, first, &input.line, due, count).or(answered)
                }
                true => {
                    let same = wanted(input, due);
                    let answered = answer.and_then(|answer| wrong(&same, answer));
                    match same {
                        Wanted::Line(line) if line == *input.line => answered,
                        _ => Some("a written line isn't written again as it is"),
                    }
                }
            };
            judged.wrong = judged.wrong.or(due.verdict.finding).or(found);
        })?;
    }
    Ok(all)
}

/// The request about the line that was written.
fn again(judged: &Judged, write: bool) -> Input {
    Input {
        line: judged.line.clone().unwrap_or_default(),
        room: ROOM,
        task: if write { judged.input.task } else { Task::List },
        ..judged.input.clone()
    }
}

/// What a run counts of one way.
#[derive(Default)]
struct Tally {
    /// By kind: written, refused with 9, refused with 8, not read.
    kinds: [[u64; 4]; 28],
    /// Lines with faults, among those that were written and among those refused with 9.
    faulty: [u64; 2],
    /// Refusals 9 by kind and place.
    places: BTreeMap<(usize, usize), u64>,
    /// The reals among these, by the number of places that were read.
    unfit: [u64; 10],
    reals: Reals,
    /// What is wrong, how often, and the smallest line.
    wrong: BTreeMap<&'static str, (u64, Option<Shown>)>,
}

impl Tally {
    fn count(&mut self, judged: &Judged) {
        let kind = judged.due.verdict.kind;
        let faulty = judged.due.verdict.faults != [0; 6];
        let answer = match judged.wanted {
            Wanted::Line(_) => 0,
            Wanted::Refused(refusal) if refusal.number == 9 => {
                *self.places.entry((kind, refusal.place)).or_default() += 1;
                if reals(KINDS[kind].name).iter().any(|real| real.0 == refusal.place) {
                    let end = refusal.place + refusal.length;
                    let field = judged.input.line.get(refusal.place..end);
                    self.unfit[places_of(field) as usize] += 1;
                }
                1
            }
            Wanted::Refused(_) => 2,
            Wanted::NotRead => 3,
        };
        self.kinds[kind][answer] += 1;
        if let Some(faults) = self.faulty.get_mut(answer) {
            *faults += u64::from(faulty);
        }
        self.reals.add(&judged.reals);
        if let Some(why) = judged.wrong {
            self.note(why, 1, &judged.input);
        }
    }

    fn note(&mut self, why: &'static str, count: u64, input: &Input) {
        let (sum, smallest) = self.wrong.entry(why).or_default();
        *sum += count;
        keep_smaller(smallest, input, why);
    }

    /// Adds another thread's counts.
    fn add(&mut self, other: Tally) {
        for (kind, other) in self.kinds.iter_mut().zip(&other.kinds) {
            add_all(kind, other);
        }
        add_all(&mut self.faulty, &other.faulty);
        for (place, count) in other.places {
            *self.places.entry(place).or_default() += count;
        }
        add_all(&mut self.unfit, &other.unfit);
        self.reals.add(&other.reals);
        for (why, (count, shown)) in other.wrong {
            if let Some(shown) = shown {
                self.note(why, count, &shown.input);
            }
        }
    }

    fn print(&self, (task, way): (Task, &str)) {
        println!("\nWritten {way}, by kind and answer:");
        let heads = ["records", "written", "refused 9", "refused 8", "not read"];
        println!("{:8}{}", "", heads.map(|head| format!("{head:>11}")).concat());
        let mut sums = [0; 4];
        for (kind, counts) in KINDS.iter().zip(&self.kinds) {
            print_kind(kind.name, counts);
            add_all(&mut sums, counts);
        }
        print_kind("all", &sums);
        println!(
            "read with faults: {} of those written, {} of those refused with 9",
            self.faulty[0], self.faulty[1]
        );
        println!("refused with 9, by the place of the first field that doesn't fit:");
        for (at, kind) in KINDS.iter().enumerate() {
            let of_kind = self.places.range((at, 0)..(at + 1, 0));
            let counts: Vec<_> = of_kind.map(|((_, place), n)| format!("{place}: {n}")).collect();
            if !counts.is_empty() {
                println!("    {}: {}", kind.name, counts.join(", "));
            }
        }
        if task == Task::WriteAsRead {
            println!("reals that didn't fit, by their places: {}", by_places(&self.unfit));
            println!("reals that came back, by their places: {}", by_places(&self.reals.as_read));
            println!("defaults that came back: {}", self.reals.defaults);
            return;
        }
        println!(
            "reals that were written and came back: {} with no more places than are written, {} \
            with more, of these {} in the middle between two decimals; {} as a zero with a sign",
            self.reals.kept, self.reals.rounded, self.reals.ties, self.reals.minus_zeros
        );
    }

    fn written(&self) -> u64 {
        self.kinds.iter().map(|counts| counts[0]).sum()
    }
}

fn by_places(counts: &[u64; 10]) -> String {
    let all: Vec<_> = counts.iter().enumerate().map(|(at, n)| format!("{at}: {n}")).collect();
    all.join(", ")
}

fn print_kind(name: &str, counts: &[u64; 4]) {
    let [written, nine, eight, not_read] = *counts;
    let row = [counts.iter().sum(), written, nine, eight, not_read];
    println!("{name:8}{}", row.map(|count| format!("{count:11}")).concat());
}

/// Runs every case and says what came of it: success if nothing was wrong.
pub fn write_all(words: &Words, count: u64, tables: &Tables) -> io::Result<ExitCode> {
    let plan = Plan::records(words.seed, count, words.files.clone());
    println!("seed {}, {} records to write, each in two ways", plan.seed, plan.count);
    print_sides(&words.port, "the writer of this program is held to the Rust alone");
    for (name, count) in plan.sections() {
        println!("    {name}: {count}");
    }
    let run = |next: &AtomicU64| run(&plan, tables, &words.port, next);
    let mut tallies: [Tally; 2] = Default::default();
    for others in share(words.threads, plan.count, "records", run)? {
        for (tally, other) in tallies.iter_mut().zip(others) {
            tally.add(other);
        }
    }
    for (tally, way) in tallies.iter().zip(WAYS) {
        tally.print(way);
    }
    verdict(&tallies, tables, &words.port)
}

/// One thread's share of the cases, with a port of its own.
fn run(plan: &Plan, tables: &Tables, port: &[String], next: &AtomicU64) -> io::Result<[Tally; 2]> {
    let mut tallies: [Tally; 2] = Default::default();
    let mut desk = Desk::new(port, tables)?;
    loop {
        let first = next.fetch_add(STRIDE, Ordering::Relaxed);
        if first >= plan.count {
            return Ok(tallies);
        }
        let end = plan.count.min(first + STRIDE);
        for start in (first..end).step_by(BLOCK) {
            let count = BLOCK.min((end - start) as usize);
            for (tally, (task, _)) in tallies.iter_mut().zip(WAYS) {
                let make = |at, input: &mut Input| {
                    plan.make(start + at as u64, input);
                    input.task = task;
                };
                for judged in judge(&mut desk, count, tables, make)? {
                    tally.count(&judged);
                }
            }
        }
    }
}

/// The last word: what was wrong, each with its smallest line.
fn verdict(tallies: &[Tally; 2], tables: &Tables, port: &[String]) -> io::Result<ExitCode> {
    for (tally, (_, way)) in tallies.iter().zip(WAYS) {
        for (why, (count, shown)) in &tally.wrong {
            println!("\nDIFFERENCE in {count} records, {way}: {why}");
            if let Some(shown) = shown {
                explain(shown, tables, &mut Desk::new(port, tables)?)?;
            }
        }
    }
    let [usual, as_read] = tallies;
    let all: u64 = usual.kinds.iter().flatten().sum();
    let counts = as_read.reals.as_read.iter().zip(as_read.unfit).enumerate();
    let places: Vec<_> =
        counts.filter(|(_, (fit, unfit))| **fit + unfit > 0).map(|it| it.0.to_string()).collect();
    let (what, code) = match (tallies.iter().all(|tally| tally.wrong.is_empty()), port) {
        (true, []) => ("what is written comes back; no port was compared", ExitCode::SUCCESS),
        (true, _) => ("no difference", ExitCode::SUCCESS),
        (false, _) => ("DIFFERENT", ExitCode::FAILURE),
    };
    println!(
        "\n{what}: {all} records, {} of them written and read again; in the places that were read \
        {}, with {} reals; numbers of places: {}",
        usual.written(),
        as_read.written(),
        as_read.reals.as_read.iter().sum::<u64>(),
        places.join(" ")
    );
    Ok(code)
}

/// Shows a wrong case, made smaller as far as it stays wrong in the same way.
fn explain(shown: &Shown, tables: &Tables, desk: &mut Desk) -> io::Result<()> {
    let mut one = |input: &Input| {
        let make = |_, place: &mut Input| place.clone_from(input);
        judge(desk, 1, tables, make).map(|mut all| all.remove(0))
    };
    let is_wrong = |judged: &Judged| judged.wrong == Some(shown.why);
    let input = shrunk(&shown.input, |input| one(input).is_ok_and(|judged| is_wrong(&judged)));
    let judged = one(&input)?;
    println!("    {}", described(&input, tables));
    match judged.wanted {
        Wanted::Line(line) => println!("  should be: [{}]", line.escape_ascii()),
        Wanted::Refused(it) => {
            println!("  should be: refusal={},{},{}", it.number, it.place, it.length)
        }
        Wanted::NotRead => println!("  should be: the line is refused"),
    }
    if let Some((word, output)) = judged.answered {
        println!("  the port:  {}", told(word));
        if output.iter().any(|byte| *byte != UNWRITTEN) {
            println!("             [{}]", output.escape_ascii());
        }
    }
    Ok(())
}
