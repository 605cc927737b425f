//! Compares the port with the Rust that it carries over, line by line; see README.md.

mod columns;
mod compare;
mod domain;
mod generate;
mod good;
mod oracle;
mod page;
mod port;
mod random;
mod rust;
mod sample;
mod shims;
mod sorts;
mod tables;
mod tally;
#[cfg(test)]
#[rustfmt::skip]
mod tests;
mod write;
mod writing;
mod written;

// The names that lexer.rs expects at the root of its crate.
use shims::options::{ReadOptions, StrictnessLevel};
use shims::{error, reference_tables};

use compare::{seen, Case, Desk};
use domain::Class;
use generate::{Input, Plan};
use port::{BLOCK, KIND_DIFFERS, LINES_DIFFER};
use sorts::Sorts;
use std::io::{self, Read, Write};
use std::process::ExitCode;
use std::sync::atomic::{AtomicU64, Ordering};
use std::thread;
use std::time::Instant;
use tables::Tables;
use tally::{described, shrunk, Shown, Tally};

const USAGE: &str = "differential [--count N | --short] [--seed N] [--threads N] [--file FILE].. [-- PORT WORD..]
    compares N lines (10,000,000; short: 1,000,000); lines of each FILE come first, whole and damaged;
    PORT is the program that answers for the port, and without one the Rust is held to 01 alone
differential --write [--count N | --short] ..
    compares what is written of N records in two ways (1,000,000; short: 100,000), with the same words
differential --list
    what pdblist prints for standard input, by the oracle
differential --sample PREFIX LINES [--seed N]
    writes PREFIX-1.stdin and PREFIX-1.stdout, .. for pdblist to replay";

const USUAL: u64 = 10_000_000;
const SHORT: u64 = 1_000_000;
const USUAL_RECORDS: u64 = 1_000_000;
const SHORT_RECORDS: u64 = 100_000;
const USUAL_SEED: u64 = 330;
/// How many cases are drawn from to choose a sample.
const SAMPLED: u64 = 2_000_000;
/// How many cases a thread takes at a time: whole blocks of requests.
const STRIDE: u64 = 128 * BLOCK as u64;

enum Mode {
    Compare,
    Write,
    List,
    Sample(String, usize),
}

struct Words {
    mode: Mode,
    count: Option<u64>,
    short: bool,
    seed: u64,
    threads: usize,
    files: Vec<Vec<u8>>,
    /// The command that runs the port, or nothing.
    port: Vec<String>,
}

impl Words {
    /// How many cases are asked for.
    fn count(&self, usual: u64, short: u64) -> u64 {
        let others = if self.short { short } else { usual };
        self.count.unwrap_or(others)
    }
}

fn main() -> ExitCode {
    let words = match words() {
        Ok(words) => words,
        Err(why) => {
            eprintln!("{why}\n{USAGE}");
            return ExitCode::from(2);
        }
    };
    rust::expect_panics();
    let tables = Tables::new(words.seed);
    let done = match &words.mode {
        Mode::Compare => compare_all(&words, words.count(USUAL, SHORT), &tables),
        Mode::Write => write::write_all(&words, words.count(USUAL_RECORDS, SHORT_RECORDS), &tables),
        Mode::List => list(&tables).map(|()| ExitCode::SUCCESS),
        Mode::Sample(prefix, count) => {
            let plan = Plan::new(words.seed, SAMPLED, Vec::new());
            sample::write(prefix, *count, &plan, &tables).map(|()| ExitCode::SUCCESS)
        }
    };
    match done {
        Ok(code) => code,
        Err(why) => {
            eprintln!("differential: {why}");
            ExitCode::FAILURE
        }
    }
}

fn words() -> Result<Words, String> {
    let mut words = Words {
        mode: Mode::Compare,
        count: None,
        short: false,
        seed: USUAL_SEED,
        threads: thread::available_parallelism().map_or(1, usize::from),
        files: Vec::new(),
        port: Vec::new(),
    };
    let mut given = std::env::args().skip(1);
    while let Some(word) = given.next() {
        if word == "--" {
            words.port = given.collect();
            break;
        }
        let mut next = || given.next().ok_or(format!("{word} wants more"));
        match word.as_str() {
            "--count" => words.count = Some(number(&next()?)?),
            "--short" => words.short = true,
            "--write" => words.mode = Mode::Write,
            "--seed" => words.seed = number(&next()?)?,
            "--threads" => words.threads = number(&next()?)?.max(1) as usize,
            "--file" => {
                let name = next()?;
                let file = std::fs::read(&name).map_err(|why| format!("{name}: {why}"))?;
                if sample::lines(&file).any(|line| line.len() > port::LONGEST) {
                    return Err(format!("{name} has a line of over {} bytes", port::LONGEST));
                }
                words.files.extend(sample::lines(&file).map(<[u8]>::to_vec));
            }
            "--list" => words.mode = Mode::List,
            "--sample" => words.mode = Mode::Sample(next()?, number(&next()?)? as usize),
            _ => return Err(format!("{word} is not known")),
        }
    }
    Ok(words)
}

fn number(word: &str) -> Result<u64, String> {
    let plain: String = word.chars().filter(|sign| *sign != ',' && *sign != '_').collect();
    plain.parse().map_err(|_| format!("{word} is no number"))
}

fn list(tables: &Tables) -> io::Result<()> {
    let mut file = Vec::new();
    io::stdin().read_to_end(&mut file)?;
    let (printed, found) = sample::listed(&file, tables);
    io::stdout().write_all(&printed)?;
    match found.first() {
        None => Ok(()),
        Some(finding) => Err(io::Error::other(*finding)),
    }
}

/// Runs every case and says what came of it: success if nothing was wrong.
fn compare_all(words: &Words, count: u64, tables: &Tables) -> io::Result<ExitCode> {
    let plan = Plan::new(words.seed, count, words.files.clone());
    println!("seed {}, {} lines", plan.seed, plan.count);
    print_sides(&words.port, "the Rust is held to 01 alone");
    for (name, count) in plan.sections() {
        println!("    {name}: {count}");
    }
    let run = |next: &AtomicU64| run(&plan, tables, &words.port, next);
    let mut tally = Tally::default();
    for other in share(words.threads, plan.count, "lines", run)? {
        tally.add(other);
    }
    tally.print(tables, !words.port.is_empty());
    verdict(&tally, tables, &words.port)
}

fn print_sides(port: &[String], without: &str) {
    println!(
        "the Rust: {}, {}",
        env!("PDBTBX_SRC"),
        match cfg!(debug_assertions) {
            true => "with overflow checks",
            false => "without overflow checks",
        }
    );
    match port {
        [] => println!("the port: none was named; {without}"),
        command => println!("the port: {}", command.join(" ")),
    }
}

/// What each of so many threads made of its share of the cases, and how long that took. The next
/// case that nobody has taken is counted by all.
fn share<T: Send>(
    threads: usize,
    count: u64,
    cases: &str,
    run: impl Fn(&AtomicU64) -> io::Result<T> + Sync,
) -> io::Result<Vec<T>> {
    let start = Instant::now();
    let next = AtomicU64::new(0);
    let all = thread::scope(|scope| {
        let all: Vec<_> = (0..threads).map(|_| scope.spawn(|| run(&next))).collect();
        let ended = all.into_iter().map(|thread| thread.join().expect("no thread panics"));
        ended.collect::<io::Result<Vec<T>>>()
    })?;
    let seconds = start.elapsed().as_secs_f64();
    println!("{seconds:.1} s, {:.0} {cases} a second on {threads} threads", count as f64 / seconds);
    Ok(all)
}

/// One thread's share of the cases, with a port of its own.
fn run(plan: &Plan, tables: &Tables, port: &[String], next: &AtomicU64) -> io::Result<Tally> {
    let mut tally = Tally::default();
    let mut desk = Desk::new(port, tables)?;
    loop {
        let first = next.fetch_add(STRIDE, Ordering::Relaxed);
        if first >= plan.count {
            return Ok(tally);
        }
        let end = plan.count.min(first + STRIDE);
        for start in (first..end).step_by(BLOCK) {
            let count = BLOCK.min((end - start) as usize);
            let make = |at, input: &mut Input| plan.make(start + at as u64, input);
            desk.ask(count, tables, make, |input, due, answer| {
                let verdict = &due.verdict;
                tally.count(input, verdict, due.listing.len());
                if let Some(answer) = answer {
                    tally.count_port(input, verdict, &seen(verdict, &due.listing, answer));
                }
            })?;
        }
    }
}

/// The last word: what was wrong, each with its smallest line.
fn verdict(tally: &Tally, tables: &Tables, port: &[String]) -> io::Result<ExitCode> {
    let mut fine = true;
    for (finding, (count, shown)) in &tally.findings {
        fine = false;
        println!("\nTHE RUST ISN'T AS 01 SAYS, in {count} lines: {finding}");
        if let Some(shown) = shown {
            println!("    {}", described(&shown.input, tables));
        }
    }
    for ((class, name), part) in domain::CLASSES.iter().zip(&tally.parts) {
        let Some(shown) = &part.smallest_wrong else {
            continue;
        };
        fine = false;
        let kept = match class {
            Class::Domain => "the Rust's answer",
            _ => "what 01 says",
        };
        println!("\nDIFFERENCE in {} lines: {name}; held to {kept}", part.wrong);
        explain(shown, *class, tables, &mut Desk::new(port, tables)?)?;
    }
    let lines: u64 = tally.parts.iter().map(|part| part.lines).sum();
    let domain = tally.parts[Class::Domain as usize].lines;
    let what = match (fine, port) {
        (true, []) => "the Rust is as 01 says; no port was compared",
        (true, _) => "no difference",
        (false, _) => "DIFFERENT",
    };
    println!("\n{what}: {lines} lines, {domain} of them in the domain");
    Ok(match fine {
        true => ExitCode::SUCCESS,
        false => ExitCode::FAILURE,
    })
}

/// Shows a wrong case, made smaller as far as it stays wrong and in its class.
fn explain(shown: &Shown, class: Class, tables: &Tables, desk: &mut Desk) -> io::Result<()> {
    let is_wrong = |case: &Case| case.seen.wrong.is_some() && case.verdict.class == class;
    let input =
        shrunk(&shown.input, |input| desk.ask_one(input, tables).is_ok_and(|case| is_wrong(&case)));
    let case = desk.ask_one(&input, tables)?;
    println!("    {}", described(&input, tables));
    println!("    not as it should be: {}", case.seen.wrong.unwrap_or(shown.why));
    println!("  should be:");
    let Case { verdict, seen, .. } = &case;
    print_answer(verdict.refusal, &case.listing, verdict.sorts, verdict.faults_line);
    println!("  the port:");
    print_answer(seen.refusal, &case.printed, seen.sorts, seen.faults_line);
    Ok(())
}

fn print_answer(refusal: oracle::Refusal, listing: &[u8], sorts: Sorts, faults_line: u64) {
    if refusal.number != 0 {
        println!("    refusal={},{},{}", refusal.number, refusal.place, refusal.length);
    } else {
        for row in String::from_utf8_lossy(listing).lines() {
            println!("    {row}");
        }
    }
    println!("    sorts that the faults name: {}", sorts.named());
    let may_mean = match faults_line {
        LINES_DIFFER => ", or not all the same",
        KIND_DIFFERS => ", or one has another kind than the line",
        _ => "",
    };
    println!("    line number that the faults have: {faults_line}{may_mean}");
}
