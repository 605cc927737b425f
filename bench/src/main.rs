//! Times the port beside the Rust, a plain reader in C and gemmi, on the same file in memory; see docs/SPEED.md.

mod clock;
mod file;
#[path = "../../differential/src/random.rs"]
#[allow(dead_code)]
mod random;

use clock::Clock;
use file::Layout;
use std::process::ExitCode;

const USAGE: &str = "bench [--lines N] [--passes N] [--seed N]
    times every side N times (15; at least 9), in turn, on a file of N lines (500,000),
    then on a fifth as many of 78 columns, and on as many that end with CR LF,
    then those that note faults on as many, one in a hundred of them faulted
bench --once SIDE [--lines N] [--seed N]
    lets one side read the file once: port, words, rust-copying, rust-light, floor or gemmi";

const LINES: usize = 500_000;
const PASSES: usize = 15;
const FEWEST: usize = 9;
const SEED: u64 = 330;
const FAULTED: u64 = 100;

/// The side of a host, and the one that its time is held against.
const WORDS: &str = "words";
const COPYING: &str = "rust-copying";
/// How many times the host's time the copying Rust is to take.
const HOST_AIM: f64 = 7.0;

// Nothing checks these declarations against the libraries.
extern "C" {
    fn saltighedda_bench(file: *const u8, length: usize) -> u64;
    fn bench_words(file: *const u8, length: usize) -> u64;
    fn bench_floor(file: *const u8, length: usize) -> u64;
    #[cfg(gemmi)]
    fn bench_gemmi(file: *const u8, length: usize) -> u64;
}

/// What a side answers.
#[derive(PartialEq)]
enum Answer {
    /// The checksum, with the faults in it.
    Faults,
    /// The checksum, with 0 for every line's faults.
    Reals,
    /// How many atoms it read.
    Atoms,
}

/// One that reads the file.
struct Side {
    word: &'static str,
    name: &'static str,
    read: fn(&str) -> u64,
    answer: Answer,
    /// How many times the port's time it is to take.
    aim: f64,
}

// The slice lives through each call and isn't written.
const SIDES: &[Side] = &[
    Side {
        word: "port",
        name: "the port",
        read: |file| unsafe { saltighedda_bench(file.as_ptr(), file.len()) },
        answer: Answer::Faults,
        aim: 1.0,
    },
    Side {
        word: WORDS,
        name: "a host in C, saltighedda_read",
        read: |file| unsafe { bench_words(file.as_ptr(), file.len()) },
        answer: Answer::Faults,
        aim: 1.0,
    },
    Side {
        word: COPYING,
        name: "the Rust, context copies the line",
        read: rust_copying::read,
        answer: Answer::Faults,
        aim: 10.0,
    },
    Side {
        word: "rust-light",
        name: "the Rust, context stores nothing",
        read: rust_light::read,
        answer: Answer::Faults,
        aim: 4.0,
    },
    Side {
        word: "floor",
        name: "C with strtod, unchecked",
        read: |file| unsafe { bench_floor(file.as_ptr(), file.len()) },
        answer: Answer::Reals,
        aim: 5.0,
    },
    #[cfg(gemmi)]
    Side {
        word: "gemmi",
        name: "gemmi, builds the hierarchy too",
        read: |file| unsafe { bench_gemmi(file.as_ptr(), file.len()) },
        answer: Answer::Atoms,
        aim: 3.0,
    },
];

struct Words {
    once: Option<&'static Side>,
    lines: usize,
    passes: usize,
    seed: u64,
}

fn main() -> ExitCode {
    let words = match words() {
        Ok(words) => words,
        Err(why) => {
            eprintln!("{why}\n{USAGE}");
            return ExitCode::from(2);
        }
    };
    if let Some(side) = words.once {
        let file = file::file(words.seed, words.lines, None, &file::WHOLE);
        println!("{}: {:016X}", side.name, (side.read)(&file));
        return ExitCode::SUCCESS;
    }
    println!("seed {}, {} passes, each side once in each", words.seed, words.passes);
    let few = words.lines.div_ceil(5);
    let fine = compare(&words, words.lines, None, &file::WHOLE)
        && compare(&words, few, None, &file::SHORT)
        && compare(&words, few, None, &file::CR_LF)
        && compare(&words, few, Some(FAULTED), &file::WHOLE);
    match fine {
        true => ExitCode::SUCCESS,
        false => ExitCode::FAILURE,
    }
}

fn words() -> Result<Words, String> {
    let mut words = Words { once: None, lines: LINES, passes: PASSES, seed: SEED };
    let mut given = std::env::args().skip(1);
    while let Some(word) = given.next() {
        let mut next = || given.next().ok_or(format!("{word} wants more"));
        match word.as_str() {
            "--once" => words.once = Some(side(&next()?)?),
            "--lines" => words.lines = number(&next()?)?.max(1),
            "--passes" => words.passes = number(&next()?)?.max(FEWEST),
            "--seed" => words.seed = number(&next()?)? as u64,
            _ => return Err(format!("{word} is not known")),
        }
    }
    Ok(words)
}

fn side(word: &str) -> Result<&'static Side, String> {
    SIDES.iter().find(|side| side.word == word).ok_or(format!("{word} is no side here"))
}

fn number(word: &str) -> Result<usize, String> {
    let plain: String = word.chars().filter(|sign| *sign != ',' && *sign != '_').collect();
    plain.parse().map_err(|_| format!("{word} is no number"))
}

/// Times the sides on one file and prints their table, if they agree on what they read.
fn compare(words: &Words, lines: usize, faulted: Option<u64>, layout: &Layout) -> bool {
    let file = file::file(words.seed, lines, faulted, layout);
    print!("\n{lines} ATOM and HETATM lines of {}, ", layout.name);
    let sides: Vec<&Side> = match faulted {
        None => {
            println!("no fault");
            SIDES.iter().collect()
        }
        Some(many) => {
            println!("a fault in one of {many}");
            SIDES.iter().filter(|side| side.answer == Answer::Faults).collect()
        }
    };
    if !agree(&sides, &file, lines) {
        return false;
    }
    let mut times = time(&sides, &file, words.passes);
    times.iter_mut().flatten().for_each(|time| *time /= lines as f64);
    print(&sides, &mut times);
    if cfg!(not(gemmi)) && faulted.is_none() {
        println!("gemmi isn't installed here, and had no turn");
    }
    true
}

/// Whether every checksum is the same, and gemmi read as many atoms as there are lines. It warms up too.
fn agree(sides: &[&Side], file: &str, lines: usize) -> bool {
    let sum = (sides[0].read)(file);
    let mut agreed = true;
    for side in sides {
        let answer = (side.read)(file);
        let expected = if side.answer == Answer::Atoms { lines as u64 } else { sum };
        if answer != expected {
            agreed = false;
            println!("DIFFERENT: {} answers {answer:016X}, not {expected:016X}", side.name);
        }
    }
    if agreed {
        println!("checksum {sum:016X}, the same on each side that has one");
    }
    agreed
}

/// The nanoseconds of each side's passes. Each pass begins with another side.
fn time(sides: &[&Side], file: &str, passes: usize) -> Vec<Vec<f64>> {
    let mut times = vec![Vec::new(); sides.len()];
    for pass in 0..passes {
        for turn in 0..sides.len() {
            let at = (pass + turn) % sides.len();
            let clock = Clock::start();
            std::hint::black_box((sides[at].read)(file));
            times[at].push(clock.nanoseconds());
        }
    }
    times
}

fn print(sides: &[&Side], times: &mut [Vec<f64>]) {
    println!(
        "{:34}{:>11}{:>11}{:>10}{:>8}{:>12}{:>8}  aim",
        "", "lines/s", "best", "ns/line", "best", "times port", "best"
    );
    let port = (median(&mut times[0]), best(&times[0]));
    let host = ratio_of(sides, times);
    for (side, times) in sides.iter().zip(times) {
        let (median, best) = (median(times), best(times));
        let ratio = median / port.0;
        let aim = match side.word {
            "port" | WORDS => String::new(),
            _ if ratio >= side.aim => format!("{}, met", side.aim),
            _ => format!("{}, NOT met", side.aim),
        };
        println!(
            "{:34}{:>11.0}{:>11.0}{median:>10.1}{best:>8.1}{ratio:>12.2}{:>8.2}  {aim}",
            side.name,
            1e9 / median,
            1e9 / best,
            best / port.1,
        );
    }
    if let Some((median, best)) = host {
        let met = if median >= HOST_AIM { "met" } else { "NOT met" };
        println!("the copying Rust takes {median:.2} times the host's time, best {best:.2}; aim {HOST_AIM}, {met}");
    }
}

/// How many times the host's time the copying Rust takes, by the median and by the best.
fn ratio_of(sides: &[&Side], times: &mut [Vec<f64>]) -> Option<(f64, f64)> {
    let host = sides.iter().position(|side| side.word == WORDS)?;
    let rust = sides.iter().position(|side| side.word == COPYING)?;
    Some((
        median(&mut times[rust]) / median(&mut times[host]),
        best(&times[rust]) / best(&times[host]),
    ))
}

fn median(times: &mut [f64]) -> f64 {
    times.sort_by(f64::total_cmp);
    (times[(times.len() - 1) / 2] + times[times.len() / 2]) / 2.0
}

fn best(times: &[f64]) -> f64 {
    times.iter().copied().fold(f64::INFINITY, f64::min)
}
