//! Writes the bench's file to standard output: lines SEED COUNT.

#[allow(dead_code)]
mod file;
#[path = "../../differential/src/random.rs"]
#[allow(dead_code)]
mod random;

use std::io::Write;

fn main() {
    let word = |at| std::env::args().nth(at).and_then(|word| word.parse().ok());
    let (Some(seed), Some(count)) = (word(1), word(2)) else {
        panic!("lines SEED COUNT");
    };
    let file = file::file(seed, count as usize, None, &file::WHOLE);
    std::io::stdout().write_all(file.as_bytes()).expect("standard output takes the file");
}
