//! Opens a file and prints what was not read of it.
//!
//!     unread FILE
//!
//! Its status is 0 if every field and line was read, 1 if not, and 2 if the file can't be read.
use saltighedda::{lines, Options};
use std::process::ExitCode;

fn main() -> ExitCode {
    let Some(name) = std::env::args().nth(1) else {
        eprintln!("usage: unread FILE");
        return ExitCode::from(2);
    };
    let file = match std::fs::read(&name) {
        Ok(file) => file,
        Err(why) => {
            eprintln!("{name}: {why}");
            return ExitCode::from(2);
        }
    };
    let mut unread = 0;
    for line in lines(&file, Options::default()) {
        match line.record {
            Ok(record) => record.faults().for_each(|fault| {
                println!("{name}: {fault}");
                unread += 1;
            }),
            Err(refusal) => {
                println!("{name}: line {}: {refusal}", line.number);
                unread += 1;
            }
        }
    }
    ExitCode::from(u8::from(unread != 0))
}
