//! The port: a program of its own that answers requests on a pipe, a block at a time, so that it
//! may be compiled for another processor than this one. crates/serve is that program, and its
//! layout of a block, of a request and of a reply stands here a second time.
//!
//! A block is sent whole before a reply is taken, and its replies are all taken before the next is
//! sent; serve reads a block whole before it writes a reply. So neither waits for the other in vain,
//! however little a pipe holds.

use crate::generate::Input;
use crate::oracle::Refusal;
use crate::sorts::Sorts;
use crate::tables::Tables;
use std::io::{self, BufReader, Read, Write};
use std::process::{Child, ChildStdin, ChildStdout, Command, Stdio};

/// How many requests a block has at most.
pub const BLOCK: usize = 30;
/// How many bytes a block may have behind its size.
const MOST: usize = 65536;
/// The bytes of a word, with which a block begins: its size.
const WORD: usize = 8;
/// The bit of the options word where the task begins.
const TASK: u32 = 32;
/// How many words a reply begins with: what each of the four calls answered, the sorts of the
/// faults, their line number, and how many bytes of the output follow.
const TOLD: usize = 7;
/// More than is ever lent, so that a byte written behind the lent ones shows.
pub const OUTPUT: usize = 4160;
/// What every byte of the output is before the calls, and after them where no byte follows.
pub const UNWRITTEN: u8 = 0xC5;
/// The first word of a reply, if the record was to be written and the line was refused.
pub const NOT_READ: u64 = u64::MAX - 1;
/// A reply's line number of the faults, if two have different ones, or one another kind than the
/// line.
pub const LINES_DIFFER: u64 = u64::MAX;
pub const KIND_DIFFERS: u64 = u64::MAX - 1;
/// The longest line of a file: a block has room for as many as it may have, damaged ones too, which
/// have at most 48 bytes more.
pub const LONGEST: usize = 2000;

/// What the port did with one input.
pub struct Answer<'a> {
    pub written: u64,
    pub refusal: Refusal,
    pub sorts: Sorts,
    pub faults_line: u64,
    pub output: &'a [u8],
}

/// The running program.
pub struct Port {
    child: Child,
    to: ChildStdin,
    from: Replies<BufReader<ChildStdout>>,
    block: Vec<u8>,
    /// Where each table begins in the block of tables.
    starts: Vec<usize>,
}

impl Port {
    /// Starts it: a program, or one that runs another, and the words for it. It is handed all
    /// tables first.
    pub fn start(command: &[String], tables: &Tables) -> io::Result<Self> {
        let mut child = Command::new(&command[0])
            .args(&command[1..])
            .stdin(Stdio::piped())
            .stdout(Stdio::piped())
            .spawn()?;
        let (to, from) = match (child.stdin.take(), child.stdout.take()) {
            (Some(to), Some(from)) => (to, Replies::new(BufReader::with_capacity(MOST, from))),
            _ => return Err(io::Error::other("no pipe to the port")),
        };
        let mut port = Port { child, to, from, block: vec![0; WORD], starts: Vec::new() };
        for table in &tables.all {
            port.starts.push(port.block.len() - WORD);
            port.block.extend_from_slice(table.bytes);
        }
        port.send_block()?;
        Ok(port)
    }

    /// Sends the requests for some inputs, at most a block.
    pub fn send(&mut self, inputs: &[Input], tables: &Tables) -> io::Result<()> {
        for input in inputs {
            let words = [
                input.number as u64,
                u64::from(input.options) | (input.task as u64) << TASK,
                input.line.len() as u64,
                self.starts[input.table] as u64,
                tables.bytes(input.table).len() as u64,
                input.room as u64,
            ];
            for word in words {
                self.block.extend_from_slice(&word.to_le_bytes());
            }
            self.block.extend_from_slice(&input.line);
        }
        self.send_block()
    }

    /// Sends what was gathered, with its size in front.
    fn send_block(&mut self) -> io::Result<()> {
        let size = self.block.len() - WORD;
        if size > MOST {
            return Err(io::Error::other(format!("a block of {size} bytes is too long")));
        }
        self.block[..WORD].copy_from_slice(&(size as u64).to_le_bytes());
        self.to.write_all(&self.block).map_err(ended)?;
        self.block.truncate(WORD);
        Ok(())
    }

    /// Takes the reply to the next of the requests that were sent.
    pub fn answer(&mut self) -> io::Result<Answer<'_>> {
        self.from.take()
    }
}

/// What comes from the port, with the output of the last reply.
pub struct Replies<R> {
    from: R,
    output: [u8; OUTPUT],
    /// How many bytes of it were sent.
    sent: usize,
}

impl<R: Read> Replies<R> {
    pub fn new(from: R) -> Self {
        Replies { from, output: [UNWRITTEN; OUTPUT], sent: 0 }
    }

    /// Takes a reply.
    pub fn take(&mut self) -> io::Result<Answer<'_>> {
        let mut head = [0; WORD * TOLD];
        self.from.read_exact(&mut head).map_err(ended)?;
        let mut words = [0; TOLD];
        for (word, bytes) in words.iter_mut().zip(head.chunks_exact(WORD)) {
            *word = bytes.iter().rev().fold(0, |word, byte| word << 8 | u64::from(*byte));
        }
        let [written, number, place, length, sorts, faults_line, sent] = words;
        if sent > OUTPUT as u64 {
            return Err(io::Error::other(format!("the port sent {sent} bytes of output")));
        }
        let sent = sent as usize;
        self.from.read_exact(&mut self.output[..sent]).map_err(ended)?;
        if sent < self.sent {
            self.output[sent..self.sent].fill(UNWRITTEN);
        }
        self.sent = sent;
        let refusal =
            Refusal { number: number as usize, place: place as usize, length: length as usize };
        Ok(Answer { written, refusal, sorts: Sorts(sorts), faults_line, output: &self.output })
    }
}

fn ended(why: io::Error) -> io::Error {
    io::Error::other(format!("the port ended before it answered: {why}"))
}

impl Drop for Port {
    /// Nobody waits for an answer any more.
    fn drop(&mut self) {
        let _ = self.child.kill();
        let _ = self.child.wait();
    }
}
