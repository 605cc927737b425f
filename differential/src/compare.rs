//! Holds the port's answer to what it has to be: the listing's bytes, the count of bytes written,
//! the refusal's three numbers, the sorts that its faults 2 name, the line number that its faults
//! have, and every byte of the lent output and behind it.

use crate::generate::Input;
use crate::oracle::{Oracle, Refusal, Verdict};
use crate::port::{Answer, Port, BLOCK, OUTPUT, UNWRITTEN};
use crate::rust::lexitem::LexItem;
use crate::sorts::Sorts;
use crate::tables::Tables;
use std::io;

/// What the port did with one input.
pub struct Seen {
    /// The first thing that isn't as it should be.
    pub wrong: Option<&'static str>,
    pub refusal: Refusal,
    pub sorts: Sorts,
    pub faults_line: u64,
}

/// What should come of one input: the listing, and the record if the line isn't refused.
#[derive(Clone)]
pub struct Due {
    pub verdict: Verdict,
    pub listing: Vec<u8>,
    pub item: Option<LexItem>,
}

/// What should come of one input, and what came of it.
pub struct Case {
    pub verdict: Verdict,
    pub listing: Vec<u8>,
    pub seen: Seen,
    /// The front of the output, as far as the port says that it wrote.
    pub printed: Vec<u8>,
}

/// A block of inputs, asked of both sides.
pub struct Desk {
    oracle: Oracle,
    port: Option<Port>,
    inputs: Vec<Input>,
    due: Vec<Due>,
}

impl Desk {
    /// A desk with the program that the command runs as its port, or with none.
    pub fn new(command: &[String], tables: &Tables) -> io::Result<Self> {
        let port = match command {
            [] => None,
            command => Some(Port::start(command, tables)?),
        };
        let inputs = vec![Input::new(); BLOCK];
        Ok(Desk { oracle: Oracle::new(), port, inputs, due: Vec::new() })
    }

    /// Asks both about a block of inputs, which `make` fills in, and tells each case: the input,
    /// what it should give, and the port's answer. The oracle answers while the port does.
    pub fn ask(
        &mut self,
        count: usize,
        tables: &Tables,
        mut make: impl FnMut(usize, &mut Input),
        mut tell: impl FnMut(&Input, &Due, Option<&Answer>),
    ) -> io::Result<()> {
        let inputs = &mut self.inputs[..count];
        for (at, input) in inputs.iter_mut().enumerate() {
            make(at, input);
        }
        if let Some(port) = &mut self.port {
            port.send(inputs, tables)?;
        }
        self.due.clear();
        for input in inputs.iter() {
            let verdict = self.oracle.answer(input, tables);
            let (listing, item) = (self.oracle.page.bytes.clone(), self.oracle.item.take());
            self.due.push(Due { verdict, listing, item });
        }
        for (input, due) in inputs.iter().zip(&self.due) {
            let answer = self.port.as_mut().map(Port::answer).transpose()?;
            tell(input, due, answer.as_ref());
        }
        Ok(())
    }

    /// Asks both about one input.
    pub fn ask_one(&mut self, input: &Input, tables: &Tables) -> io::Result<Case> {
        let mut case = None;
        let make = |_, place: &mut Input| place.clone_from(input);
        self.ask(1, tables, make, |_, due, answer| {
            case = answer.map(|answer| Case {
                verdict: due.verdict,
                listing: due.listing.clone(),
                seen: seen(&due.verdict, &due.listing, answer),
                printed: answer.output[..OUTPUT.min(answer.written as usize)].to_vec(),
            });
        })?;
        case.ok_or(io::Error::other("no port was named"))
    }
}

/// Compares. `listing` is what it should be if there is no refusal.
pub fn seen(verdict: &Verdict, listing: &[u8], answer: &Answer) -> Seen {
    let wanted = match verdict.refusal.number {
        0 => listing,
        _ => &[],
    };
    let (refusal, output) = (answer.refusal, answer.output);
    let wrong = match () {
        _ if refusal.number != verdict.refusal.number => Some("the refusal's number"),
        _ if refusal.place != verdict.refusal.place => Some("the refusal's place"),
        _ if refusal.length != verdict.refusal.length => Some("the refusal's length"),
        _ if answer.written != wanted.len() as u64 => Some("the count of bytes written"),
        _ if output[..wanted.len()] != *wanted => Some("the listing"),
        _ if output[wanted.len()..] != [UNWRITTEN; OUTPUT][wanted.len()..] => {
            Some("the output behind the listing, or that of a refused line")
        }
        _ if answer.sorts != verdict.sorts => Some("the sorts that the faults name"),
        _ if answer.faults_line != verdict.faults_line => {
            Some("the line number that the faults have")
        }
        _ => None,
    };
    Seen { wrong, refusal, sorts: answer.sorts, faults_line: answer.faults_line }
}
