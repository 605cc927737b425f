//! What the answer to an input has to be: in the domain the Rust's own answer, mapped to 01's
//! listing or refusal; outside of it what 01 says, with a note of what the Rust did.

use crate::columns::{kind_of, KINDS};
use crate::domain::{class_of, outside_reals, Class};
use crate::error::{ErrorLevel, PDBError};
use crate::generate::{Input, Task};
use crate::page::Page;
use crate::reference_tables;
use crate::rust::lexitem::LexItem;
use crate::rust::{self, Reply};
use crate::sorts::Sorts;
use crate::tables::Tables;

/// A refusal's number, place and length; all 0 where there is none.
#[derive(Clone, Copy, Debug, Default, PartialEq, Eq)]
pub struct Refusal {
    pub number: usize,
    pub place: usize,
    pub length: usize,
}

/// What the Rust did with a line.
#[derive(Clone, Copy, Debug, PartialEq, Eq)]
pub enum Did {
    Read,
    Error,
    Panic,
    /// The line isn't UTF-8, or the table isn't one that the Rust could have.
    NotAsked,
}

/// What is known about an input. The listing, if there is no refusal, is on the oracle's page.
#[derive(Clone, Copy)]
pub struct Verdict {
    /// The line's kind by 01, as its place in `KINDS`.
    pub kind: usize,
    pub class: Class,
    pub refusal: Refusal,
    pub did: Did,
    /// The line of lexer.rs at which the Rust panicked.
    pub panicked_at: u32,
    /// How many faults of each kind, 1 to 5.
    pub faults: [u32; 6],
    /// Which sort of number each fault 2 names; none with a refusal but 8.
    pub sorts: Sorts,
    /// The line number in the Rust's faults; 0 where there is none, or a refusal but 8.
    pub faults_line: u64,
    /// Something about the Rust that 01 doesn't have.
    pub finding: Option<&'static str>,
}

pub struct Oracle {
    pub page: Page,
    /// The record that was read, if the line isn't refused.
    pub item: Option<LexItem>,
    masked: Vec<u8>,
}

impl Oracle {
    pub fn new() -> Self {
        Oracle { page: Page::new(), item: None, masked: Vec::with_capacity(1024) }
    }

    pub fn answer(&mut self, input: &Input, tables: &Tables) -> Verdict {
        let line = input.line.as_slice();
        let table = tables.bytes(input.table);
        let kind = kind_of(line, input.atoms_only());
        let class = class_of(line, kind, table.len(), input.exponents());
        let mut verdict = Verdict {
            kind,
            class,
            refusal: Refusal::default(),
            did: Did::NotAsked,
            panicked_at: 0,
            faults: [0; 6],
            sorts: Sorts::default(),
            faults_line: 0,
            finding: None,
        };
        self.page.clear();
        self.item = None;

        let reply = match std::str::from_utf8(line) {
            Ok(text) if class != Class::WrongTable => {
                reference_tables::lend(table);
                let reply = rust::ask(text, input.number, input.atoms_only(), input.loose());
                verdict.did = match &reply {
                    Reply::Read(..) => Did::Read,
                    Reply::Error(_) => Did::Error,
                    Reply::Panic(at) => {
                        verdict.panicked_at = *at;
                        Did::Panic
                    }
                };
                Some(reply)
            }
            _ => None,
        };

        match class {
            Class::Domain => match reply {
                Some(reply) => self.map(&mut verdict, input, reply),
                None => verdict.finding = Some("a line of the domain isn't UTF-8"),
            },
            Class::WrongTable => verdict.refusal = refusal(1, 0, 0),
            Class::LongLine => verdict.refusal = refusal(2, 1024, line.len() - 1024),
            Class::HighByte => {
                let place = line.iter().position(|byte| *byte >= 128).unwrap_or(0);
                verdict.refusal = refusal(3, place, 1);
            }
            Class::ShortHeader => {
                verdict.refusal = refusal(4, 11, 0);
                verdict.finding = match reply {
                    Some(Reply::Panic(_)) if cfg!(debug_assertions) => None,
                    Some(Reply::Error(error))
                        if !cfg!(debug_assertions)
                            && error.context.place == 11
                            && error.context.length == line.len().wrapping_sub(11) =>
                    {
                        None
                    }
                    _ => Some("a HEADER under 11 is answered otherwise"),
                };
            }
            Class::ShortLine => {
                verdict.refusal = refusal(6, line.len(), KINDS[kind].least - line.len());
                if verdict.did != Did::Panic {
                    verdict.finding = Some("no panic where 01 has refusal 6");
                }
            }
            Class::Exponent | Class::Infinity | Class::NotANumber => {
                let whole = reply_faults(reply);
                let reply = self.ask_masked(input, kind);
                let masked = match &reply {
                    Reply::Read(_, errors) => Some(errors.len()),
                    _ => None,
                };
                self.map(&mut verdict, input, reply);
                if whole.is_none() || whole >= masked {
                    verdict.finding = Some("the Rust doesn't read an exponent, infinity or NaN");
                }
            }
        }

        let listed = input.task == Task::List;
        if verdict.refusal.number == 0 && listed && self.page.bytes.len() > input.room {
            verdict.refusal = refusal(8, 0, self.page.bytes.len());
        }
        verdict
    }

    /// The Rust's answer to the line with `x` in the columns of each real that the domain leaves
    /// out. 01 has fault 2 and the default for both lines, and differs in nothing else.
    fn ask_masked(&mut self, input: &Input, kind: usize) -> Reply {
        self.masked.clear();
        self.masked.extend_from_slice(&input.line);
        for field in outside_reals(&input.line, kind, input.exponents()) {
            self.masked[field.start..field.end].fill(b'x');
        }
        let text = String::from_utf8_lossy(&self.masked);
        rust::ask(&text, input.number, input.atoms_only(), input.loose())
    }

    /// Maps the Rust's answer: a listing on the page, or a refusal.
    fn map(&mut self, verdict: &mut Verdict, input: &Input, reply: Reply) {
        match reply {
            Reply::Panic(_) => verdict.finding = Some("a panic where 01 has none"),
            Reply::Error(error) => match refusal_number(&error) {
                Some(number) => {
                    let context = error.context;
                    verdict.refusal = refusal(number, context.place, context.length);
                }
                None => verdict.finding = Some("an error that 01 doesn't have"),
            },
            Reply::Read(item, errors) => {
                let name = record_name(&item);
                if name != KINDS[verdict.kind].name {
                    verdict.finding = Some("another kind than 01's");
                }
                let page = &mut self.page;
                page.record(name, input.number);
                if !fields(&item, page) {
                    verdict.finding = Some("ANISOU's factors aren't symmetric");
                }
                page.faults(errors.len());
                for (at, error) in errors.iter().enumerate() {
                    let context = error.context;
                    let number = fault_number(error);
                    if number == 0 {
                        verdict.finding = Some("a fault that 01 doesn't have");
                    }
                    if context.number != input.number {
                        verdict.finding = Some("a fault with another line number");
                    }
                    verdict.faults_line = context.number as u64;
                    if number == 2 && !verdict.sorts.note(at, &error.text) {
                        verdict.finding = Some("a fault 2 that names no sort of number");
                    }
                    verdict.faults[number] += 1;
                    page.three("fault", number, context.place, context.length);
                }
                self.item = Some(item);
            }
        }
    }
}

fn refusal(number: usize, place: usize, length: usize) -> Refusal {
    Refusal { number, place, length }
}

fn reply_faults(reply: Option<Reply>) -> Option<usize> {
    match reply {
        Some(Reply::Read(_, errors)) => Some(errors.len()),
        _ => None,
    }
}

/// The refusal that an `Err` is, from its level and short text.
fn refusal_number(error: &PDBError) -> Option<usize> {
    match (error.title, error.level) {
        ("Header too short", ErrorLevel::LooseWarning) => Some(4),
        ("Remark too long", ErrorLevel::GeneralWarning) => Some(5),
        _ => None,
    }
}

/// The fault that an error beside an item is, from its level, short text and place; or 0.
fn fault_number(error: &PDBError) -> usize {
    use ErrorLevel::{InvalidatingError, LooseWarning};
    let context = error.context;
    match (error.level, error.title, context.place, context.length) {
        (InvalidatingError, "Line too short", _, _) => 1,
        (InvalidatingError, "Invalid data in field", _, _) => 2,
        (InvalidatingError, "Atom charge is not correct", 78, 1) => 3,
        (InvalidatingError, "Atom charge is not correct", 79, 1) => 4,
        (LooseWarning, "Remark type number invalid", 7, 3) => 5,
        _ => 0,
    }
}

/// The record's name in a listing. Rows of a matrix count from 0 in the item.
fn record_name(item: &LexItem) -> &'static str {
    match item {
        LexItem::Header(..) => "HEADER",
        LexItem::Remark(..) => "REMARK",
        LexItem::Atom(false, ..) => "ATOM",
        LexItem::Atom(true, ..) => "HETATM",
        LexItem::Anisou(..) => "ANISOU",
        LexItem::Crystal(..) => "CRYST1",
        LexItem::Scale(row, _) => ["SCALE1", "SCALE2", "SCALE3"][*row],
        LexItem::OrigX(row, _) => ["ORIGX1", "ORIGX2", "ORIGX3"][*row],
        LexItem::MtriX(row, ..) => ["MTRIX1", "MTRIX2", "MTRIX3"][*row],
        LexItem::Model(_) => "MODEL",
        LexItem::Master(..) => "MASTER",
        LexItem::Seqres(..) => "SEQRES",
        LexItem::Dbref(..) => "DBREF",
        LexItem::Dbref1(..) => "DBREF1",
        LexItem::Dbref2(..) => "DBREF2",
        LexItem::Seqadv(..) => "SEQADV",
        LexItem::Modres(..) => "MODRES",
        LexItem::SSBond(..) => "SSBOND",
        LexItem::EndModel() => "ENDMDL",
        LexItem::TER() => "TER",
        LexItem::End() => "END",
        LexItem::Empty() => "EMPTY",
    }
}

/// A row for each present field, in ascending columns. False if ANISOU's nine factors aren't the
/// six that 01 has.
fn fields(item: &LexItem, page: &mut Page) -> bool {
    match item {
        LexItem::Header(classification, date, code) => {
            page.text(10, classification);
            page.text(50, date);
            page.text(62, code);
        }
        LexItem::Remark(number, text) => {
            page.unsigned(7, *number);
            page.text(11, text);
        }
        LexItem::Atom(
            _,
            serial,
            name,
            alternate,
            residue,
            chain,
            residue_number,
            insertion,
            x,
            y,
            z,
            occupancy,
            b_factor,
            segment,
            element,
            charge,
        ) => {
            page.unsigned(6, *serial);
            page.text(12, name);
            page.optional(16, alternate);
            page.text(17, residue);
            page.text(21, chain);
            page.signed(22, *residue_number);
            page.optional(26, insertion);
            page.real(30, *x);
            page.real(38, *y);
            page.real(46, *z);
            page.real(54, *occupancy);
            page.real(60, *b_factor);
            page.text(72, segment);
            page.text(76, element);
            page.signed(78, *charge);
        }
        LexItem::Anisou(
            serial,
            name,
            alternate,
            residue,
            chain,
            residue_number,
            insertion,
            factors,
            segment,
            element,
            charge,
        ) => {
            page.unsigned(6, *serial);
            page.text(12, name);
            page.optional(16, alternate);
            page.text(17, residue);
            page.text(21, chain);
            page.signed(22, *residue_number);
            page.optional(26, insertion);
            let [[u11, u12, u13], [u21, u22, u23], [u31, u32, u33]] =
                factors.map(|row| row.map(f64::to_bits));
            for (column, bits) in [(28, u11), (35, u22), (42, u33), (49, u12), (56, u13), (63, u23)]
            {
                page.real(column, f64::from_bits(bits));
            }
            page.text(72, segment);
            page.text(76, element);
            page.signed(78, *charge);
            return u12 == u21 && u13 == u31 && u23 == u32;
        }
        LexItem::Crystal(a, b, c, alpha, beta, gamma, group, z) => {
            page.real(6, *a);
            page.real(15, *b);
            page.real(24, *c);
            page.real(33, *alpha);
            page.real(40, *beta);
            page.real(47, *gamma);
            page.text(55, group);
            page.unsigned(66, *z);
        }
        LexItem::Scale(_, row) | LexItem::OrigX(_, row) => matrix_row(row, page),
        LexItem::MtriX(_, serial, row, given) => {
            page.unsigned(7, *serial);
            matrix_row(row, page);
            page.given(59, *given);
        }
        LexItem::Model(number) => page.unsigned(6, *number),
        LexItem::Master(
            remark,
            zero,
            het,
            helix,
            sheet,
            turn,
            site,
            transformation,
            coordinate,
            ter,
            connect,
            sequence,
        ) => {
            page.unsigned(10, *remark);
            page.unsigned(15, *zero);
            page.unsigned(20, *het);
            page.unsigned(25, *helix);
            page.unsigned(30, *sheet);
            page.unsigned(35, *turn);
            page.unsigned(40, *site);
            page.unsigned(45, *transformation);
            page.unsigned(50, *coordinate);
            page.unsigned(55, *ter);
            page.unsigned(60, *connect);
            page.unsigned(65, *sequence);
        }
        LexItem::Seqres(serial, chain, count, residues) => {
            page.unsigned(7, *serial);
            page.text(11, chain);
            page.unsigned(13, *count);
            for (at, residue) in residues.iter().enumerate() {
                page.text(19 + 4 * at, residue);
            }
        }
        LexItem::Dbref(
            code,
            chain,
            (begin, insert_begin, end, insert_end),
            database,
            accession,
            database_code,
            (database_begin, database_insert_begin, database_end, database_insert_end),
        ) => {
            page.text(7, code);
            page.text(12, chain);
            page.signed(14, *begin);
            page.character(18, *insert_begin);
            page.signed(20, *end);
            page.character(24, *insert_end);
            page.text(26, database);
            page.text(33, accession);
            page.text(42, database_code);
            page.signed(55, *database_begin);
            page.character(60, *database_insert_begin);
            page.signed(62, *database_end);
            page.character(67, *database_insert_end);
        }
        LexItem::Dbref1(
            code,
            chain,
            (begin, insert_begin, end, insert_end),
            database,
            database_code,
        ) => {
            page.text(7, code);
            page.text(12, chain);
            page.signed(14, *begin);
            page.character(18, *insert_begin);
            page.signed(21, *end);
            page.character(24, *insert_end);
            page.text(26, database);
            page.text(47, database_code);
        }
        LexItem::Dbref2(code, chain, accession, begin, end) => {
            page.text(7, code);
            page.text(12, chain);
            page.text(18, accession);
            page.signed(45, *begin);
            page.signed(57, *end);
        }
        // The chain comes before the residue here, whatever the comment in lexitem.rs says.
        LexItem::Seqadv(
            code,
            chain,
            residue,
            number,
            insertion,
            database,
            accession,
            database_residue,
            comment,
        ) => {
            page.text(7, code);
            page.text(12, residue);
            page.text(16, chain);
            page.signed(18, *number);
            page.optional(22, insertion);
            page.text(24, database);
            page.text(29, accession);
            if let Some((residue, number)) = database_residue {
                page.text(39, residue);
                page.signed(43, *number);
            }
            page.text(49, comment);
        }
        LexItem::Modres(code, residue, chain, number, insertion, standard, comment) => {
            page.text(7, code);
            page.text(12, residue);
            page.text(16, chain);
            page.signed(18, *number);
            page.optional(22, insertion);
            page.text(24, standard);
            page.text(29, comment);
        }
        LexItem::SSBond(
            (residue_1, number_1, insertion_1, chain_1),
            (residue_2, number_2, insertion_2, chain_2),
            tail,
        ) => {
            page.text(11, residue_1);
            page.text(15, chain_1);
            page.signed(17, *number_1);
            page.optional(21, insertion_1);
            page.text(25, residue_2);
            page.text(29, chain_2);
            page.signed(31, *number_2);
            page.optional(35, insertion_2);
            if let Some((operator_1, operator_2, distance)) = tail {
                page.text(59, operator_1);
                page.text(66, operator_2);
                page.real(73, *distance);
            }
        }
        LexItem::EndModel() | LexItem::TER() | LexItem::End() | LexItem::Empty() => {}
    }
    true
}

fn matrix_row(row: &[f64; 4], page: &mut Page) {
    page.real(10, row[0]);
    page.real(20, row[1]);
    page.real(30, row[2]);
    page.real(45, row[3]);
}
