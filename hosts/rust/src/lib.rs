//! Lines of PDB files, read with what could not be read of them, and written, by the proved library saltighedda.
//!
//! [`read`] takes a line, [`lines`] the lines of a file's bytes, and [`write`] makes a line of a record. What is read borrows from the
//! line; nothing is copied but numbers.
//!
//! ```
//! use saltighedda::{read, Item, Options};
//! let line = read(b"HETATM   18 ZN    ZN A 101      1", 30, Options::default())?;
//! let Item::Atom(zinc) = line.item() else { panic!() };
//! assert!(zinc.x == 0.0 && zinc.unread.x);
//! # Ok::<(), saltighedda::Refusal>(())
//! ```
//!
//! The proofs end at the library's entries. What this crate does with their answers is tested, and not proved.
#![deny(missing_docs)]

mod entry;
mod families;
mod table;

pub use families::*;

use entry::{FAULTS, FIELDS};
use families::Taken;
use std::fmt;

/// The bytes of a written line.
pub const LINE: usize = entry::LINE;

/// How a line is read.
#[derive(Clone, Copy, Debug, Default, PartialEq, Eq)]
pub struct Options {
    /// Every kind but ATOM, HETATM, MODEL, ENDMDL, TER and END is EMPTY.
    pub atoms_only: bool,
    /// Lets remarks of 80 bytes and more pass.
    pub loose: bool,
    /// Reads MODEL, DBREF1 and a bare ENDMDL as wwPDB 3.30 prints them.
    pub wwpdb: bool,
    /// A real may have an exponent: `1.2E2` is 120.
    pub exponents: bool,
}

impl Options {
    fn bits(self) -> u32 {
        u32::from(self.atoms_only)
            | u32::from(self.loose) << 1
            | u32::from(self.wwpdb) << 2
            | u32::from(self.exponents) << 3
    }
}

/// Why a line was not read, or a record not written; include/saltighedda.h has the numbers.
#[derive(Clone, Copy, Debug, PartialEq, Eq)]
pub struct Refusal {
    /// Which refusal it is.
    pub number: u16,
    /// The first column that it is about, from 0.
    pub place: u16,
    /// How many columns it is about.
    pub length: u32,
}

impl Refusal {
    fn of(packed: u64) -> Self {
        Refusal {
            number: (packed >> 48) as u16,
            place: (packed >> 32) as u16,
            length: packed as u32,
        }
    }
}

/// The columns as people count them, from 1.
impl fmt::Display for Refusal {
    fn fmt(&self, f: &mut fmt::Formatter) -> fmt::Result {
        let words = table::words("REFUSAL", self.number).unwrap_or("no such refusal");
        write!(f, "{words}, at column {}, {} columns", u32::from(self.place) + 1, self.length)
    }
}

impl std::error::Error for Refusal {}

/// Which kind a line is.
#[derive(Clone, Copy, PartialEq, Eq, Hash, PartialOrd, Ord)]
pub struct Kind(u8);

macro_rules! kinds {
    ($($name:ident)*) => {
        #[allow(missing_docs)]
        impl Kind {
            $(pub const $name: Kind = Kind(table::kind(stringify!($name)));)*
        }
    };
}

kinds! {
    EMPTY HEADER REMARK ATOM HETATM ANISOU CRYST1 SCALE1 SCALE2 SCALE3 ORIGX1 ORIGX2 ORIGX3 MTRIX1 MTRIX2 MTRIX3 MODEL MASTER DBREF
    DBREF1 DBREF2 SEQRES SEQADV MODRES SSBOND ENDMDL TER END
}

impl Kind {
    /// Its number, as the C header has it.
    pub fn number(self) -> u8 {
        self.0
    }

    /// The name of the field that a column belongs to, as crystallographers call it.
    pub fn field_name(self, column: u16) -> Option<&'static str> {
        table::field_name(self.0, column)
    }
}

impl fmt::Display for Kind {
    fn fmt(&self, f: &mut fmt::Formatter) -> fmt::Result {
        f.pad(table::kind_row(self.0).map_or("none", |(name, _)| name))
    }
}

impl fmt::Debug for Kind {
    fn fmt(&self, f: &mut fmt::Formatter) -> fmt::Result {
        fmt::Display::fmt(self, f)
    }
}

/// Which number the columns of a fault 2 should have held.
#[allow(missing_docs)]
#[derive(Clone, Copy, Debug, PartialEq, Eq)]
pub enum Sort {
    Unsigned,
    Signed,
    Real,
}

/// What could not be read of a line. It knows where it comes from.
#[derive(Clone, Copy, Debug, PartialEq, Eq)]
pub struct Fault {
    /// The line's number.
    pub line: u64,
    /// The line's kind.
    pub kind: Kind,
    /// 1 to 5; include/saltighedda.h has the numbers.
    pub fault: u8,
    /// For fault 2, what the columns should have held.
    pub sort: Option<Sort>,
    /// The first column, from 0.
    pub place: u16,
    /// How many columns.
    pub length: u16,
}

impl Fault {
    fn of(line: u64, word: u64) -> Self {
        let sort = match word >> 16 & 0xFFFF {
            1 => Some(Sort::Unsigned),
            2 => Some(Sort::Signed),
            3 => Some(Sort::Real),
            _ => None,
        };
        let fault = (word >> 8) as u8;
        Fault {
            line,
            kind: Kind(word as u8),
            fault,
            sort,
            place: (word >> 32) as u16,
            length: (word >> 48) as u16,
        }
    }

    /// The name of the field, as crystallographers call it.
    pub fn field_name(&self) -> &'static str {
        self.kind.field_name(self.place).unwrap_or("something")
    }

    /// Whether the field has a value that was put there: of a fault 5 it was read.
    pub fn is_unread(&self) -> bool {
        self.fault < 5
    }
}

/// The columns as people count them, from 1.
impl fmt::Display for Fault {
    fn fmt(&self, f: &mut fmt::Formatter) -> fmt::Result {
        let words = table::words("FAULT", self.fault.into()).unwrap_or("no such fault");
        let (first, last) =
            (u32::from(self.place) + 1, u32::from(self.place) + u32::from(self.length));
        write!(
            f,
            "line {}, {}, columns {first} to {last}: {}: {words}",
            self.line,
            self.kind,
            self.field_name()
        )
    }
}

/// A line that was read.
#[derive(Clone)]
pub struct Record<'a> {
    line: &'a [u8],
    fields: [u64; FIELDS],
    faults: [u64; FAULTS],
}

/// A record by its family.
#[allow(missing_docs)]
#[derive(Clone, Debug, PartialEq)]
pub enum Item<'a> {
    Empty,
    Header(Header<'a>),
    Remark(Remark<'a>),
    Atom(Atom<'a>),
    Anisou(Anisou<'a>),
    Cell(Cell<'a>),
    Row(Row),
    Model(Model),
    Master(Master),
    Dbref(Dbref<'a>),
    Dbref1(Dbref1<'a>),
    Dbref2(Dbref2<'a>),
    Seqres(Seqres<'a>),
    Seqadv(Seqadv<'a>),
    Modres(Modres<'a>),
    Ssbond(Ssbond<'a>),
    Endmdl,
    Ter,
    End,
}

impl<'a> Record<'a> {
    /// The kind of the line.
    pub fn kind(&self) -> Kind {
        Kind(self.fields[0] as u8)
    }

    /// The line itself.
    pub fn line(&self) -> &'a [u8] {
        self.line
    }

    /// What could not be read, in the order of document 01.
    pub fn faults(&self) -> impl Iterator<Item = Fault> + '_ {
        self.faults[1..]
            .chunks_exact(2)
            .take(self.faults[0] as usize)
            .map(|words| Fault::of(words[0], words[1]))
    }

    /// How many digits stood behind the point of each real, by ascending column; with these [`write`] writes it as it was written.
    pub fn places(&self) -> Vec<u8> {
        let is_counted = self.kind() != Kind::ANISOU;
        self.words()
            .filter(|words| is_counted && words[0] >> 16 & 0xFF == 2)
            .map(|words| (words[0] >> 24) as u8)
            .collect()
    }

    /// The record by its family.
    pub fn item(&self) -> Item<'a> {
        match self.kind() {
            Kind::HEADER => Item::Header(self.into()),
            Kind::REMARK => Item::Remark(self.into()),
            Kind::ATOM | Kind::HETATM => Item::Atom(self.atom()),
            Kind::ANISOU => Item::Anisou(self.anisou()),
            Kind::CRYST1 => Item::Cell(self.into()),
            Kind::MODEL => Item::Model(self.into()),
            Kind::MASTER => Item::Master(self.into()),
            Kind::DBREF => Item::Dbref(self.into()),
            Kind::DBREF1 => Item::Dbref1(self.into()),
            Kind::DBREF2 => Item::Dbref2(self.into()),
            Kind::SEQRES => Item::Seqres(self.seqres()),
            Kind::SEQADV => Item::Seqadv(self.into()),
            Kind::MODRES => Item::Modres(self.into()),
            Kind::SSBOND => Item::Ssbond(self.into()),
            Kind::ENDMDL => Item::Endmdl,
            Kind::TER => Item::Ter,
            Kind::END => Item::End,
            Kind(number) if Kind::SCALE1.0 <= number && number <= Kind::MTRIX3.0 => {
                Item::Row(self.row(number - Kind::SCALE1.0))
            }
            _ => Item::Empty,
        }
    }

    /// Two words for each field.
    fn words(&self) -> impl Iterator<Item = &[u64]> {
        self.fields[2..].chunks_exact(2).take(self.fields[1] as usize)
    }

    /// The word of the field that begins in some columns.
    fn word(&self, (first, end): (u16, u16)) -> Option<u64> {
        self.words().find(|words| (first..end).contains(&(words[0] as u16))).map(|words| words[1])
    }

    fn taken<T: Taken<'a>>(&self, columns: (u16, u16)) -> T {
        T::taken(self.word(columns), self.line)
    }

    fn is_unread(&self, (first, end): (u16, u16)) -> bool {
        self.faults().any(|fault| fault.is_unread() && (first..end).contains(&fault.place))
    }

    /// The four columns of an atom's name, unless the line ends before.
    fn whole_name(&self, unread: bool) -> &'a [u8] {
        let (first, end) = const { table::columns("ATOM", "name") };
        if unread {
            &[]
        } else {
            self.line.get(first.into()..end.into()).unwrap_or_default()
        }
    }

    fn atom(&self) -> Atom<'a> {
        let mut atom = Atom::from(self);
        atom.trimmed_name = atom.name;
        atom.name = self.whole_name(atom.unread.name);
        atom.hetero = self.kind() == Kind::HETATM;
        atom
    }

    fn anisou(&self) -> Anisou<'a> {
        let mut anisou = Anisou::from(self);
        anisou.trimmed_name = anisou.name;
        anisou.name = self.whole_name(anisou.unread.name);
        anisou
    }

    fn row(&self, number: u8) -> Row {
        let family = [Family::Scale, Family::Origx, Family::Mtrix][usize::from(number / 3)];
        Row { family, row: (number % 3).into(), ..Row::from(self) }
    }

    fn seqres(&self) -> Seqres<'a> {
        let (first, end) = const { table::columns("SEQRES", "triples") };
        let triples = self.words().filter(|words| (first..end).contains(&(words[0] as u16)));
        Seqres {
            triples: triples.map(|words| Taken::taken(Some(words[1]), self.line)).collect(),
            ..Seqres::from(self)
        }
    }
}

impl fmt::Debug for Record<'_> {
    fn fmt(&self, f: &mut fmt::Formatter) -> fmt::Result {
        f.debug_struct("Record")
            .field("item", &self.item())
            .field("faults", &self.faults().collect::<Vec<_>>())
            .finish()
    }
}

/// A table in which every remark number is valid.
pub const EVERY_REMARK: [u8; 1000] = [1; 1000];

/// Reads a line, without its line end, with every remark number valid. `number` is the line's, from 1, and goes into its faults.
pub fn read(line: &[u8], number: usize, options: Options) -> Result<Record<'_>, Refusal> {
    read_with(line, number, options, &EVERY_REMARK)
}

/// The same with a table of the remark numbers: 1,000 bytes, of which byte n is nonzero if n is valid.
pub fn read_with<'a>(
    line: &'a [u8],
    number: usize,
    options: Options,
    remarks: &[u8],
) -> Result<Record<'a>, Refusal> {
    let mut record = Record { line, fields: [0; FIELDS], faults: [0; FAULTS] };
    match entry::read(line, number, options.bits(), remarks, &mut record.fields, &mut record.faults)
    {
        0 => Ok(record),
        refusal => Err(Refusal::of(refusal)),
    }
}

/// Which kind a line is, without reading it.
pub fn kind(line: &[u8], options: Options) -> Result<Kind, Refusal> {
    match entry::kind(line, options.bits()) {
        number @ 0..=255 => Ok(Kind(number as u8)),
        refusal => Err(Refusal::of(refusal)),
    }
}

/// A line of a file.
#[derive(Clone, Debug)]
pub struct Line<'a> {
    /// From 1.
    pub number: usize,
    /// Without the line end.
    pub bytes: &'a [u8],
    /// What was read, or why nothing was.
    pub record: Result<Record<'a>, Refusal>,
}

/// The lines of a file's bytes, each read. A line ends at LF, a CR just before LF is dropped, and an empty last piece is no line.
#[derive(Clone, Debug)]
pub struct Lines<'a> {
    rest: &'a [u8],
    number: usize,
    options: Options,
}

/// The lines of a file's bytes, each read.
pub fn lines(file: &[u8], options: Options) -> Lines<'_> {
    Lines { rest: file, number: 0, options }
}

impl<'a> Iterator for Lines<'a> {
    type Item = Line<'a>;

    fn next(&mut self) -> Option<Line<'a>> {
        if self.rest.is_empty() {
            return None;
        }
        let bytes = match self.rest.iter().position(|&byte| byte == b'\n') {
            Some(at) => {
                let line = &self.rest[..at];
                self.rest = &self.rest[at + 1..];
                line.strip_suffix(b"\r").unwrap_or(line)
            }
            None => std::mem::take(&mut self.rest),
        };
        self.number += 1;
        Some(Line { number: self.number, bytes, record: read(bytes, self.number, self.options) })
    }
}

/// Writes a record as a line of 80 bytes, in the columns of wwPDB 3.30. `places` has the number of decimals of each real by ascending
/// column; for those that it lacks the format's serve. A record of a family that isn't written is refused as 9 (0, 6), another kind.
pub fn write<'a>(item: impl Into<Item<'a>>, places: &[u8]) -> Result<[u8; LINE], Refusal> {
    const OTHER_KIND: u32 = 3;
    let mut out = [b' '; LINE];
    let refusal = match item.into() {
        Item::Atom(atom) => entry::write_atom(&atom, places, &mut out),
        Item::Anisou(anisou) => entry::write_anisou(&anisou, &mut out),
        Item::Cell(cell) => entry::write_cell(&cell, places, &mut out),
        Item::Row(row) => entry::write_row(&row, places, &mut out),
        Item::Model(model) => entry::write_model(model.number, &mut out),
        Item::Ter => entry::write_bare(0, &mut out),
        Item::Endmdl => entry::write_bare(1, &mut out),
        Item::End => entry::write_bare(2, &mut out),
        _ => entry::write_bare(OTHER_KIND, &mut out),
    };
    if refusal == 0 {
        Ok(out)
    } else {
        Err(Refusal::of(refusal))
    }
}

macro_rules! items {
    ($($name:ident $(<$life:lifetime>)?)*) => {
        $(impl<'a> From<$name $(<$life>)?> for Item<'a> {
            fn from(value: $name $(<$life>)?) -> Self {
                Item::$name(value)
            }
        })*
    };
}

items! { Atom<'a> Anisou<'a> Cell<'a> Row Model }
