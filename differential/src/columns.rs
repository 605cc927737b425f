//! The kinds of lines and their columns, as 01 has them ('Which kind a line is', 'Columns').
//!
//! The generator fills these fields, and the domain asks which of them are reals and how long a
//! line has to be. The oracle has its own columns and doesn't look here, so that a slip in this
//! table can't hide one there.

/// The sorts of fields.
#[derive(Clone, Copy, Debug, PartialEq, Eq)]
pub enum Sort {
    Unsigned,
    Signed,
    Real,
    Text,
    Character,
    AsItStands,
    Charge,
    Given,
}

/// A field: its sort, its first column, and the column after its last.
#[derive(Clone, Copy, Debug)]
pub struct Field {
    pub sort: Sort,
    pub start: usize,
    pub end: usize,
}

/// The end of a field that goes on to the line's end.
pub const LINE_END: usize = usize::MAX;

/// A kind of line.
pub struct Kind {
    /// Its name in a listing.
    pub name: &'static str,
    /// The six bytes that say it; EMPTY has none.
    pub first: &'static [u8],
    /// Whether atoms only keeps it.
    pub atoms: bool,
    /// Under this length it is refused with 6.
    pub least: usize,
    pub fields: &'static [Field],
}

const fn u(start: usize, end: usize) -> Field {
    of(Sort::Unsigned, start, end)
}
const fn i(start: usize, end: usize) -> Field {
    of(Sort::Signed, start, end)
}
const fn r(start: usize, end: usize) -> Field {
    of(Sort::Real, start, end)
}
const fn t(start: usize, end: usize) -> Field {
    of(Sort::Text, start, end)
}
const fn c(start: usize) -> Field {
    of(Sort::Character, start, start + 1)
}
const fn x(start: usize, end: usize) -> Field {
    of(Sort::AsItStands, start, end)
}
const fn of(sort: Sort, start: usize, end: usize) -> Field {
    Field { sort, start, end }
}

const HEADER: &[Field] = &[x(10, 50), x(50, 59), x(62, 66)];
const REMARK: &[Field] = &[u(7, 10), x(11, LINE_END)];
#[rustfmt::skip]
const ATOM: &[Field] = &[
    u(6, 11), t(12, 16), c(16), t(17, 20), c(21), i(22, 26), c(26),
    r(30, 38), r(38, 46), r(46, 54), r(54, 60), r(60, 66),
    t(72, 76), t(76, 78), of(Sort::Charge, 78, 80),
];
#[rustfmt::skip]
const ANISOU: &[Field] = &[
    u(6, 11), t(12, 16), c(16), t(17, 20), c(21), i(22, 26), c(26),
    i(28, 35), i(35, 42), i(42, 49), i(49, 56), i(56, 63), i(63, 70),
    t(72, 76), t(76, 78), of(Sort::Charge, 78, 80),
];
#[rustfmt::skip]
const CRYST1: &[Field] = &[
    r(6, 15), r(15, 24), r(24, 33), r(33, 40), r(40, 47), r(47, 54), t(55, 66), u(66, LINE_END),
];
const ROW: &[Field] = &[r(10, 20), r(20, 30), r(30, 40), r(45, 55)];
#[rustfmt::skip]
const MTRIX: &[Field] = &[
    u(7, 10), r(10, 20), r(20, 30), r(30, 40), r(45, 55), of(Sort::Given, 59, 60),
];
const MODEL: &[Field] = &[u(6, LINE_END)];
#[rustfmt::skip]
const MASTER: &[Field] = &[
    u(10, 15), u(15, 20), u(20, 25), u(25, 30), u(30, 35), u(35, 40),
    u(40, 45), u(45, 50), u(50, 55), u(55, 60), u(60, 65), u(65, 70),
];
#[rustfmt::skip]
const SEQRES: &[Field] = &[
    u(7, 10), c(11), u(13, 17),
    x(19, 22), x(23, 26), x(27, 30), x(31, 34), x(35, 38), x(39, 42), x(43, 46),
    x(47, 50), x(51, 54), x(55, 58), x(59, 62), x(63, 66), x(67, 70),
];
#[rustfmt::skip]
const DBREF: &[Field] = &[
    t(7, 11), t(12, 13), i(14, 18), c(18), i(20, 24), c(24), t(26, 32), t(33, 41), t(42, 54),
    i(55, 60), c(60), i(62, 67), c(67),
];
#[rustfmt::skip]
const DBREF1: &[Field] = &[
    t(7, 11), t(12, 13), i(14, 18), c(18), i(21, 24), c(24), t(26, 32), t(47, 67),
];
const DBREF2: &[Field] = &[t(7, 11), t(12, 13), t(18, 40), i(45, 55), i(57, 67)];
#[rustfmt::skip]
const SEQADV: &[Field] = &[
    t(7, 11), t(12, 15), t(16, 17), i(18, 22), c(22), t(24, 28), t(29, 38),
    t(39, 42), i(43, 48), t(49, LINE_END),
];
#[rustfmt::skip]
const MODRES: &[Field] = &[
    t(7, 11), t(12, 15), c(16), i(18, 22), c(22), t(24, 27), t(29, LINE_END),
];
#[rustfmt::skip]
const SSBOND: &[Field] = &[
    t(11, 14), c(15), i(17, 21), c(21), t(25, 28), c(29), i(31, 35), c(35),
    t(59, 65), t(66, 72), r(73, 78),
];
/// The length from which SSBOND's last three fields are read.
const SSBOND_WHOLE: usize = 78;

const fn kind(name: &'static str, first: &'static [u8], fields: &'static [Field]) -> Kind {
    Kind { name, first, atoms: false, least: 0, fields }
}
const fn kept(name: &'static str, first: &'static [u8], fields: &'static [Field]) -> Kind {
    Kind { atoms: true, ..kind(name, first, fields) }
}
const fn at_least(
    least: usize,
    name: &'static str,
    first: &'static [u8],
    fields: &'static [Field],
) -> Kind {
    Kind { least, ..kind(name, first, fields) }
}

/// All kinds, EMPTY last.
pub static KINDS: [Kind; 28] = [
    kind("HEADER", b"HEADER", HEADER),
    kind("REMARK", b"REMARK", REMARK),
    kept("ATOM", b"ATOM  ", ATOM),
    kind("ANISOU", b"ANISOU", ANISOU),
    kept("HETATM", b"HETATM", ATOM),
    at_least(55, "CRYST1", b"CRYST1", CRYST1),
    kind("SCALE1", b"SCALE1", ROW),
    kind("SCALE2", b"SCALE2", ROW),
    kind("SCALE3", b"SCALE3", ROW),
    kind("ORIGX1", b"ORIGX1", ROW),
    kind("ORIGX2", b"ORIGX2", ROW),
    kind("ORIGX3", b"ORIGX3", ROW),
    kind("MTRIX1", b"MTRIX1", MTRIX),
    kind("MTRIX2", b"MTRIX2", MTRIX),
    kind("MTRIX3", b"MTRIX3", MTRIX),
    kept("MODEL", b"MODEL ", MODEL),
    kind("MASTER", b"MASTER", MASTER),
    kind("DBREF", b"DBREF ", DBREF),
    kind("DBREF1", b"DBREF1", DBREF1),
    kind("DBREF2", b"DBREF2", DBREF2),
    kind("SEQRES", b"SEQRES", SEQRES),
    at_least(49, "SEQADV", b"SEQADV", SEQADV),
    at_least(29, "MODRES", b"MODRES", MODRES),
    at_least(36, "SSBOND", b"SSBOND", SSBOND),
    kept("ENDMDL", b"ENDMDL", &[]),
    kept("TER", b"TER   ", &[]),
    kept("END", b"END   ", &[]),
    kept("EMPTY", b"", &[]),
];

pub const HEADER_AT: usize = 0;
const TER_AT: usize = 25;
const END_AT: usize = 26;
pub const EMPTY_AT: usize = 27;

/// Which kind a line is, as its place in `KINDS`.
pub fn kind_of(line: &[u8], atoms_only: bool) -> usize {
    if line.len() > 6 {
        let first = &line[..6];
        match KINDS.iter().position(|kind| kind.first == first) {
            Some(at) if KINDS[at].atoms || !atoms_only => at,
            _ => EMPTY_AT,
        }
    } else if line.starts_with(b"TER") {
        TER_AT
    } else if line.starts_with(b"END") {
        END_AT
    } else {
        EMPTY_AT
    }
}

/// The real fields of a line that it reaches and that are read.
pub fn reals(line: &[u8], kind: usize) -> impl Iterator<Item = &'static Field> {
    let length = line.len();
    KINDS[kind].fields.iter().filter(move |field| {
        field.sort == Sort::Real
            && field.end <= length
            && (KINDS[kind].name != "SSBOND" || length >= SSBOND_WHOLE)
    })
}

/// What trimming leaves: bytes 9 to 13 and 32 are taken off both ends.
pub fn trimmed(text: &[u8]) -> &[u8] {
    let white = |byte: &u8| matches!(*byte, 9..=13 | 32);
    let start = text.iter().position(|byte| !white(byte));
    let end = text.iter().rposition(|byte| !white(byte));
    match (start, end) {
        (Some(start), Some(end)) => &text[start..=end],
        _ => &[],
    }
}
