//! A struct for each family of records. A member has the name and the columns that include/saltighedda_fields.h gives it; `unread` has a
//! member for each, which says whether the value isn't the line's but was put there.

use crate::table::columns;
use crate::Record;

/// What a field's word says, or what stands for a field that isn't there.
pub(crate) trait Taken<'a> {
    fn taken(word: Option<u64>, line: &'a [u8]) -> Self;
}

impl<'a> Taken<'a> for u64 {
    fn taken(word: Option<u64>, _: &'a [u8]) -> Self {
        word.unwrap_or(0)
    }
}

impl<'a> Taken<'a> for i64 {
    fn taken(word: Option<u64>, _: &'a [u8]) -> Self {
        word.unwrap_or(0) as i64
    }
}

impl<'a> Taken<'a> for f64 {
    fn taken(word: Option<u64>, _: &'a [u8]) -> Self {
        f64::from_bits(word.unwrap_or(0))
    }
}

impl<'a> Taken<'a> for bool {
    fn taken(word: Option<u64>, _: &'a [u8]) -> Self {
        word.unwrap_or(0) != 0
    }
}

/// A character that the line doesn't reach shows as a blank.
impl<'a> Taken<'a> for u8 {
    fn taken(word: Option<u64>, _: &'a [u8]) -> Self {
        word.and_then(|n| u8::try_from(n).ok()).unwrap_or(b' ')
    }
}

impl<'a> Taken<'a> for &'a [u8] {
    fn taken(word: Option<u64>, line: &'a [u8]) -> Self {
        let word = word.unwrap_or(0);
        let (place, length) = ((word >> 32) as usize, (word & 0xFFFF_FFFF) as usize);
        line.get(place..place + length).unwrap_or_default()
    }
}

impl<'a, T: Taken<'a>> Taken<'a> for Option<T> {
    fn taken(word: Option<u64>, line: &'a [u8]) -> Self {
        word.map(|_| T::taken(word, line))
    }
}

macro_rules! family {
    (
        $(#[$doc:meta])*
        $name:ident $(<$life:lifetime>)?, $unread:ident, $list:literal,
        { $($member:ident: $type:ty),* $(,)? }
        $( { $($(#[$more_doc:meta])* $more:ident: $more_type:ty),* $(,)? } )?
    ) => {
        $(#[$doc])*
        #[derive(Clone, Debug, Default, PartialEq)]
        pub struct $name $(<$life>)? {
            $(#[allow(missing_docs)] pub $member: $type,)*
            $($($(#[$more_doc])* pub $more: $more_type,)*)?
            /// Which of the values were put there.
            pub unread: $unread,
        }

        #[doc = concat!("Which values of [`", stringify!($name), "`] aren't the line's but were put there.")]
        #[allow(missing_docs)]
        #[derive(Clone, Copy, Debug, Default, PartialEq, Eq)]
        pub struct $unread {
            $(pub $member: bool,)*
        }

        impl<'a> From<&Record<'a>> for $name $(<$life>)? {
            fn from(record: &Record<'a>) -> Self {
                $name {
                    $($member: record.taken(const { columns($list, stringify!($member)) }),)*
                    unread: $unread {
                        $($member: record.is_unread(const { columns($list, stringify!($member)) }),)*
                    },
                    $($($more: Default::default(),)*)?
                }
            }
        }
    };
}

family! {
    /// ATOM and HETATM. `name` is its four columns as they stand: ` CA ` is carbon and `CA  ` calcium.
    Atom<'a>, AtomUnread, "ATOM",
    {
        serial: u64, name: &'a [u8], alternate: Option<u8>, residue: &'a [u8], chain: u8, number: i64, insertion: Option<u8>,
        x: f64, y: f64, z: f64, occupancy: f64, bfactor: f64, segment: &'a [u8], element: &'a [u8], charge: i64,
    }
    {
        /// HETATM.
        hetero: bool,
        /// The name without its blanks; without effect when the atom is written.
        trimmed_name: &'a [u8],
    }
}

family! {
    /// ANISOU. `name` is its four columns as they stand.
    Anisou<'a>, AnisouUnread, "ANISOU",
    {
        serial: u64, name: &'a [u8], alternate: Option<u8>, residue: &'a [u8], chain: u8, number: i64, insertion: Option<u8>,
        u11: f64, u22: f64, u33: f64, u12: f64, u13: f64, u23: f64, segment: &'a [u8], element: &'a [u8], charge: i64,
    }
    {
        /// The name without its blanks; without effect when the record is written.
        trimmed_name: &'a [u8],
    }
}

family! {
    /// CRYST1. Z is 1 in a line of 66 bytes or less.
    Cell<'a>, CellUnread, "CELL",
    { a: f64, b: f64, c: f64, alpha: f64, beta: f64, gamma: f64, group: &'a [u8], z: u64 }
}

family! {
    /// A row of SCALE, ORIGX or MTRIX; `serial` and `given` are MTRIX's alone.
    Row, RowUnread, "MTRIX",
    { serial: u64, a: f64, b: f64, c: f64, d: f64, given: bool }
    {
        /// Which of the three.
        family: Family,
        /// 0 to 2 for the names that end in 1 to 3.
        row: u64,
    }
}

/// Whose row it is.
#[allow(missing_docs)]
#[derive(Clone, Copy, Debug, Default, PartialEq, Eq)]
pub enum Family {
    #[default]
    Scale = 0,
    Origx = 1,
    Mtrix = 2,
}

family! {
    /// MODEL.
    Model, ModelUnread, "MODEL", { number: u64 }
}

family! {
    /// HEADER, its texts blanks and all.
    Header<'a>, HeaderUnread, "HEADER", { classification: &'a [u8], date: &'a [u8], code: &'a [u8] }
}

family! {
    /// REMARK.
    Remark<'a>, RemarkUnread, "REMARK", { number: u64, text: &'a [u8] }
}

family! {
    /// MASTER.
    Master, MasterUnread, "MASTER",
    {
        remark: u64, empty: u64, het: u64, helix: u64, sheet: u64, turn: u64, site: u64, xform: u64, coord: u64, ter: u64,
        connect: u64, seq: u64,
    }
}

family! {
    /// SEQRES.
    Seqres<'a>, SeqresUnread, "SEQRES",
    { serial: u64, chain: u8, residues: u64 }
    {
        /// The residues of the line, three columns each, up to thirteen.
        triples: Vec<&'a [u8]>,
    }
}

family! {
    /// DBREF.
    Dbref<'a>, DbrefUnread, "DBREF",
    {
        code: &'a [u8], chain: &'a [u8], begin: i64, opening: u8, end: i64, closing: u8, database: &'a [u8], accession: &'a [u8],
        name: &'a [u8], target_begin: i64, target_opening: u8, target_end: i64, target_closing: u8,
    }
}

family! {
    /// DBREF1.
    Dbref1<'a>, Dbref1Unread, "DBREF1",
    {
        code: &'a [u8], chain: &'a [u8], begin: i64, opening: u8, end: i64, closing: u8, database: &'a [u8], name: &'a [u8],
    }
}

family! {
    /// DBREF2.
    Dbref2<'a>, Dbref2Unread, "DBREF2",
    { code: &'a [u8], chain: &'a [u8], accession: &'a [u8], target_begin: i64, target_end: i64 }
}

family! {
    /// SEQADV. The target is there where its columns aren't all blanks.
    Seqadv<'a>, SeqadvUnread, "SEQADV",
    {
        code: &'a [u8], residue: &'a [u8], chain: &'a [u8], number: i64, insertion: Option<u8>, database: &'a [u8],
        accession: &'a [u8], target_name: Option<&'a [u8]>, target_number: Option<i64>, comment: &'a [u8],
    }
}

family! {
    /// MODRES.
    Modres<'a>, ModresUnread, "MODRES",
    {
        code: &'a [u8], residue: &'a [u8], chain: u8, number: i64, insertion: Option<u8>, standard: &'a [u8], comment: &'a [u8],
    }
}

family! {
    /// SSBOND. Operators and length are there in a line of 78 bytes or more.
    Ssbond<'a>, SsbondUnread, "SSBOND",
    {
        residue: &'a [u8], chain: u8, number: i64, insertion: Option<u8>, other_residue: &'a [u8], other_chain: u8,
        other_number: i64, other_insertion: Option<u8>, symmetry: Option<&'a [u8]>, other_symmetry: Option<&'a [u8]>,
        length: Option<f64>,
    }
}
