//! The remark tables that are lent: the crate's own, one with no number and one with every
//! number, random ones, and some of a wrong length.

use crate::random::Random;
use crate::reference_tables;

/// A table and what it is called.
pub struct Table {
    pub name: String,
    pub bytes: &'static [u8],
}

/// All tables. They live as long as the program, so that each thread can lend them.
pub struct Tables {
    pub all: Vec<Table>,
}

pub const CRATE: usize = 0;
pub const NONE_VALID: usize = 1;
pub const ALL_VALID: usize = 2;
const FIRST_RANDOM: usize = 3;
const RANDOM: usize = 13;
pub const FIRST_WRONG: usize = FIRST_RANDOM + RANDOM;
const WRONG: [usize; 9] = [0, 1, 42, 500, 999, 1001, 1024, 1999, 2000];
pub const WRONG_COUNT: usize = WRONG.len();

impl Tables {
    pub fn new(seed: u64) -> Self {
        let mut random = Random::new(seed, u64::MAX);
        let mut all = Vec::new();
        let mut add = |name: String, bytes: Vec<u8>| {
            all.push(Table { name, bytes: bytes.leak() });
        };
        add("the crate's".into(), crates_own());
        add("no number valid".into(), vec![0; 1000]);
        add("every number valid".into(), vec![1; 1000]);
        for at in 0..RANDOM {
            // Thin ones and full ones, with any byte that isn't 0 for a valid number.
            let share = 1 + at as u64 * 7 % 13;
            let byte = |_| match random.below(14) < share {
                true => 1 + random.below(255) as u8,
                false => 0,
            };
            add(format!("random {at}"), (0..1000).map(byte).collect());
        }
        for length in WRONG {
            add(format!("{length} bytes long"), vec![1; length]);
        }
        Tables { all }
    }

    pub fn bytes(&self, at: usize) -> &'static [u8] {
        self.all[at].bytes
    }

    /// A table of 1,000 bytes, the crate's in half of all cases.
    pub fn pick(random: &mut Random) -> usize {
        match random.below(10) {
            0..=4 => CRATE,
            5 => NONE_VALID,
            6 => ALL_VALID,
            _ => FIRST_RANDOM + random.below(RANDOM as u64) as usize,
        }
    }

    pub fn pick_wrong(random: &mut Random) -> usize {
        FIRST_WRONG + random.below(WRONG_COUNT as u64) as usize
    }
}

/// The crate's own table, from its reference_tables.rs.
pub fn crates_own() -> Vec<u8> {
    (0..1000).map(|number| u8::from(reference_tables::valid_in_the_crate(number))).collect()
}
