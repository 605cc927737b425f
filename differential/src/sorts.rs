//! "For 2, each fault says which sort of number the columns should have held." A listing doesn't
//! show it, so it is compared apart.

/// What the Rust says of a fault 2, around the name of the type.
const BEFORE: &str = "The text presented is not of the right kind (";
const BEHIND: &str = ").";

/// A fault's sort, as a number: none, since it isn't a 2, then 01's U, I and R.
const NAMES: [&str; 4] = ["none", "unsigned", "signed", "real"];
const TYPES: [&str; 4] = ["", "usize", "isize", "f64"];

/// The sorts of at most fifteen faults, two bits each, the first fault the lowest; as crates/serve
/// has them in its reply.
#[derive(Clone, Copy, Debug, Default, PartialEq, Eq)]
pub struct Sorts(pub u64);

impl Sorts {
    /// Adds the sort that the Rust's text for the fault at this place of the list names. False if
    /// the text names no type of number.
    pub fn note(&mut self, at: usize, text: &str) -> bool {
        let name = text.strip_prefix(BEFORE).and_then(|rest| rest.strip_suffix(BEHIND));
        let sort = TYPES.iter().position(|other| Some(*other) == name).unwrap_or(0);
        self.0 |= (sort as u64) << (2 * at);
        sort != 0
    }

    pub fn at(self, at: usize) -> usize {
        (self.0 >> (2 * at)) as usize % 4
    }

    /// In words, up to the last fault that names one.
    pub fn named(self) -> String {
        let count = (0..32).rev().find(|at| self.at(*at) != 0).map_or(1, |last| last + 1);
        let names: Vec<_> = (0..count).map(|at| NAMES[self.at(at)]).collect();
        names.join(", ")
    }
}
