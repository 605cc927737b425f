//! Stands in for the crate's `ReadOptions` and `StrictnessLevel`, with what lexer.rs asks of them.

/// The crate's three levels. lexer.rs asks only whether one is `Loose`.
#[derive(Clone, Copy, Debug, PartialEq, Eq)]
pub enum StrictnessLevel {
    Strict,
    Medium,
    Loose,
}

/// The two options of 01.
#[derive(Clone, Copy, Debug)]
pub struct ReadOptions {
    pub level: StrictnessLevel,
    pub only_atomic_coords: bool,
}
