//! The checksum, as crates/bench_read/specs/Checksum.antt defines it.

/// Three times the sum and the value.
pub fn mixed(sum: u64, value: u64) -> u64 {
    sum.wrapping_mul(3).wrapping_add(value)
}

pub fn of_doubles(sum: u64, doubles: [f64; 5]) -> u64 {
    doubles.iter().fold(sum, |sum, x| mixed(sum, x.to_bits()))
}
