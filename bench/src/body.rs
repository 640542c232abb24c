//! Message bodies that the workloads understand.

pub fn credit(amount: u32) -> u64 {
    1 << 56 | u64::from(amount)
}

pub fn transfer(target: usize, amount: u32) -> u64 {
    2 << 56 | (target as u64) << 32 | u64::from(amount)
}

pub const STATEMENT: u64 = 4 << 56;

pub fn width(bits: u32) -> u64 {
    1 << 56 | u64::from(bits)
}

pub const BARLINE: u64 = 2 << 56;
