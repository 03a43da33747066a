//! Refusals: why a call gives no result.

/// The number of the first test that failed, and the table it lies in.
#[derive(Clone, Copy, Debug, PartialEq, Eq)]
pub struct Refusal {
    pub number: u32,
    pub table: u32,
}

pub type Answer<T> = Result<T, Refusal>;

/// The table of a fault that lies in none of the three.
pub const NO_TABLE: u32 = 0;
pub const CIRCUIT: u32 = 1;
pub const RULES: u32 = 2;
pub const SITES: u32 = 3;

/// Refuses with `number` and `table` unless the condition holds.
pub fn require(condition: bool, number: u32, table: u32) -> Answer<()> {
    if condition {
        Ok(())
    } else {
        Err(Refusal { number, table })
    }
}

/// Refusal 2, unless a lent buffer has as many places as needed.
pub fn require_room<T>(buffer: &[T], needed: usize) -> Answer<()> {
    require(buffer.len() >= needed, 2, NO_TABLE)
}
