//! Refusals: a number and a table (01, Refusals).

/// Why a call was refused.
#[derive(Clone, Copy, Debug, PartialEq, Eq, PartialOrd, Ord)]
pub struct Refusal {
    pub number: u32,
    pub table: u32,
}

/// What a call gives back.
pub type Answer<T> = Result<T, Refusal>;

/// The table of a fault that lies in none of the three.
pub const NO_TABLE: u32 = 0;
pub const CIRCUIT: u32 = 1;
pub const RULES: u32 = 2;
pub const SITES: u32 = 3;

impl Refusal {
    pub const fn new(number: u32, table: u32) -> Refusal {
        Refusal { number, table }
    }

    /// The result of a C call that is refused (01, Register program, end).
    pub fn c_result(self) -> u64 {
        1_000_000 + 10 * u64::from(self.number) + u64::from(self.table)
    }
}

/// Refuses with `number` and `table` if `fault` is there.
pub fn refuse_if(fault: bool, number: u32, table: u32) -> Answer<()> {
    if fault {
        Err(Refusal::new(number, table))
    } else {
        Ok(())
    }
}

/// 01, Refusals, 2: a lent buffer has at least as many places as needed.
pub fn require_room<T>(buffer: &[T], needed: usize) -> Answer<()> {
    refuse_if(buffer.len() < needed, 2, NO_TABLE)
}

/// A lent buffer after a success: the new contents, and beyond them the old
/// ones (01, Agreed between us).
pub fn overwrite<T: Copy>(buffer: &mut [T], new: &[T]) {
    buffer[..new.len()].copy_from_slice(new);
}
