//! Gate lines and closing lines: what circuits and both sides of rules share.

use std::ops::{BitAnd, BitXor};

use super::lines::Line;
use super::refusal::{require, Answer};

pub const XOR: u32 = 1;
pub const AND: u32 = 2;
pub const CLOSING: u32 = 3;

/// The constants 0 and 1 take the first two references.
pub const CONSTANTS: usize = 2;

/// What is wrong with the lines below a table's heads. The faults are gathered
/// in one pass, since the lowest number counts wherever it lies.
#[derive(Default)]
pub struct Faults {
    kind: bool,
    reference: bool,
    idle: bool,
}

impl Faults {
    /// Notes refusals 6 and 7 of gates, the first of reference `first`.
    pub fn note_gates(&mut self, gates: &[Line], first: usize) {
        for (own, &[kind, left, right]) in (first as u32..).zip(gates) {
            self.kind |= kind != XOR && kind != AND;
            self.reference |= left >= own || right >= own;
        }
    }

    /// Notes refusals 6 and 7 of a closing line, whose reference is to be
    /// below `end`.
    pub fn note_closing(&mut self, &[kind, reference, zero]: &Line, end: usize) {
        self.kind |= kind != CLOSING || zero != 0;
        self.reference |= reference >= end as u32;
    }

    /// Notes refusal 8.
    pub fn note_idle(&mut self, idle: bool) {
        self.idle |= idle;
    }

    /// Refuses with the lowest number noted.
    pub fn refuse(self, table: u32) -> Answer<()> {
        require(!self.kind, 6, table)?;
        require(!self.reference, 7, table)?;
        require(!self.idle, 8, table)
    }
}

/// Works out the values of gates, the first of reference `first`, from those
/// of the references below it: a bit each, or many bits at once.
pub fn work_out<T>(gates: &[Line], first: usize, values: &mut [T])
where
    T: Copy + BitAnd<Output = T> + BitXor<Output = T>,
{
    for (own, &[kind, left, right]) in (first..).zip(gates) {
        let (left, right) = (values[left as usize], values[right as usize]);
        values[own] = if kind == AND {
            left & right
        } else {
            left ^ right
        };
    }
}
